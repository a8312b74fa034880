//! What can be compared. A mode makes cases from a seed, has the Rust's answer to a case, and knows the port's.

use std::io::{self, Write};

use crate::port::{self, Asked, Reply};
use crate::random::Random;

pub mod cabinets;
pub mod chunk;
pub mod corners;
pub mod crc;
pub mod cuts;
pub mod damage;
pub mod geometry;
pub mod hold_states;
pub mod holds;
pub mod inodes;
pub mod lengths;
pub mod lists;
pub mod log;
pub mod made;
pub mod models;
pub mod places;
pub mod plans;
pub mod profiles;
pub mod ranges;
pub mod reader;
pub mod readings;
pub mod records;
pub mod replayed;
pub mod requests;
pub mod roomy;
pub mod sizings;
pub mod smallest;
pub mod structs;
pub mod writes;

/// What an answer is counted under.
#[derive(Clone, PartialEq, Eq, PartialOrd, Ord)]
pub struct Told {
    /// The kind of case, where a mode has several.
    pub kind: &'static str,
    /// The scope's number, 0 where the case is accepted.
    pub number: u32,
    /// Whether the Rust itself was asked. It isn't where a number that the scope adds refuses the case, nor in roomy sizing.
    pub asked: bool,
}

impl Told {
    pub fn asked(kind: &'static str, number: u32) -> Self {
        Told { kind, number, asked: true }
    }

    pub fn apart(kind: &'static str, number: u32) -> Self {
        Told { kind, number, asked: false }
    }
}

/// Where an answer is written.
pub type Out<'a> = &'a mut (dyn Write + Send);

pub trait Mode {
    /// The next case.
    fn case(&self, r: &mut Random) -> Vec<u8>;

    /// The Rust's answer; the scope's where the Rust can't be asked.
    fn answer(&self, case: &[u8], out: Out) -> io::Result<Told>;

    /// What a program of the port is asked, where one question has the answer.
    fn asked(&self, _case: &[u8]) -> Option<Asked> {
        None
    }

    /// The answer that the program's reply is.
    fn replied(&self, _case: &[u8], reply: Reply) -> Vec<u8> {
        numbered(reply.number, &reply.bytes)
    }

    /// The port's answer.
    fn ours(&self, case: &[u8]) -> Option<Vec<u8>> {
        Some(self.replied(case, self.asked(case)?.reply()?))
    }

    /// The words and the standard input of a program that answers one case.
    fn run<'a>(&self, case: &'a [u8]) -> (Vec<String>, &'a [u8]) {
        (Vec::new(), case)
    }

    /// What the single calls of a case are counted under, where it has several.
    fn calls(&self, _case: &[u8]) -> Vec<Told> {
        Vec::new()
    }

    /// The case as the program that replays the mode's answers reads it, where there is one.
    fn replayed(&self, case: &[u8]) -> Option<Vec<u8>> {
        Some(self.asked(case)?.frame(port::LINE))
    }

    /// The answer as that program prints it. An encoder's has its number in the first four bytes.
    fn replayed_answer(&self, _case: &[u8], answer: &[u8]) -> Vec<u8> {
        let (number, bytes) = answer.split_at(4);
        port::line(u32::from_be_bytes(number.try_into().unwrap()), 0, bytes)
    }

    /// Cases that are replayed whatever the seed.
    fn always(&self) -> Vec<Vec<u8>> {
        Vec::new()
    }

    /// What an accepted case has, as a name and a value, for the count of the cases.
    fn traits(&self, _case: &[u8]) -> Vec<(&'static str, String)> {
        Vec::new()
    }

    /// A case and an answer in words, for the report of a difference.
    fn show_case(&self, case: &[u8]) -> String {
        hex(case)
    }

    fn show_answer(&self, answer: &[u8]) -> String {
        hex(answer)
    }

    /// What stands at a byte of an answer.
    fn show_place(&self, _answer: &[u8], _at: usize) -> String {
        String::new()
    }
}

pub fn named(name: &str) -> Option<Box<dyn Mode + Sync>> {
    Some(match name {
        "crc" => Box::new(crc::Crc),
        "geometry" => Box::new(geometry::Geometries),
        "places" => Box::new(places::Places),
        "helpers" => Box::new(places::Helpers),
        "request" => Box::new(requests::Requests),
        "plans" => Box::new(plans::Plans),
        "planlist" => Box::new(plans::Planlist),
        "writelist" => Box::new(writes::Writelist),
        "refusals" => Box::new(writes::Refusals),
        "take" => Box::new(lists::Take),
        "rmap_insert" => Box::new(lists::RmapInsert),
        "record" => Box::new(log::Record),
        "sb" => Box::new(structs::Sb),
        "agf" => Box::new(structs::AgfSector),
        "agi" => Box::new(structs::AgiSector),
        "agfl" => Box::new(structs::AgflSector),
        "leaf" => Box::new(structs::Leaf),
        "recs" => Box::new(structs::Recs),
        "slices" => Box::new(structs::Slices),
        "chunk" => Box::new(chunk::RootChunk),
        "dinode" => Box::new(inodes::Allocated),
        "free_inode" => Box::new(inodes::Free),
        "time" => Box::new(inodes::Time),
        "sf_dir" => Box::new(inodes::SfDir),
        "structs" => Box::new(replayed::Structs),
        "records" => Box::new(records::Records),
        "reader" => Box::new(reader::Reader),
        "tables" => Box::new(reader::Tables),
        "damage" => Box::new(damage::Damage::new()),
        "mkfs" => Box::new(made::Made::new()),
        "readings" => Box::new(readings::Readings::new()),
        "model" => Box::new(models::Step),
        "model_list" => Box::new(models::List),
        "corners" => Box::new(corners::Corners::tables()),
        "corner_lists" => Box::new(corners::Corners::lists()),
        "holds" => Box::new(holds::Holds),
        "hold_states" => Box::new(hold_states::HoldStates),
        "length" => Box::new(lengths::Lengths),
        "cabinet" => Box::new(cabinets::Cabinets::new()),
        "sizes" => Box::new(ranges::Sizes),
        "smallest" => Box::new(smallest::Smallest),
        "profile" => Box::new(profiles::Profiles::tables()),
        "profile_list" => Box::new(profiles::Profiles::lists()),
        "profile_length" => Box::new(profiles::Profiles::lengths()),
        "profile_disks" => Box::new(profiles::Disks),
        "sizings" => Box::new(sizings::Sizings),
        "cuts" => Box::new(cuts::Cuts),
        _ => return None,
    })
}

/// An answer of the encoders: the number in four bytes, and the lent bytes as they are left.
pub fn numbered(number: u32, bytes: &[u8]) -> Vec<u8> {
    [&number.to_be_bytes()[..], bytes].concat()
}

/// The bytes in hexadecimal digits.
pub fn hex(bytes: &[u8]) -> String {
    bytes.iter().map(|b| format!("{b:02x}")).collect()
}
