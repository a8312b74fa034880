//! The port's answers, by the programs replay_encoders, replay_plans and replay_disks, each asked through a pipe. `crates/replay_frames` says
//! what a question and a reply are. The programs stand in `target/bin`, from the folder where the driver is run, or in the folder
//! that ZECHURQI_PROGRAMS names.

use std::cell::RefCell;
use std::collections::BTreeMap;
use std::io::{BufReader, BufWriter, Write};
use std::path::Path;
use std::process::{ChildStdin, ChildStdout, Command, Stdio};

use mkfs_xfs::crc::crc32c;
use mkfs_xfs::geometry::Geometry;

use crate::frames::{self, Fields};

/// The programs.
pub const ENCODERS: &str = "replay_encoders";
pub const PLANS: &str = "replay_plans";
pub const DISKS: &str = "replay_disks";

/// The forms of an answer: a frame; a line of text; a line, to a question whose lent bytes are a byte and how many there are.
pub const WHOLE: u8 = 0;
pub const LINE: u8 = 1;
pub const REPEATED: u8 = 2;

/// The functions of replay_encoders.
pub mod encoder {
    pub const AGF: u8 = 0;
    pub const AGI: u8 = 1;
    pub const AGFL: u8 = 2;
    pub const LEAF: u8 = 3;
    pub const SB: u8 = 4;
    pub const DINODE: u8 = 8;
    pub const FREE_INODE: u8 = 9;
    pub const TIME: u8 = 10;
    pub const DECODE_TIME: u8 = 11;
    pub const SF_DIR: u8 = 12;
    pub const ROOT_CHUNK: u8 = 13;
    /// record; first_record, clear_sunit and lsn follow.
    pub const RECORD: u8 = 16;
    /// alloc_recs; inobt_recs, the same with sparse, and rmap_recs follow.
    pub const RECS: u8 = 24;
    pub const ALLOC_SLICE: u8 = 28;
    pub const RMAP_SLICE: u8 = 29;
    /// crc32c; cksum, stamp and verify follow.
    pub const CRC: u8 = 32;
}

/// The functions of replay_plans.
pub mod plan {
    pub const GEOMETRY: u8 = 0;
    pub const PLACES: u8 = 1;
    pub const HELPERS: u8 = 2;
    pub const PLANS: u8 = 3;
    pub const TAKE: u8 = 4;
    pub const RMAP_INSERT: u8 = 5;
    pub const REQUEST: u8 = 6;
    pub const HOLDS: u8 = 7;
}

/// The functions of replay_disks.
pub mod disk {
    pub const GROUP_0: u8 = 0;
    pub const GROUP: u8 = 1;
    pub const LOG: u8 = 2;
    pub const DISK: u8 = 3;
    pub const CHANGE: u8 = 4;
    pub const LIST: u8 = 5;
}

/// A question: the function, its parameters, and the body, which are the lent bytes of a function that writes.
pub struct Asked {
    pub program: &'static str,
    pub function: u8,
    pub params: Vec<u8>,
    pub body: Vec<u8>,
}

pub struct Reply {
    pub number: u32,
    pub value: u64,
    pub bytes: Vec<u8>,
}

/// A program that runs, with what was last asked of it and is kept there.
struct Pipe {
    to: BufWriter<ChildStdin>,
    from: BufReader<ChildStdout>,
    first: Vec<u8>,
}

thread_local! {
    static PIPES: RefCell<BTreeMap<&'static str, Pipe>> = const { RefCell::new(BTreeMap::new()) };
}

fn started(program: &str) -> Option<Pipe> {
    let folder = std::env::var("ZECHURQI_PROGRAMS").unwrap_or("target/bin".into());
    let mut child =
        Command::new(Path::new(&folder).join(program)).stdin(Stdio::piped()).stdout(Stdio::piped()).spawn().ok()?;
    let (to, from) = (child.stdin.take()?, child.stdout.take()?);
    Some(Pipe { to: BufWriter::new(to), from: BufReader::new(from), first: Vec::new() })
}

/// Does something with the program's pipe; the program is started first where it doesn't run.
fn with_pipe<T>(program: &'static str, f: impl FnOnce(&mut Pipe) -> Option<T>) -> Option<T> {
    PIPES.with(|pipes| {
        let mut pipes = pipes.borrow_mut();
        if !pipes.contains_key(program) {
            pipes.insert(program, started(program)?);
        }
        f(pipes.get_mut(program)?)
    })
}

impl Asked {
    /// The frame of the question.
    pub fn frame(&self, form: u8) -> Vec<u8> {
        let length = (self.params.len() as u32).to_be_bytes();
        let body = [&[form, self.function][..], &length, &self.params, &self.body].concat();
        let mut frame = Vec::new();
        frames::write(&mut frame, &body).expect("a vector takes everything");
        frame
    }

    /// The program's reply; none where it doesn't run or ends.
    pub fn reply(&self) -> Option<Reply> {
        with_pipe(self.program, |pipe| {
            pipe.to.write_all(&self.frame(WHOLE)).ok()?;
            pipe.to.flush().ok()?;
            let frame = frames::read(&mut pipe.from).ok()??;
            let mut f = Fields(&frame);
            Some(Reply { number: f.u32(), value: f.u64(), bytes: f.rest().to_vec() })
        })
    }
}

impl Reply {
    /// The bytes as numbers of 8 bytes.
    pub fn numbers(&self) -> Vec<u64> {
        let mut f = Fields(&self.bytes);
        (0..self.bytes.len() / 8).map(|_| f.u64()).collect()
    }
}

/// A reply as the line that a program prints of it.
pub fn line(number: u32, value: u64, bytes: &[u8]) -> Vec<u8> {
    let sum = if bytes.is_empty() { String::new() } else { format!(" {:08x}", crc32c(bytes)) };
    format!("{number} {value}{sum}\n").into_bytes()
}

/// Numbers of 8 bytes in a row.
pub fn row(numbers: &[u64]) -> Vec<u8> {
    numbers.iter().flat_map(|n| n.to_be_bytes()).collect()
}

/// A geometry: its 19 numbers and its seven features in 8 bytes each, and its label.
pub fn geometry(g: &Geometry) -> Vec<u8> {
    let f = &g.features;
    let features = [f.finobt, f.rmapbt, f.reflink, f.inobtcount, f.bigtime, f.nrext64, f.sparse].map(u64::from);
    let fields = crate::modes::geometry::fields(g);
    let numbers: Vec<u64> = fields[..19].iter().map(|&(_, value)| value).chain(features).collect();
    [&row(&numbers)[..], &g.label].concat()
}

/// The reader: heads and the log's first block. Group 0's head stands in place of a geometry.
pub mod reader {
    use super::{disk, with_pipe, Asked, Reply, DISKS};

    fn ask(function: u8, params: &[u8], body: &[u8]) -> Option<Reply> {
        Asked { program: DISKS, function, params: params.to_vec(), body: body.to_vec() }.reply()
    }

    /// The number of group 0's head, and where it is 0 what the head gives.
    pub fn group0(head: &[u8]) -> Option<Vec<u64>> {
        let reply = ask(disk::GROUP_0, &[], head)?;
        with_pipe(DISKS, |pipe| {
            pipe.first = head.to_vec();
            Some(())
        })?;
        Some([&[u64::from(reply.number)][..], &reply.numbers()].concat())
    }

    /// Has the program keep group 0's head, unless it does.
    fn by(head0: &[u8]) -> Option<()> {
        if with_pipe(DISKS, |pipe| Some(pipe.first != head0))? {
            group0(head0)?;
        }
        Some(())
    }

    /// The number of a group's head.
    pub fn group(head0: &[u8], agno: u64, head: &[u8]) -> Option<u32> {
        by(head0)?;
        Some(ask(disk::GROUP, &agno.to_be_bytes(), head)?.number)
    }

    /// The number of the log's first block.
    pub fn log(head0: &[u8], block: &[u8]) -> Option<u32> {
        by(head0)?;
        Some(ask(disk::LOG, &[], block)?.number)
    }
}
