//! The geometry's methods, its conversions, and the two functions beside it.

use std::io;
use std::panic::catch_unwind;

use mkfs_xfs::geometry::{ag_min_blocks, log2_roundup, Geometry};

use super::geometry::step;
use super::{Mode, Out, Told};
use crate::frames::Fields;
use crate::port::{self, Asked, Reply};
use crate::random::Random;
use crate::request::{Request, MALFORMED};
use crate::wishes;

/// A group number not below agcount, a block not below its group's length, a slot not below inodes per block.
const NO_PLACE: u32 = 29;

/// A case is a group, a block of it and a slot (8 bytes each), and the input records. An answer is a line with the
/// geometry step's number, then, if it is 0: a line with every method that takes no number, in the Rust's order; and
/// a line each with the number, and after 0 the result, of ag_blocks, agb_to_fsb, agb_to_byte, agb_to_daddr and ino.
pub struct Places;

/// The methods that take no number.
const METHODS: usize = 23;

fn methods(g: &Geometry) -> [u64; METHODS] {
    [
        g.bs(),
        g.header_blocks(),
        g.bno_block(),
        g.cnt_block(),
        g.ibt_block(),
        g.fibt_block(),
        g.rmap_block(),
        g.refc_block(),
        g.prealloc_blocks(),
        g.ag_max_usable(),
        g.agfl_size().into(),
        g.min_freelist(),
        g.chunk_blocks(),
        g.inoalignmt(),
        g.cluster_align(),
        g.rextsize().into(),
        g.lsunit_bytes().into(),
        g.logsunit().into(),
        g.spino_align().into(),
        g.logstart(),
        g.root_chunk_agbno(),
        g.rootino(),
        g.initial_fdblocks(),
    ]
}

/// Group 0, the last, the log's, any, or none.
fn group(r: &mut Random, g: &Geometry) -> u64 {
    match r.below(6) {
        0 => 0,
        1 => g.agcount - 1,
        2 => g.logagno,
        3 => r.near(g.agcount, 1),
        4 => r.wide(),
        _ => r.below(g.agcount),
    }
}

/// What a case is counted under, and the number and the value of every answer; none where the geometry step refuses it.
fn answered(case: &[u8]) -> (Told, Vec<[u64; 2]>) {
    let mut f = Fields(case);
    let (agno, agbno, slot) = (f.u64(), f.u64(), f.u64());
    let Some(q) = Request::parse(f.rest()) else {
        return (Told::apart("", MALFORMED), Vec::new());
    };
    let (told, answer) = step(&q);
    let Some(g) = answer else {
        return (told, Vec::new());
    };
    let in_disk = agno < g.agcount;
    let in_group = in_disk && agbno < g.ag_blocks(agno);
    let in_block = in_group && slot < g.inopblock.into();
    let conversions: [(bool, &dyn Fn() -> u64); 5] = [
        (in_disk, &|| g.ag_blocks(agno)),
        (in_group, &|| g.agb_to_fsb(agno, agbno)),
        (in_group, &|| g.agb_to_byte(agno, agbno)),
        (in_group, &|| g.agb_to_daddr(agno, agbno)),
        (in_block, &|| g.ino(agno, agbno, slot)),
    ];
    let converted = conversions.map(|(inside, value)| if inside { [0, value()] } else { [NO_PLACE.into(), 0] });
    let answers = methods(&g).map(|value| [0, value]).into_iter().chain(converted).collect();
    (if in_block { told } else { Told::apart("no place", NO_PLACE) }, answers)
}

/// The lines of an answer.
fn lines(number: u32, answers: &[[u64; 2]]) -> Vec<u8> {
    let mut lines = format!("{number}\n");
    if let Some((methods, conversions)) = answers.split_at_checked(METHODS) {
        let method =
            |&[number, value]: &[u64; 2]| if number == 0 { value.to_string() } else { format!("refused {number}") };
        lines += &(methods.iter().map(method).collect::<Vec<_>>().join(" ") + "\n");
        for &[number, value] in conversions {
            lines += &if number == 0 { format!("0 {value}\n") } else { format!("{number}\n") };
        }
    }
    lines.into_bytes()
}

impl Mode for Places {
    fn case(&self, r: &mut Random) -> Vec<u8> {
        let changes = r.below(3);
        let q = wishes::request(r, changes);
        let mut place = [r.wide(), r.wide(), r.wide()];
        if let Some(g) = step(&q).1 {
            place[0] = group(r, &g);
            let end = if place[0] < g.agcount { g.ag_blocks(place[0]) } else { g.agsize };
            place[1] = if r.one_in(4) { r.near(end, 1) } else { r.below(end) };
            place[2] = r.below(u64::from(g.inopblock) + 1);
        }
        [&place.map(u64::to_be_bytes).concat()[..], &q.encode()].concat()
    }

    fn answer(&self, case: &[u8], out: Out) -> io::Result<Told> {
        let (told, answers) = answered(case);
        out.write_all(&lines(if answers.is_empty() { told.number } else { 0 }, &answers))?;
        Ok(told)
    }

    fn asked(&self, case: &[u8]) -> Option<Asked> {
        let (place, records) = case.split_at_checked(24)?;
        let (params, body) = (place.to_vec(), records.to_vec());
        Some(Asked { program: port::PLANS, function: port::plan::PLACES, params, body })
    }

    fn replied(&self, _case: &[u8], reply: Reply) -> Vec<u8> {
        lines(reply.number, &reply.numbers().chunks(2).map(|pair| [pair[0], pair[1]]).collect::<Vec<_>>())
    }

    fn replayed_answer(&self, case: &[u8], _answer: &[u8]) -> Vec<u8> {
        let (told, answers) = answered(case);
        port::line(if answers.is_empty() { told.number } else { 0 }, 0, &port::row(&answers.concat()))
    }

    fn show_case(&self, case: &[u8]) -> String {
        format!("{} {:?}", super::hex(case), case.get(24..).map(Request::parse))
    }

    fn show_answer(&self, answer: &[u8]) -> String {
        String::from_utf8_lossy(answer).into_owned()
    }
}

/// `log2_roundup` of a number (8 bytes) and `ag_min_blocks` of a shift (1 byte): a line with both.
pub struct Helpers;

impl Mode for Helpers {
    fn case(&self, r: &mut Random) -> Vec<u8> {
        let power = 1u64 << r.below(64);
        let number = if r.one_in(2) { r.near(power, 1) } else { r.wide() };
        let shift = if r.one_in(2) { r.below(70) } else { r.below(256) };
        [&number.to_be_bytes()[..], &[shift as u8]].concat()
    }

    fn answer(&self, case: &[u8], out: Out) -> io::Result<Told> {
        let mut f = Fields(case);
        let (number, shift) = (f.u64(), f.u8());
        // Above 2^63 and from a shift of 64 on the Rust overflows.
        let log = catch_unwind(|| log2_roundup(number));
        let least = catch_unwind(|| ag_min_blocks(shift));
        let asked = log.is_ok() && least.is_ok();
        writeln!(out, "{} {}", log.unwrap_or(64), least.unwrap_or(0))?;
        Ok(Told { kind: "", number: 0, asked })
    }

    fn asked(&self, case: &[u8]) -> Option<Asked> {
        let mut f = Fields(case);
        let params = port::row(&[f.u64(), f.u8().into()]);
        Some(Asked { program: port::PLANS, function: port::plan::HELPERS, params, body: Vec::new() })
    }

    fn replied(&self, _case: &[u8], reply: Reply) -> Vec<u8> {
        let words: Vec<String> = reply.numbers().iter().map(|n| n.to_string()).collect();
        (words.join(" ") + "\n").into_bytes()
    }

    fn replayed_answer(&self, _case: &[u8], answer: &[u8]) -> Vec<u8> {
        let words = String::from_utf8_lossy(answer);
        let numbers: Vec<u64> = words.split_whitespace().filter_map(|word| word.parse().ok()).collect();
        port::line(0, 0, &port::row(&numbers))
    }

    fn show_answer(&self, answer: &[u8]) -> String {
        String::from_utf8_lossy(answer).into_owned()
    }
}
