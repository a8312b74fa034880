//! Program writelist: a case is its standard input, an answer its standard output.

use std::io;

use super::geometry::feature_bits;
use super::plans::{accepted, few, plan, run_of};
use super::{Mode, Out, Told};
use crate::frames::Fields;
use crate::port::{self, Asked};
use crate::random::Random;
use crate::recorded::{formatted, Sink};
use crate::request::{op, Request};
use crate::wishes;

pub struct Writelist;

/// The most groups of a case, and how often it has that many.
const GROUPS: u64 = 40;
const MANY_GROUPS: u64 = 2000;
const MANY_ONCE_IN: u64 = 150;

/// Writes down what is done to the device, as the scope's written records.
pub struct Records<'a>(pub Out<'a>);

impl Records<'_> {
    fn put(&mut self, parts: &[&[u8]]) -> io::Result<()> {
        parts.iter().try_for_each(|p| self.0.write_all(p))
    }
}

impl Sink for Records<'_> {
    fn block(&mut self, at: u64, bytes: &[u8]) -> io::Result<()> {
        self.put(&[b"WB", &at.to_be_bytes(), &(bytes.len() as u64).to_be_bytes(), bytes])
    }

    fn zeros(&mut self, at: u64, len: u64) -> io::Result<()> {
        self.put(&[b"WZ", &at.to_be_bytes(), &len.to_be_bytes()])
    }

    fn flush(&mut self) -> io::Result<()> {
        self.put(&[b"FL"])
    }
}

/// The small disk whose list is replayed whole: 300 MiB and a part of a block, 3 groups, blocks of 1024 bytes.
pub fn whole_case() -> Vec<u8> {
    let mut q = Request { device: (300 << 20) + 777, logical: 512, physical: 512, ..Request::default() };
    q.options[op::BLOCK] = Some(1024);
    q.options[op::AGCOUNT] = Some(3);
    q.options[op::SEED] = Some(0x0123_4567_89ab_cdef);
    q.options[op::SECONDS] = Some(1_700_000_000);
    q.options[op::NANOSECONDS] = Some(123_456_789);
    q.label = Some(b"station".to_vec());
    q.id = Some(*b"\x5a\xec\x68\x75\x72\x71\x4a\x11\x8d\x15\x20\x26\x11\x15\x21\x07");
    q.encode()
}

/// The number of a refusal, where the answer is one.
fn refusal(answer: &[u8]) -> Option<&[u8]> {
    answer.strip_prefix(b"refused ")?.strip_suffix(b"\n")
}

/// Blocks are counted by this name.
fn by_block(size: u32) -> &'static str {
    match size {
        1024 => "block 1024",
        2048 => "block 2048",
        4096 => "block 4096",
        8192 => "block 8192",
        _ => "block 16384",
    }
}

fn range(n: u64, ends: &[u64]) -> String {
    let end = ends.iter().find(|&&end| n <= end);
    end.map_or("more".into(), |end| format!("to {end:4}"))
}

/// Which end of the times that the features allow, or neither.
fn time_of(q: &Request) -> &'static str {
    let t = q.time();
    match (t.secs, t.nsecs, q.features().bigtime) {
        (-2_147_483_648, 0, _) => "first",
        (16_299_260_425, 709_551_615, true) | (2_147_483_647, 999_999_999, false) => "last",
        _ => "between",
    }
}

/// What the program writes for a request, which is none where its records are malformed.
pub fn list(out: Out, q: Option<Request>) -> io::Result<Told> {
    let (told, run) = run_of(q);
    let Some((q, g)) = run else {
        writeln!(out, "refused {}", told.number)?;
        return Ok(told);
    };
    formatted(&q, &g, Records(out))?;
    Ok(Told { kind: by_block(g.blocksize), ..told })
}

impl Mode for Writelist {
    fn case(&self, r: &mut Random) -> Vec<u8> {
        loop {
            let mut q = if r.one_in(MANY_ONCE_IN) { wishes::many_run(r, MANY_GROUPS) } else { few(r, GROUPS) };
            if r.one_in(4) {
                wishes::any_label(r, &mut q);
            }
            if r.one_in(4) {
                wishes::end_of_time(r, &mut q);
            }
            // A spoilt record can ask for more groups.
            let case = wishes::records(r, &q);
            if accepted(&case).1.is_none_or(|(_, g)| g.agcount <= MANY_GROUPS) {
                return case;
            }
        }
    }

    fn answer(&self, case: &[u8], out: Out) -> io::Result<Told> {
        list(out, Request::parse(case))
    }

    /// The list itself is written without a frame.
    fn replayed(&self, case: &[u8]) -> Option<Vec<u8>> {
        let (params, body) = (Vec::new(), case.to_vec());
        let asked = Asked { program: port::DISKS, function: port::disk::LIST, params, body };
        Some(asked.frame(if case == whole_case() { port::WHOLE } else { port::LINE }))
    }

    fn replayed_answer(&self, case: &[u8], answer: &[u8]) -> Vec<u8> {
        match refusal(answer) {
            _ if case == whole_case() => answer.to_vec(),
            Some(number) => [number, b" 0\n"].concat(),
            None => port::line(0, answer.len() as u64, answer),
        }
    }

    fn always(&self) -> Vec<Vec<u8>> {
        vec![whole_case()]
    }

    fn traits(&self, case: &[u8]) -> Vec<(&'static str, String)> {
        let (_, Some((q, g))) = accepted(case) else {
            return Vec::new();
        };
        let label = match &q.label {
            None => "absent",
            Some(l) if std::str::from_utf8(l).is_err() => "other bytes",
            Some(_) => "UTF-8",
        };
        let free = plan(&g, g.logagno).map_or(0, |p| p.free.len());
        vec![
            ("sizes: block, sector, inode", format!("{} {} {}", g.blocksize, g.sectsize, g.inodesize)),
            ("features", feature_bits(&g.features).to_string()),
            ("groups", range(g.agcount, &[2, 4, 10, 40, 500, 1000, 1500, 1999, 2000])),
            ("last group", if g.dblocks % g.agsize == 0 { "whole" } else { "short" }.into()),
            ("free records of the log group", free.to_string()),
            ("time", time_of(&q).into()),
            ("label", label.into()),
            ("seed", if q.options[op::SEED].is_some() { "given" } else { "absent" }.into()),
            ("UUID", if q.id.is_some() { "given" } else { "absent" }.into()),
        ]
    }

    fn show_case(&self, case: &[u8]) -> String {
        format!("{} {:?}", super::hex(case), Request::parse(case))
    }

    fn show_answer(&self, answer: &[u8]) -> String {
        super::hex(&answer[..answer.len().min(1000)])
    }

    fn show_place(&self, answer: &[u8], at: usize) -> String {
        let mut f = Fields(answer);
        let mut record = 1;
        loop {
            let begin = answer.len() - f.0.len();
            let mark: [u8; 2] = f.array();
            let (mut offset, mut length) = (0, 0);
            if mark != *b"FL" {
                (offset, length) = (f.u64(), f.u64());
            }
            if mark == *b"WB" {
                f.bytes(length as usize);
            }
            if f.0.is_empty() || at < answer.len() - f.0.len() {
                let mark = String::from_utf8_lossy(&mark);
                return format!(": byte {} of record {record}, {mark} {offset} {length}", at - begin);
            }
            record += 1;
        }
    }
}

/// Only the cases that are refused: many of them, quickly. Those with a sizing, which the Rust doesn't know, are kept too, so that a seed has
/// the cases that it had.
pub struct Refusals;

impl Mode for Refusals {
    fn case(&self, r: &mut Random) -> Vec<u8> {
        loop {
            let case = Writelist.case(r);
            if accepted(&case).1.is_none_or(|(q, _)| q.options[op::SIZING].is_some()) {
                return case;
            }
        }
    }

    fn answer(&self, case: &[u8], out: Out) -> io::Result<Told> {
        Writelist.answer(case, out)
    }

    fn show_case(&self, case: &[u8]) -> String {
        Writelist.show_case(case)
    }

    fn show_answer(&self, answer: &[u8]) -> String {
        String::from_utf8_lossy(answer).into_owned()
    }
}
