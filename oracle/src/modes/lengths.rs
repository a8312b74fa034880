//! Program `inquire length`: a case is the words after `length` (there should be none) and the input records (`../words.rs`); an answer is the
//! standard output, by the model (`../lengths.rs`).

use std::io;

use super::plans::accepted;
use super::writes::Writelist;
use super::{Mode, Out, Told};
use crate::crowded;
use crate::lengths::length;
use crate::random::Random;
use crate::request::{op, Request};
use crate::runs;
use crate::wishes;
use crate::words;

pub struct Lengths;

/// Groups of 1 TiB, and of less, on disks of up to 2^63 bytes.
const MANY_GROUPS: u64 = 1 << 23;

/// UUID, seed and mostly a time in range.
fn run(r: &mut Random, mut q: Request) -> Request {
    wishes::with_run(r, &mut q);
    wishes::with_profile(r, &mut q);
    if !r.one_in(8) {
        q.options[op::SECONDS] = Some(r.below(1 << 31));
        q.options[op::NANOSECONDS] = Some(r.below(1_000_000_000));
    }
    q
}

/// Input records of disks of all sizes, in both sizings, of which some are refused.
pub fn records(r: &mut Random) -> Vec<u8> {
    let changes = r.below(3);
    let q = match r.below(12) {
        0..=2 => return Writelist.case(r),
        3..=5 => {
            let q = crowded::request(r, 40);
            let q = run(r, q);
            return crowded::records(r, &q);
        }
        6 => wishes::many(r, MANY_GROUPS),
        7 => runs::most_groups(r),
        8 | 9 => wishes::small(r, changes, 60),
        _ => wishes::request(r, changes),
    };
    let q = run(r, q);
    wishes::records(r, &q)
}

/// The answer of a run's length, or of its refusal.
pub fn print(out: Out, q: Option<Request>) -> io::Result<Told> {
    let (told, found) = length(q)?;
    match found {
        Some(l) => writeln!(out, "records {} bytes {} payload {}", l.records, l.bytes, l.payload)?,
        None => writeln!(out, "refused {}", told.number)?,
    }
    Ok(told)
}

impl Mode for Lengths {
    fn case(&self, r: &mut Random) -> Vec<u8> {
        let mut given = Vec::new();
        if r.one_in(100) {
            words::spoil(r, &mut given);
        }
        words::case(&given, &records(r))
    }

    fn answer(&self, case: &[u8], out: Out) -> io::Result<Told> {
        let (given, records) = words::parts(case);
        if !given.is_empty() {
            return Ok(Told::apart("no such words, nothing printed,", 0));
        }
        print(out, Request::parse(records))
    }

    fn run<'a>(&self, case: &'a [u8]) -> (Vec<String>, &'a [u8]) {
        let (given, records) = words::parts(case);
        (words::asked("length", &given), records)
    }

    fn traits(&self, case: &[u8]) -> Vec<(&'static str, String)> {
        let (_, Some((q, g))) = accepted(words::parts(case).1) else { return Vec::new() };
        vec![
            ("sizes: block, sector, inode", format!("{} {} {}", g.blocksize, g.sectsize, g.inodesize)),
            ("features", super::geometry::feature_bits(&g.features).to_string()),
            ("sizing", format!("{:?}", q.sizing())),
            ("groups, in bits", (64 - g.agcount.leading_zeros()).to_string()),
        ]
    }

    fn show_case(&self, case: &[u8]) -> String {
        let (given, records) = words::parts(case);
        format!("{given} {} {:?}", super::hex(records), Request::parse(records))
    }

    fn show_answer(&self, answer: &[u8]) -> String {
        String::from_utf8_lossy(answer).into_owned()
    }
}
