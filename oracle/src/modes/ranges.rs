//! Program `inquire sizes`: a case is the words after `sizes` and the input records (`../words.rs`); an answer is the standard output, by the model
//! (`../ranges.rs`). A quarter of the cases in plain sizing is asked of the Rust too, each size of them.

use std::io;

use super::geometry::step;
use super::{Mode, Out, Told};
use crate::model::Sizing;
use crate::random::Random;
use crate::ranges::{by_model, by_rust, range, Range, FARTHEST, MIB};
use crate::request::{op, Request, MALFORMED};
use crate::runs;
use crate::wishes;
use crate::words::{self, parts};

const TIB: u64 = 1 << 40;

/// Sizes at which an answer may change, whatever the options.
const BORDERS: [u64; 14] = [
    0,
    16 * MIB,
    300 * MIB,
    300 * MIB,
    300 * MIB,
    1 << 30,
    128 << 30,
    TIB,
    4 * TIB,
    32 * TIB,
    50 * TIB,
    1 << 62,
    1 << 63,
    u64::MAX,
];

/// A request of any kind, mostly one that is accepted on its own device.
pub fn request(r: &mut Random) -> Request {
    loop {
        let mut q = runs::request(r);
        wishes::with_profile(r, &mut q);
        if r.one_in(8) {
            q.label = Some(r.bytes(13));
        }
        if r.one_in(4) || step(&q).1.is_some() {
            return q;
        }
    }
}

/// A size at which the request's answer may change.
pub fn border(r: &mut Random, q: &mut Request) -> u64 {
    let block = wishes::block(q);
    let group = q.options[op::AGSIZE].unwrap_or(TIB).max(block);
    match r.below(8) {
        0 | 1 => q.device,
        2 => {
            q.options[op::SIZE] = q.options[op::SIZE].or(Some(q.device));
            q.options[op::SIZE].unwrap_or(0)
        }
        3 => {
            let groups = (q.device / group).saturating_sub(r.below(3));
            (groups * group).saturating_add(r.pick(&[0, 16 * MIB, 64 * MIB]))
        }
        4 => r.wide(),
        _ => r.pick(&BORDERS),
    }
}

/// A request and a size from which on, or some blocks further on, larger devices are refused: by 14, 16, 18, 24 or 25.
fn falling(r: &mut Random) -> (Request, u64) {
    let mut q = wishes::request(r, 0);
    let b = wishes::block(&q);
    let size = 64 * MIB / b + 20 + r.below(2000);
    q.options[op::SIZING] = r.pick(&[None, None, Some(0), Some(1)]);
    match r.below(6) {
        // agcount beside agsize: a short last group is refused.
        0 | 1 => {
            let groups = 5 + r.below(60);
            q.options[op::AGSIZE] = Some(size * b);
            q.options[op::AGCOUNT] = Some(r.below(70));
            (q, groups * size * b)
        }
        // The largest groups.
        2 => {
            let groups = 2 + r.below(60);
            q.options[op::AGCOUNT] = Some(groups);
            (q, groups * TIB)
        }
        3 => {
            let q = runs::most_groups(r);
            let bytes = q.options[op::AGSIZE].unwrap_or(TIB);
            (q, bytes.saturating_mul(4_294_967_294))
        }
        // More groups than a group has blocks: every so many blocks the last ones have none.
        4 => {
            let groups = size / 2 + r.below(size);
            q.options[op::AGCOUNT] = Some(groups);
            (q, groups * (size + r.below(3)) * b)
        }
        // A log that grows with the disk, in groups that it fills.
        _ => {
            q.options[op::AGSIZE] = Some(size * b);
            let head = step(&Request { device: 8 * size * b, ..q.clone() }).1.map_or(0, |g| g.prealloc_blocks());
            (q, 2048 * (size - head - 5) * b)
        }
    }
}

/// Some steps from a border.
pub fn steps(r: &mut Random, most: u64) -> u64 {
    match r.below(16) {
        0 => r.below(most),
        1..=3 => r.below(most.min(4000)),
        4..=7 => r.below(2),
        _ => r.below(60),
    }
}

/// The request's records; the device's size, which isn't read, is any.
fn records(r: &mut Random, q: &mut Request) -> Vec<u8> {
    if r.one_in(2) {
        q.device = r.wide();
    }
    if r.one_in(16) {
        wishes::records(r, q)
    } else {
        q.encode()
    }
}

/// The question's words, sometimes spoilt, with the records.
pub fn asked(r: &mut Random, mut given: Vec<String>, mut q: Request) -> Vec<u8> {
    let records = records(r, &mut q);
    if r.one_in(64) {
        words::spoil(r, &mut given);
    }
    words::case(&given, &records)
}

/// Whether the Rust is asked too.
pub fn by_both(case: &[u8], q: &Request) -> bool {
    q.sizing() == Sizing::Plain && case.iter().map(|&b| u32::from(b)).sum::<u32>() % 4 == 0
}

/// The model's answer, which must be the Rust's where that is asked.
pub fn agreed<T: PartialEq + std::fmt::Debug>(model: T, rust: Option<T>) -> io::Result<T> {
    match rust {
        Some(rust) if rust != model => Err(io::Error::other(format!("the model has {model:?}, the Rust {rust:?}"))),
        _ => Ok(model),
    }
}

pub fn unasked() -> io::Result<Told> {
    Ok(Told::apart("no such words, nothing printed,", 0))
}

pub struct Sizes;

/// The two ends, if the words are as they should be.
fn ends(given: &str) -> Option<[u64; 2]> {
    let ends: Vec<u64> = given.split_whitespace().map(words::size).collect::<Option<_>>()?;
    ends.try_into().ok()
}

impl Mode for Sizes {
    fn case(&self, r: &mut Random) -> Vec<u8> {
        let (q, at) = if r.one_in(3) {
            falling(r)
        } else {
            let mut q = request(r);
            let at = border(r, &mut q);
            (q, at)
        };
        let block = wishes::block(&q);
        let within = |r: &mut Random| if r.one_in(2) { 0 } else { r.below(block) };
        let (below, above) = (steps(r, FARTHEST / 2), steps(r, FARTHEST / 2));
        let first = at.saturating_sub(below * block).saturating_add(within(r));
        let last = at.saturating_add(above * block).saturating_add(within(r));
        let (first, last) = match r.below(16) {
            // As far apart as may be, or a block more or less; far too far; the wrong way, which within a block is none.
            0 => (first, (first / block * block).saturating_add((FARTHEST - 1 + r.below(3)) * block + within(r))),
            1 => (r.wide(), last),
            2 => (last, first),
            3 => (first, first.saturating_sub(within(r))),
            _ => (first, last),
        };
        let given = vec![words::size_word(r, first), words::size_word(r, last)];
        asked(r, given, q)
    }

    fn answer(&self, case: &[u8], out: Out) -> io::Result<Told> {
        let (given, records) = parts(case);
        let Some([first, last]) = ends(&given) else { return unasked() };
        let Some(q) = Request::parse(records) else {
            writeln!(out, "refused {MALFORMED}")?;
            return Ok(Told::apart("the call,", MALFORMED));
        };
        let asked = by_both(case, &q);
        let rust = asked.then(|| range(&q, first, last, by_rust));
        let (kind, number) = match agreed(range(&q, first, last, by_model), rust)? {
            Ok(Range::Formatted) => {
                writeln!(out, "formatted")?;
                ("formatted,", 0)
            }
            Ok(Range::Refused(blocks, number)) => {
                writeln!(out, "blocks {blocks} refused {number}")?;
                let block = wishes::block(&q);
                (if blocks == first / block { "the first size," } else { "a later size," }, number)
            }
            Err(number) => {
                writeln!(out, "refused {number}")?;
                ("the call,", number)
            }
        };
        Ok(Told { kind, number, asked })
    }

    fn run<'a>(&self, case: &'a [u8]) -> (Vec<String>, &'a [u8]) {
        let (given, records) = parts(case);
        (words::asked("sizes", &given), records)
    }

    fn traits(&self, case: &[u8]) -> Vec<(&'static str, String)> {
        let (given, records) = parts(case);
        let (Some([first, last]), Some(q)) = (ends(&given), Request::parse(records)) else { return Vec::new() };
        let blocks = (last / wishes::block(&q)).saturating_sub(first / wishes::block(&q));
        let options = [op::SIZE, op::AGSIZE, op::AGCOUNT].map(|code| q.options[code].is_some());
        vec![
            ("sizes, in bits", (64 - blocks.leading_zeros()).to_string()),
            ("size, agsize and agcount given", format!("{options:?}")),
            ("sizing", format!("{:?}", q.sizing())),
        ]
    }

    fn show_case(&self, case: &[u8]) -> String {
        show(case)
    }

    fn show_answer(&self, answer: &[u8]) -> String {
        String::from_utf8_lossy(answer).into_owned()
    }
}

pub fn show(case: &[u8]) -> String {
    let (given, records) = parts(case);
    format!("{given} {} {:?}", super::hex(records), Request::parse(records))
}
