//! Program `inquire smallest`: a case is the words after `smallest` and the input records (`../words.rs`); an answer is the standard output, by the
//! model (`../smallest.rs`). A quarter of the cases in plain sizing is asked of the Rust too, each size of them; the free count of a size that is
//! found is held to the superblock that the run leaves.

use std::io;

use mkfs_xfs::geometry::Geometry;

use super::ranges::{agreed, asked, border, by_both, request, show, steps, unasked};
use super::{Mode, Out, Told};
use crate::frames::Fields;
use crate::model::free_count;
use crate::random::Random;
use crate::ranges::{by_model, by_rust, MIB};
use crate::recorded::{formatted, Sink};
use crate::request::{op, Request, MALFORMED};
use crate::smallest::{smallest, MOST_SIZES};
use crate::words::{self, number, parts};

pub struct Smallest;

/// Start, number of sizes and wanted count, if the words are as they should be.
fn row(given: &str) -> Option<[u64; 3]> {
    let [start, count, wanted] = given.split_whitespace().collect::<Vec<_>>().try_into().ok()?;
    Some([words::size(start)?, number(count)?, number(wanted)?])
}

/// The free count in the superblock that the run leaves. The last block written at 0 has it.
fn left(q: &Request, g: &Geometry) -> io::Result<u64> {
    struct Last(u64);
    impl Sink for Last {
        fn block(&mut self, at: u64, bytes: &[u8]) -> io::Result<()> {
            if at == 0 {
                self.0 = Fields(&bytes[144..]).u64();
            }
            Ok(())
        }
        fn zeros(&mut self, _: u64, _: u64) -> io::Result<()> {
            Ok(())
        }
        fn flush(&mut self) -> io::Result<()> {
            Ok(())
        }
    }
    Ok(formatted(q, g, Last(0))?.0)
}

/// The request as it is tried: on a device of this size, with default groups and without a time, which isn't looked at.
fn tried(q: &Request, device: u64) -> Request {
    let mut q = Request { device, ..q.clone() };
    for code in [op::AGSIZE, op::AGCOUNT, op::SECONDS, op::NANOSECONDS] {
        q.options[code] = None;
    }
    q
}

impl Mode for Smallest {
    fn case(&self, r: &mut Random) -> Vec<u8> {
        let mut q = request(r);
        let at = border(r, &mut q);
        let start = at.saturating_sub(steps(r, MOST_SIZES) * MIB).saturating_add(r.pick(&[0, 0, 1, 5000, MIB - 1]));
        let count = match r.below(16) {
            0 => r.pick(&[0, 1, MOST_SIZES, MOST_SIZES + 1, 1 << 32, u64::MAX]),
            // The last size that fits, or one more.
            1 => (u64::MAX - start) / MIB + 1 + r.below(2),
            _ => 1 + steps(r, MOST_SIZES),
        };
        // The free count of one of the sizes, or of the first that is accepted, or one more or less.
        let sizes = count.clamp(1, MOST_SIZES).min((u64::MAX - start) / MIB + 1);
        let chosen = if r.one_in(4) { sizes - 1 } else { r.below(sizes) };
        let mut free = (chosen..sizes).take(2000).map(|i| by_model(&tried(&q, start + i * MIB)));
        let near = free.find_map(Result::ok).map_or(r.below(1 << 20), |g| free_count(&g));
        let wanted = match r.below(16) {
            0 => r.pick(&[0, 1, u64::MAX]),
            1 => r.wide(),
            2..=4 => near + 1,
            5..=7 => near.saturating_sub(1),
            8 => near + r.below(10_000),
            _ => near,
        };
        let given = vec![words::size_word(r, start), count.to_string(), wanted.to_string()];
        asked(r, given, q)
    }

    fn answer(&self, case: &[u8], out: Out) -> io::Result<Told> {
        let (given, records) = parts(case);
        let Some([start, count, wanted]) = row(&given) else { return unasked() };
        let Some(q) = Request::parse(records) else {
            writeln!(out, "refused {MALFORMED}")?;
            return Ok(Told::apart("", MALFORMED));
        };
        let asked = by_both(case, &q);
        let rust = asked.then(|| smallest(&q, start, count, wanted, by_rust));
        match agreed(smallest(&q, start, count, wanted, by_model), rust)? {
            Ok(size) => {
                writeln!(out, "size {size}")?;
                let found = tried(&q, size);
                let g = by_model(&found).map_err(|n| io::Error::other(format!("{found:?} is refused by {n}")))?;
                if g.agcount <= 40 {
                    agreed(free_count(&g), Some(left(&found, &g)?))?;
                }
                Ok(Told { kind: if size == start { "the first size," } else { "a later size," }, number: 0, asked })
            }
            Err(number) => {
                writeln!(out, "refused {number}")?;
                Ok(Told { kind: "", number, asked })
            }
        }
    }

    fn run<'a>(&self, case: &'a [u8]) -> (Vec<String>, &'a [u8]) {
        let (given, records) = parts(case);
        (words::asked("smallest", &given), records)
    }

    fn traits(&self, case: &[u8]) -> Vec<(&'static str, String)> {
        let (given, records) = parts(case);
        let (Some([start, count, wanted]), Some(q)) = (row(&given), Request::parse(records)) else { return Vec::new() };
        let Ok(size) = smallest(&q, start, count, wanted, by_model) else { return Vec::new() };
        let free = by_model(&tried(&q, size)).map_or(0, |g| free_count(&g));
        let options = [op::SIZE, op::AGSIZE, op::AGCOUNT].map(|code| q.options[code].is_some());
        vec![
            ("sizes, in bits", (64 - count.leading_zeros()).to_string()),
            ("size, agsize and agcount given", format!("{options:?}")),
            ("more than wanted, in bits", (64 - (free - wanted).leading_zeros()).to_string()),
        ]
    }

    fn show_case(&self, case: &[u8]) -> String {
        show(case)
    }

    fn show_answer(&self, answer: &[u8]) -> String {
        String::from_utf8_lossy(answer).into_owned()
    }
}
