//! The reader on disks that the Rust's `format` left. A case is the input records of an accepted run. An answer is a line
//! with what group 0's head gives (replay_disks has the row), then the numbers of all heads and of the log's first block.

use std::io;

use mkfs_xfs::geometry::Geometry;

use super::geometry::feature_bits;
use super::plans::{accepted, few, plan, Planlist};
use super::{Mode, Out, Told};
use crate::disk::Disk;
use crate::model::{reported, Sizing};
use crate::port::reader;
use crate::random::Random;
use crate::request::{op, Request};
use crate::wishes;

pub struct Reader;

/// The most groups of a case, and how often it has that many.
const GROUPS: u64 = 40;
const MANY_GROUPS: u64 = 500;
const MANY_ONCE_IN: u64 = 100;

/// Sizes and features over their whole ranges, as often as each other.
pub fn spread(r: &mut Random, q: &mut Request) {
    let block = r.pick(&[1024, 2048, 4096, 8192, 16384]);
    let least = |sizes: &[u64], most: u64| sizes.iter().copied().filter(|&s| s <= most).collect::<Vec<_>>();
    q.options[op::BLOCK] = Some(block);
    q.options[op::SECTOR] = Some(r.pick(&least(&[512, 1024, 2048, 4096, 8192, 16384], block)));
    q.options[op::INODE] = Some(r.pick(&least(&[512, 1024, 2048], block / 2)));
    let bits = r.below(128);
    q.options[op::FEATURES] = Some(bits | (bits >> 3 & 1));
}

/// An accepted run of at most `groups` groups.
pub fn run(r: &mut Random, groups: u64) -> Vec<u8> {
    loop {
        let mut q = if groups > GROUPS { wishes::many(r, groups) } else { few(r, groups) };
        if groups <= GROUPS && !r.one_in(3) {
            spread(r, &mut q);
        }
        if r.one_in(4) {
            wishes::any_label(r, &mut q);
        }
        let case = q.encode();
        if accepted(&case).1.is_some_and(|(_, g)| g.agcount <= groups) {
            return case;
        }
    }
}

/// The disk of an accepted case.
pub fn disk(case: &[u8]) -> io::Result<Disk> {
    let (q, g) = accepted(case).1.ok_or_else(|| io::Error::other("no accepted run"))?;
    Disk::of(q, g)
}

impl Mode for Reader {
    fn case(&self, r: &mut Random) -> Vec<u8> {
        let groups = if r.one_in(MANY_ONCE_IN) { MANY_GROUPS } else { GROUPS };
        run(r, groups)
    }

    fn answer(&self, case: &[u8], out: Out) -> io::Result<Told> {
        let (told, run) = accepted(case);
        let Some((_, g)) = run else {
            return Ok(told);
        };
        let first = plan(&g, 0).map_err(|n| io::Error::other(format!("plan refused by {n}")))?;
        let lists = [first.free.len(), first.agfl.len(), first.rmap.len()];
        write!(out, "0 {} {} {} {} {}", g.blocksize, g.sectsize, g.inodesize, g.dblocks, g.agsize)?;
        write!(out, " {} {} {}", g.agcount, g.logblocks, g.logagno)?;
        writeln!(out, " {} {} {} {}", first.length, lists[0], lists[1], lists[2])?;
        writeln!(out, "{}", "0 ".repeat(g.agcount as usize + 1))?;
        Ok(told)
    }

    fn ours(&self, case: &[u8]) -> Option<Vec<u8>> {
        let disk = disk(case).ok()?;
        let first = &disk.heads[0];
        let row: Vec<String> = reader::group0(first)?.iter().map(|n| n.to_string()).collect();
        let heads = disk.heads.iter().zip(0..).map(|(head, k)| reader::group(first, k, head));
        let numbers: Option<String> =
            heads.chain([reader::log(first, &disk.log)]).map(|n| Some(format!("{} ", n?))).collect();
        Some(format!("{}\n{}\n", row.join(" "), numbers?).into_bytes())
    }

    fn traits(&self, case: &[u8]) -> Vec<(&'static str, String)> {
        let (_, Some((_, g))) = accepted(case) else {
            return Vec::new();
        };
        vec![
            ("sizes: block, sector, inode", format!("{} {} {}", g.blocksize, g.sectsize, g.inodesize)),
            ("features", feature_bits(&g.features).to_string()),
        ]
    }

    fn show_case(&self, case: &[u8]) -> String {
        format!("{} {:?}", super::hex(case), Request::parse(case))
    }

    fn show_answer(&self, answer: &[u8]) -> String {
        String::from_utf8_lossy(answer).into_owned()
    }
}

/// The line with the sizing that is reported of a run's disk.
pub fn sizing(out: Out, q: &Request, g: &Geometry) -> io::Result<()> {
    let sizing = match reported(q, g) {
        Sizing::Plain => "plain",
        Sizing::Roomy => "roomy",
    };
    writeln!(out, "log sizing: {sizing}")
}

/// Program readdisk on disks of the same runs: the answer is planlist's, and a line with the sizing that readdisk reports.
pub struct Tables;

impl Mode for Tables {
    /// No file is longer than 2^63 - 1 bytes.
    fn case(&self, r: &mut Random) -> Vec<u8> {
        loop {
            let case = Reader.case(r);
            if Request::parse(&case).is_some_and(|q| i64::try_from(q.device).is_ok()) {
                return case;
            }
        }
    }

    fn answer(&self, case: &[u8], out: Out) -> io::Result<Told> {
        let told = Planlist.answer(case, out)?;
        if let Some((q, g)) = accepted(case).1 {
            sizing(out, &q, &g)?;
        }
        Ok(told)
    }

    fn traits(&self, case: &[u8]) -> Vec<(&'static str, String)> {
        Reader.traits(case)
    }

    fn show_case(&self, case: &[u8]) -> String {
        Reader.show_case(case)
    }

    fn show_answer(&self, answer: &[u8]) -> String {
        Reader.show_answer(answer)
    }
}
