//! Named disks in both sizings, each with the log or the number that the scope gives it, written down here: the station cases, and
//! the places where the sizings part. A case is the input records of the next one. In `corners` the answer is planlist's, in `corner_lists`
//! writelist's; both fail where the model doesn't have what stands here.

use std::io;
use std::sync::atomic::{AtomicUsize, Ordering};

use super::plans::{accepted, Planlist};
use super::writes::Writelist;
use super::{Mode, Out, Told};
use crate::random::Random;
use crate::request::{op, Request};

pub struct Corners {
    mode: Box<dyn Mode + Sync>,
    next: AtomicUsize,
}

/// A log of so many blocks, or a number.
#[derive(Clone, Copy, Debug, PartialEq, Eq)]
enum Answer {
    Log(u64),
    Refused(u32),
}

use Answer::{Log, Refused};

/// A disk of 4096-byte blocks and 512-byte sectors, in blocks; what is 0 is left out. The features are bits.
struct Corner {
    name: &'static str,
    blocks: u64,
    agsize: u64,
    agcount: u64,
    features: u64,
    plain: Answer,
    roomy: Answer,
}

const ALL: u64 = 127;
const NO_RMAPBT: u64 = 125;

const fn by_size(name: &'static str, sizes: [u64; 2], features: u64, plain: Answer, roomy: Answer) -> Corner {
    Corner { name, blocks: sizes[0], agsize: sizes[1], agcount: 0, features, plain, roomy }
}

const fn by_count(name: &'static str, counts: [u64; 2], features: u64, plain: Answer, roomy: Answer) -> Corner {
    Corner { name, blocks: counts[0], agsize: 0, agcount: counts[1], features, plain, roomy }
}

const CORNERS: [Corner; 20] = [
    by_size("K1", [262_144, 0], ALL, Log(16_384), Log(16_384)),
    by_size("K2, 299 MiB", [76_544, 0], ALL, Refused(21), Refused(21)),
    by_size("K2, 300 MiB", [76_800, 0], ALL, Log(16_384), Log(16_384)),
    by_size("K3", [5 * 16_395, 16_395], ALL, Refused(22), Refused(22)),
    by_size("K4", [5 * 16_396, 16_396], ALL, Refused(25), Refused(22)),
    by_size("K5", [5 * 16_397, 16_397], ALL, Log(16_384), Log(16_384)),
    by_size("K6", [80_896, 76_800], ALL, Refused(25), Refused(22)),
    by_size("K7", [80_895, 76_800], ALL, Refused(23), Refused(23)),
    by_size("K8", [262_144, 87_000], ALL, Log(16_384), Log(16_384)),
    Corner { agcount: 3, ..by_size("K8, agcount 3", [262_144, 87_000], ALL, Refused(14), Refused(14)) },
    by_count("K9", [400_000_000, 20_001], NO_RMAPBT, Refused(24), Refused(24)),
    by_size("two groups, 4 blocks left", [(1 << 26) + 32_794, 1 << 26], NO_RMAPBT, Log(32_784), Log(32_783)),
    by_size("two groups, 4 blocks left", [40_000_000, 39_980_459], NO_RMAPBT, Log(19_531), Log(19_530)),
    by_size("4 blocks left beside the least log", [93_194, 76_800], NO_RMAPBT, Log(16_384), Refused(22)),
    by_size("5 blocks left beside the least log", [93_195, 76_800], NO_RMAPBT, Log(16_384), Log(16_384)),
    by_size("3 blocks left", [(1 << 26) + 32_793, 1 << 26], NO_RMAPBT, Refused(25), Log(32_782)),
    by_size("two groups, 5 blocks left for 6", [(1 << 26) + 32_796, 1 << 26], ALL, Refused(25), Log(32_783)),
    by_size("two groups, 6 blocks left for 6", [(1 << 26) + 32_797, 1 << 26], ALL, Log(32_784), Log(32_784)),
    by_size("2100 groups that a log fills", [2100 * 20_000, 20_000], ALL, Refused(25), Log(19_987)),
    by_count("groups without a block", [20_000 * 16_396 - 19_000, 20_000], ALL, Refused(24), Refused(22)),
];

/// Both sizings, plain as absent and as 0.
const SIZINGS: [Option<u64>; 3] = [None, Some(0), Some(1)];

impl Corner {
    pub fn request(&self) -> Request {
        let given = |v: u64, unit: u64| (v != 0).then_some(v * unit);
        let mut q = Request { device: self.blocks * 4096, logical: 512, physical: 512, ..Request::default() };
        q.options[op::AGSIZE] = given(self.agsize, 4096);
        q.options[op::AGCOUNT] = given(self.agcount, 1);
        q.options[op::FEATURES] = Some(self.features);
        q.options[op::SEED] = Some(12);
        q.options[op::SECONDS] = Some(1_700_000_000);
        q.id = Some(*b"\x5a\xec\x68\x75\x72\x71\x4a\x11\x8d\x15\x20\x26\x11\x16\x14\x30");
        q
    }
}

/// One of the disks.
pub fn pick(r: &mut Random) -> Request {
    CORNERS[r.below(CORNERS.len() as u64) as usize].request()
}

impl Corners {
    pub fn tables() -> Corners {
        Corners { mode: Box::new(Planlist), next: AtomicUsize::new(0) }
    }

    pub fn lists() -> Corners {
        Corners { mode: Box::new(Writelist), next: AtomicUsize::new(0) }
    }
}

/// The disk of a case.
fn corner(case: &[u8]) -> Option<(&'static Corner, Request)> {
    let q = Request::parse(case)?;
    let mut bare = q.clone();
    bare.options[op::SIZING] = None;
    CORNERS.iter().find(|c| c.request().encode() == bare.encode()).map(|c| (c, q))
}

impl Mode for Corners {
    /// The next disk, whatever the seed, in the next sizing.
    fn case(&self, _: &mut Random) -> Vec<u8> {
        let i = self.next.fetch_add(1, Ordering::Relaxed);
        let mut q = CORNERS[i / SIZINGS.len() % CORNERS.len()].request();
        q.options[op::SIZING] = SIZINGS[i % SIZINGS.len()];
        q.encode()
    }

    fn answer(&self, case: &[u8], out: Out) -> io::Result<Told> {
        let (c, q) = corner(case).ok_or_else(|| io::Error::other("no corner"))?;
        let wanted = if q.options[op::SIZING] == Some(1) { c.roomy } else { c.plain };
        let (told, run) = accepted(case);
        let found = run.map_or(Refused(told.number), |(_, g)| Log(g.logblocks));
        if found != wanted {
            return Err(io::Error::other(format!("{}: {found:?} instead of {wanted:?}", c.name)));
        }
        self.mode.answer(case, out).map(|told| Told { kind: c.name, ..told })
    }

    fn show_case(&self, case: &[u8]) -> String {
        self.mode.show_case(case)
    }

    fn show_answer(&self, answer: &[u8]) -> String {
        self.mode.show_answer(answer)
    }

    fn show_place(&self, answer: &[u8], at: usize) -> String {
        self.mode.show_place(answer, at)
    }
}
