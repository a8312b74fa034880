//! Requests, groups and calls of hold and release from a seed, at the places where an answer changes.

use mkfs_xfs::geometry::Geometry;

use crate::crowded;
use crate::holds::{Run, State};
use crate::modes::corners;
use crate::modes::geometry::step;
use crate::numbers::UNNUMBERED;
use crate::random::Random;
use crate::request::{op, Request};
use crate::wishes;

/// Any block, sector and inode size, on devices with any sectors that go with them.
fn sizes(r: &mut Random) -> Request {
    let mut q = wishes::small(r, 0, 60);
    let block = wishes::block(&q);
    let power = |r: &mut Random, most: u64| 512 << r.below(u64::from((most / 512).ilog2()) + 1);
    let sector = power(r, block);
    q.options[op::SECTOR] = r.one_in(2).then_some(sector);
    q.options[op::INODE] = Some(power(r, 2048.min(block / 2)));
    q.logical = power(r, sector) as u32;
    q.physical = (u64::from(q.logical) << r.below(8)).min(32768) as u32;
    q
}

/// About as many groups as there may be, sometimes more.
pub fn most_groups(r: &mut Random) -> Request {
    let mut q = wishes::request(r, 0);
    let b = wishes::block(&q);
    q.device = u64::MAX - r.wide() / 2;
    q.options[op::SIZE] = None;
    q.options[op::AGCOUNT] = None;
    q.options[op::AGSIZE] = Some((1 << 32) - b + r.below(4) * b);
    q
}

/// A request of any kind; many have few free blocks in the log group.
pub fn request(r: &mut Random) -> Request {
    let mut q = match r.below(8) {
        _ if r.one_in(64) => most_groups(r),
        0 | 1 => crowded::request(r, 1000),
        2 => wishes::many(r, 2000),
        3 => corners::pick(r),
        4 => wishes::request(r, 3),
        5 => wishes::small(r, 1, 60),
        _ => sizes(r),
    };
    q.options[op::SIZING] = match r.below(8) {
        0..=2 => None,
        3 => Some(0),
        _ => Some(1),
    };
    if r.one_in(4) {
        // Times out of range too, which aren't looked at.
        wishes::with_run(r, &mut q);
    }
    q
}

/// The records of the same request with one thing changed, mostly so that a group's plan may stay.
pub fn changed(r: &mut Random, records: &[u8]) -> Vec<u8> {
    let Some(mut q) = Request::parse(records) else { return records.to_vec() };
    let block = wishes::block(&q);
    match r.below(6) {
        0 => q.device = q.device.wrapping_add(block * r.below(64)),
        1 => q.device = q.device.saturating_sub(block * r.below(64)),
        2 => q.options[op::SIZING] = Some(u64::from(q.options[op::SIZING] != Some(1))),
        3 => q.options[op::FEATURES] = Some(q.options[op::FEATURES].unwrap_or(127) ^ 1 << r.below(7)),
        4 => q.options[op::INODE] = Some(r.pick(&[512, 1024, 2048])),
        _ => q.options[op::IMAXPCT] = Some(r.below(120)),
    }
    q.encode()
}

/// Input records, mostly of a geometry that is accepted.
pub fn records(r: &mut Random) -> Vec<u8> {
    loop {
        let mut q = request(r);
        if r.one_in(64) {
            q.options[op::SIZING] = Some(r.wide());
        }
        if r.one_in(12) {
            return wishes::records(r, &q);
        }
        if r.one_in(8) || step(&q).1.is_some() {
            return q.encode();
        }
    }
}

/// A group of the geometry: the first, the log's, the last, any; sometimes none of it.
pub fn group(r: &mut Random, g: &Geometry) -> u64 {
    match r.below(16) {
        0..=4 => 0,
        5..=9 => g.logagno,
        10 | 11 => g.agcount - 1,
        12..=14 => r.below(g.agcount),
        _ => r.pick(&[g.agcount, g.agcount + 1, 1 << 32, (1 << 32) + g.logagno, u64::MAX]),
    }
}

/// A part of a run that isn't empty: mostly short, at one of its ends or within; seldom the whole.
pub fn part(r: &mut Random, (start, blocks): Run) -> Run {
    let n = match r.below(16) {
        0 => blocks,
        1 => 1 + r.below(blocks),
        2..=6 => 1,
        _ => 1 + r.below(blocks.min(9)),
    };
    let left = blocks - n;
    let at = match r.below(4) {
        0 => 0,
        1 => left,
        2 => r.below(left + 1),
        _ => r.below(left.min(24) + 1),
    };
    (start + at, n)
}

/// A run that starts or ends one block elsewhere, or both, or that touches the run.
fn beside(r: &mut Random, (start, blocks): Run) -> Run {
    let n = 1 + r.below(4);
    match r.below(8) {
        0 => (start.wrapping_sub(1), blocks),
        1 => (start + 1, blocks),
        2 => (start, blocks + 1),
        3 => (start, blocks - 1),
        4 => (start.wrapping_sub(1), blocks + 1),
        5 => (start + 1, blocks - 1),
        6 => (start + blocks, n),
        _ => (start.saturating_sub(n), n),
    }
}

/// A run that ends past 32 or 64 bits, or would be a given one if it were cut to them.
fn far(r: &mut Random, (start, blocks): Run) -> Run {
    let (word, k) = (1u64 << 32, r.below(4));
    match r.below(13) {
        0 => (start + word, blocks),
        1 => (start, blocks + word),
        2 => (start + word, blocks + word),
        3 => (word - 1, 1 + k),
        4 => (word - k, k + start + blocks),
        5 => (start, word - start + k),
        6 => (start, word - 1),
        7 => (u64::MAX - k, 1 + k),
        8 => (u64::MAX, u64::MAX),
        9 => (u64::MAX - k, 1 + k + start + blocks),
        10 => (start, 0u64.wrapping_sub(start).wrapping_add(k)),
        11 => (start + (1 << 63), blocks),
        _ => (start, u64::MAX - k),
    }
}

/// A run of any kind, mostly near a free record, a held run, or what is never held.
pub fn any(r: &mut Random, s: &State) -> Run {
    let free = s.free();
    let held: Vec<Run> = s.held.iter().copied().collect();
    let from = [&free, &held, &s.group.taken];
    let list = from[r.below(3) as usize];
    let near = r.pick(if list.is_empty() { &s.group.taken } else { list });
    let to = *free.last().unwrap_or(&near);
    match r.below(16) {
        0..=2 => part(r, near),
        3..=7 => beside(r, near),
        8..=10 => far(r, near),
        11 => (near.0, 0),
        12 => (near.0, (to.0 + to.1).saturating_sub(near.0)),
        13 => (near.0.saturating_sub(1 + r.below(2)), near.1 + r.below(4)),
        14 => r.pick(&[(0, s.group.length), (s.group.length - 1, 1), (s.group.length, 1), (s.group.length, 0)]),
        _ => (r.wide(), r.wide()),
    }
}

/// A call.
#[derive(Clone, Copy, Debug)]
pub enum Call {
    Hold(Run),
    Release(Run),
}

/// How a sequence of calls goes: towards many held runs, or towards few.
#[derive(Clone, Copy)]
pub struct Taste {
    pub releases: u64,
    pub mistakes: u64,
}

pub fn taste(r: &mut Random) -> Taste {
    Taste { releases: r.pick(&[1, 2, 4, 8]), mistakes: r.pick(&[1, 4, 8]) }
}

/// The next call from a state.
pub fn call(r: &mut Random, s: &State, t: Taste) -> Call {
    let mistake = r.below(16) < t.mistakes;
    if r.below(16) < t.releases {
        let held: Vec<Run> = s.held.iter().copied().collect();
        return Call::Release(if mistake || held.is_empty() { any(r, s) } else { r.pick(&held) });
    }
    let free = s.free();
    Call::Hold(if mistake || free.is_empty() {
        any(r, s)
    } else {
        let record = r.pick(&free);
        part(r, record)
    })
}

impl Call {
    /// What the call is counted under.
    pub fn name(self) -> &'static str {
        match self {
            Call::Hold(_) => "call hold,",
            Call::Release(_) => "call release,",
        }
    }

    /// The call, on the model. Free and held blocks together must stay as many.
    pub fn make(self, s: &mut State) -> Result<(), u32> {
        let blocks = s.blocks();
        let done = match self {
            Call::Hold(run) => s.hold(run),
            Call::Release(run) => s.release(run),
        };
        if s.blocks() == blocks {
            done
        } else {
            Err(UNNUMBERED)
        }
    }
}
