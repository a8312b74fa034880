//! `take` and `rmap_insert` on lists of records.

use std::io;
use std::panic::catch_unwind;

use mkfs_xfs::format::{rmap_insert, take};
use mkfs_xfs::structs::btree::{alloc_recs, owner, AllocRec, RmapRec};

use super::{numbered, Mode, Out, Told};
use crate::frames::Fields;
use crate::numbers::{number_of, UNNUMBERED};
use crate::port::{self, Asked, Reply};
use crate::random::Random;

/// The most records of a list.
const MOST: usize = 64;
/// Unsorted by start, overlapping, a zero count or an end above the largest block number.
const NO_LIST: u32 = 32;
/// No record holds the run.
const NOT_FREE: u32 = 33;
/// More records than a list holds.
const TOO_MANY: u32 = 34;

/// Whether the runs (start, count) are a list as the scope wants it.
fn valid(runs: impl IntoIterator<Item = (u32, u32)>) -> bool {
    let mut end = 0u64;
    runs.into_iter().all(|(start, count)| {
        let fits = u64::from(start) >= end && count > 0;
        end = u64::from(start) + u64::from(count);
        fits && end <= u64::from(u32::MAX)
    })
}

/// Runs (start, count): mostly valid, sometimes without gaps, near the end, too many, or spoilt.
fn runs(r: &mut Random) -> Vec<(u32, u32)> {
    let n = match r.below(8) {
        0 => MOST as u64 + r.below(3) - 1,
        1 => r.below(80),
        _ => r.below(9),
    };
    let mut at = if r.one_in(8) { u32::MAX - r.below(400) as u32 } else { r.below(40) as u32 };
    let mut out: Vec<(u32, u32)> = Vec::new();
    for _ in 0..n {
        let gap = if r.one_in(2) { 0 } else { r.below(9) as u32 };
        let count = 1 + r.below(12) as u32;
        let start = at.saturating_add(gap);
        at = start.saturating_add(count);
        out.push((start, count));
    }
    if n > 0 && r.one_in(6) {
        let i = r.below(n) as usize;
        match r.below(4) {
            0 => out[i].1 = 0,
            1 => out[i].1 = r.wide() as u32,
            2 => out[i].0 = r.wide() as u32,
            _ => out.swap(i, (n - 1) as usize),
        }
    }
    out
}

/// A run by the records of the list: a part of one, one next to one, an empty one, or any.
fn run_by(r: &mut Random, runs: &[(u32, u32)]) -> (u64, u64) {
    if runs.is_empty() || r.one_in(12) {
        return if r.one_in(2) { (r.wide(), r.wide()) } else { (r.near(u64::MAX, 1), r.wide()) };
    }
    let (start, count) = r.pick(runs);
    let (start, count) = (u64::from(start), u64::from(count));
    match r.below(6) {
        0 => (start, count),
        1 => (start + count, 1 + r.below(4)),
        2 => (start.saturating_sub(1 + r.below(3)), 1 + r.below(3)),
        3 => (start + r.below(count + 1), 0),
        _ => {
            let skip = r.below(count.max(1));
            (start + skip, r.below(count.saturating_sub(skip) + 2))
        }
    }
}

/// A case is start and length (8 bytes each) and the free records (8 bytes each); an answer the number (4 bytes) and
/// the records left.
pub struct Take;

impl Mode for Take {
    fn case(&self, r: &mut Random) -> Vec<u8> {
        let list = runs(r);
        let (start, len) = run_by(r, &list);
        let recs: Vec<AllocRec> = list.iter().map(|&(start, count)| AllocRec { start, count }).collect();
        [&start.to_be_bytes()[..], &len.to_be_bytes(), &alloc_recs(&recs)].concat()
    }

    fn answer(&self, case: &[u8], out: Out) -> io::Result<Told> {
        let (free, start, len) = run_and_list(case);
        let (told, left) = taken(free, start, len);
        out.write_all(&numbered(told.number, &alloc_recs(&left)))?;
        Ok(told)
    }

    fn asked(&self, case: &[u8]) -> Option<Asked> {
        let (params, list) = case.split_at_checked(16)?;
        let (params, body) = (params.to_vec(), list.to_vec());
        Some(Asked { program: port::PLANS, function: port::plan::TAKE, params, body })
    }

    fn replied(&self, case: &[u8], reply: Reply) -> Vec<u8> {
        let rec = |r: &[u64]| AllocRec { start: r[0] as u32, count: r[1] as u32 };
        let left = left(&reply, 2).iter().map(|r| rec(r)).collect();
        numbered(reply.number, &alloc_recs(&unless_refused(reply.number, left, run_and_list(case).0)))
    }

    fn replayed_answer(&self, _case: &[u8], answer: &[u8]) -> Vec<u8> {
        let mut f = Fields(answer);
        let number = f.u32();
        let list = if number == 0 { f.rest() } else { &[] };
        let mut f = Fields(list);
        let numbers = (0..list.len() / 4).map(|_| f.u32().into());
        left_line(number, list.len() / 8, numbers.collect(), 2)
    }
}

/// The free records, the start and the length of a case.
fn run_and_list(case: &[u8]) -> (Vec<AllocRec>, u64, u64) {
    let mut f = Fields(case);
    let (start, len) = (f.u64(), f.u64());
    let free = (0..f.0.len() / 8).map(|_| AllocRec { start: f.u32(), count: f.u32() }).collect();
    (free, start, len)
}

/// The numbers of each record that the port's program leaves: their count, and 64 places.
fn left(reply: &Reply, width: usize) -> Vec<Vec<u64>> {
    let numbers = reply.numbers();
    let count = numbers.first().copied().unwrap_or(0).min(MOST as u64) as usize;
    numbers.get(1..).unwrap_or_default().chunks(width).take(count).map(<[u64]>::to_vec).collect()
}

/// The line that it prints of them.
fn left_line(number: u32, count: usize, mut numbers: Vec<u64>, width: usize) -> Vec<u8> {
    numbers.insert(0, count as u64);
    numbers.resize(1 + MOST * width, 0);
    port::line(number, 0, &port::row(&numbers))
}

/// The records left. Where the port refuses, it answers with none, and the list that it was given stays.
fn unless_refused<R>(number: u32, left: Vec<R>, before: Vec<R>) -> Vec<R> {
    if number != 0 && left.is_empty() {
        before
    } else {
        left
    }
}

fn taken(free: Vec<AllocRec>, start: u64, len: u64) -> (Told, Vec<AllocRec>) {
    if free.len() > MOST {
        return (Told::apart("", TOO_MANY), free);
    }
    if !valid(free.iter().map(|r| (r.start, r.count))) {
        return (Told::apart("", NO_LIST), free);
    }
    if start.checked_add(len).is_none() {
        return (Told::apart("", NOT_FREE), free);
    }
    let mut left = free.clone();
    let done = catch_unwind(std::panic::AssertUnwindSafe(|| take(&mut left, start, len)));
    match done {
        Ok(Ok(())) if left.len() > MOST => (Told::apart("left", TOO_MANY), free),
        Ok(Ok(())) => (Told::asked("", 0), left),
        Ok(Err(e)) => (Told::asked("", number_of(&e)), free),
        Err(_) => (Told::asked("panic", UNNUMBERED), free),
    }
}

/// A case is the record to insert and the list, 16 bytes each (start, count, owner); an answer the number (4 bytes)
/// and the list left.
pub struct RmapInsert;

const OWNERS: [u64; 4] = [owner::AG, owner::AG, owner::FS, 128];

fn rmap_bytes(list: &[RmapRec]) -> Vec<u8> {
    let one = |r: &RmapRec| [&r.start.to_be_bytes()[..], &r.count.to_be_bytes(), &r.owner.to_be_bytes()].concat();
    list.iter().flat_map(one).collect()
}

impl Mode for RmapInsert {
    fn case(&self, r: &mut Random) -> Vec<u8> {
        let list = runs(r);
        let (start, len) = if r.one_in(3) { gap_of(r, &list) } else { run_by(r, &list) };
        let mut recs = vec![RmapRec { start: start as u32, count: len as u32, owner: r.pick(&OWNERS) }];
        for &(start, count) in &list {
            recs.push(RmapRec { start, count, owner: r.pick(&OWNERS) });
        }
        rmap_bytes(&recs)
    }

    fn answer(&self, case: &[u8], out: Out) -> io::Result<Told> {
        let (list, rec) = record_and_list(case);
        let (told, left) = inserted(list, rec);
        out.write_all(&numbered(told.number, &rmap_bytes(&left)))?;
        Ok(told)
    }

    fn asked(&self, case: &[u8]) -> Option<Asked> {
        let (params, list) = case.split_at_checked(16)?;
        let (params, body) = (params.to_vec(), list.to_vec());
        Some(Asked { program: port::PLANS, function: port::plan::RMAP_INSERT, params, body })
    }

    fn replied(&self, case: &[u8], reply: Reply) -> Vec<u8> {
        let rec = |r: &[u64]| RmapRec { start: r[0] as u32, count: r[1] as u32, owner: r[2] };
        let left = left(&reply, 3).iter().map(|r| rec(r)).collect();
        numbered(reply.number, &rmap_bytes(&unless_refused(reply.number, left, record_and_list(case).0)))
    }

    fn replayed_answer(&self, _case: &[u8], answer: &[u8]) -> Vec<u8> {
        let mut f = Fields(answer);
        let number = f.u32();
        let list = if number == 0 { f.rest() } else { &[] };
        let mut f = Fields(list);
        let numbers = (0..list.len() / 16).flat_map(|_| [f.u32().into(), f.u32().into(), f.u64()]);
        left_line(number, list.len() / 16, numbers.collect(), 3)
    }
}

/// The list and the record to insert of a case.
fn record_and_list(case: &[u8]) -> (Vec<RmapRec>, RmapRec) {
    let mut f = Fields(case);
    let mut next = || RmapRec { start: f.u32(), count: f.u32(), owner: f.u64() };
    let rec = next();
    ((1..case.len() / 16).map(|_| next()).collect(), rec)
}

/// A gap between two records of the list, filled whole or in part.
fn gap_of(r: &mut Random, runs: &[(u32, u32)]) -> (u64, u64) {
    let ends: Vec<(u64, u64)> =
        runs.windows(2).map(|w| (u64::from(w[0].0) + u64::from(w[0].1), u64::from(w[1].0))).collect();
    let gaps: Vec<(u64, u64)> = ends.into_iter().filter(|(a, b)| a < b).collect();
    if gaps.is_empty() {
        return run_by(r, runs);
    }
    let (a, b) = r.pick(&gaps);
    match r.below(3) {
        0 => (a, 1 + r.below(b - a)),
        1 => (b - 1, 1),
        _ => (a, b - a),
    }
}

fn inserted(list: Vec<RmapRec>, rec: RmapRec) -> (Told, Vec<RmapRec>) {
    if list.len() > MOST {
        return (Told::apart("", TOO_MANY), list);
    }
    let spans = |l: &[RmapRec]| l.iter().map(|r| (r.start, r.count)).collect::<Vec<_>>();
    let mut both = list.clone();
    both.insert(list.iter().take_while(|r| r.start < rec.start).count(), rec);
    if !valid(spans(&list)) || !valid(spans(&both)) {
        return (Told::apart("", NO_LIST), list);
    }
    let mut left = list.clone();
    let done = catch_unwind(std::panic::AssertUnwindSafe(|| rmap_insert(&mut left, rec)));
    match done {
        Ok(()) if left.len() > MOST => (Told::apart("left", TOO_MANY), list),
        Ok(()) => (Told::asked("", 0), left),
        Err(_) => (Told::asked("panic", UNNUMBERED), list),
    }
}
