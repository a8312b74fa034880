//! States of held runs from a seed with one thing changed. Most changes leave what no calls leave, some another good state.

use mkfs_xfs::geometry::Geometry;

use crate::holds::{List, Run, Slots, State, MOST_HELD};
use crate::random::Random;
use crate::runs;

/// Where a state comes from.
pub struct Place<'a> {
    pub geometry: &'a Geometry,
    pub state: &'a State<'a>,
}

type Change = fn(&mut Random, &Place, &mut Slots);

/// The change that changes nothing, and the one of the input records beside the state.
pub const NONE: u8 = 0;
pub const ANOTHER_DISK: u8 = 1;

const CHANGES: [(&str, Change); 37] = [
    ("unchanged,", |_, _, _| {}),
    ("another disk,", |_, _, _| {}),
    ("another group,", |r, p, s| s.group = r.below(p.geometry.agcount)),
    ("no group,", |r, p, s| {
        s.group = r.pick(&[p.geometry.agcount, u64::MAX, s.group + (1 << 32), s.group + (1 << 63)])
    }),
    ("free count,", |r, _, s| count(r, &mut s.free)),
    ("held count,", |r, _, s| count(r, &mut s.held)),
    ("free start by one,", |r, _, s| start_by_one(r, &mut s.free)),
    ("held start by one,", |r, _, s| start_by_one(r, &mut s.held)),
    ("free length by one,", |r, _, s| length_by_one(r, &mut s.free)),
    ("held length by one,", |r, _, s| length_by_one(r, &mut s.held)),
    ("free exchanged,", |r, _, s| exchange(r, &mut s.free)),
    ("held exchanged,", |r, _, s| exchange(r, &mut s.held)),
    ("free split,", |r, _, s| split(r, &mut s.free)),
    ("held split,", |r, _, s| split(r, &mut s.held)),
    ("free joined,", |r, _, s| join(r, &mut s.free)),
    ("held joined,", |r, _, s| join(r, &mut s.held)),
    ("free left out,", |r, _, s| leave_out(r, &mut s.free)),
    ("held left out,", |r, _, s| leave_out(r, &mut s.held)),
    ("free past the count,", |r, _, s| past_count(r, &mut s.free)),
    ("held past the count,", |r, _, s| past_count(r, &mut s.held)),
    ("free empty added,", |r, _, s| empty(r, &mut s.free)),
    ("held empty added,", |r, _, s| empty(r, &mut s.held)),
    ("free twice,", |r, _, s| twice(r, &mut s.free)),
    ("held twice,", |r, _, s| twice(r, &mut s.held)),
    ("free slot before,", |_, _, s| put(&mut s.free, 0, (0, 0))),
    ("held slot before,", |_, _, s| put(&mut s.held, 0, (0, 0))),
    ("held near added,", held_near),
    ("held in use added,", held_in_use),
    ("held and free,", held_and_free),
    ("held past 32 bits,", held_wide),
    ("one bit,", one_bit),
    ("held added, free follows,", added_follows),
    ("held in use, free follows,", in_use_follows),
    ("held moved, free follows,", moved_follows),
    ("held overlaps, free follows,", overlap_follows),
    ("held past the end, free follows,", past_end_follows),
    ("held turned round,", |_, _, s| {
        let n = used(&s.held);
        s.held.slots[..n].reverse();
    }),
];

pub fn name(change: u8) -> &'static str {
    CHANGES[usize::from(change) % CHANGES.len()].0
}

/// A state with a change, and which it is.
pub fn change(r: &mut Random, place: &Place) -> (u8, Slots) {
    let mut slots = place.state.slots();
    let k = if r.one_in(8) { 0 } else { r.below(CHANGES.len() as u64) as usize };
    CHANGES[k].1(r, place, &mut slots);
    (k as u8, slots)
}

/// The slots in use.
fn used<const N: usize>(list: &List<N>) -> usize {
    (list.count as usize).min(N)
}

/// A slot in use, or the first.
fn some<const N: usize>(r: &mut Random, list: &List<N>) -> usize {
    r.below(used(list).max(1) as u64) as usize
}

/// Puts a record before slot `at`; the last slot is lost where all are in use.
fn put<const N: usize>(list: &mut List<N>, at: usize, record: (u32, u32)) {
    list.slots[at.min(N - 1)..].rotate_right(1);
    list.slots[at.min(N - 1)] = record;
    list.count = (list.count + 1).min(N as u64);
}

/// Puts a record where its start belongs.
fn sort_in<const N: usize>(list: &mut List<N>, record: (u32, u32)) {
    let at = list.slots[..used(list)].iter().filter(|slot| slot.0 < record.0).count();
    put(list, at, record);
}

fn one(r: &mut Random, n: u32) -> u32 {
    if r.one_in(2) {
        n.wrapping_add(1)
    } else {
        n.wrapping_sub(1)
    }
}

fn count<const N: usize>(r: &mut Random, list: &mut List<N>) {
    let (n, most) = (list.count, N as u64);
    let wrong = [0, n.saturating_sub(1), n + 1, most, most + 1, n + (1 << 32), n + (1 << 63), u64::MAX];
    list.count = r.pick(&wrong);
}

fn start_by_one<const N: usize>(r: &mut Random, list: &mut List<N>) {
    let k = some(r, list);
    list.slots[k].0 = one(r, list.slots[k].0);
}

fn length_by_one<const N: usize>(r: &mut Random, list: &mut List<N>) {
    let k = some(r, list);
    list.slots[k].1 = one(r, list.slots[k].1);
}

fn exchange<const N: usize>(r: &mut Random, list: &mut List<N>) {
    let (a, b) = (some(r, list), some(r, list));
    list.slots.swap(a, b);
}

/// A record in two that touch.
fn split<const N: usize>(r: &mut Random, list: &mut List<N>) {
    let k = some(r, list);
    let (start, blocks) = list.slots[k];
    let n = r.below(u64::from(blocks) + 1) as u32;
    if list.count < N as u64 {
        list.slots[k].1 = n;
        put(list, k + 1, (start + n, blocks - n));
    }
}

/// Two neighbours as one, with the blocks between them where there are some.
fn join<const N: usize>(r: &mut Random, list: &mut List<N>) {
    let k = some(r, list);
    if k + 1 < used(list) {
        let (next, blocks) = list.slots[k + 1];
        list.slots[k].1 = next.wrapping_add(blocks).wrapping_sub(list.slots[k].0);
        out(list, k + 1);
    }
}

fn out<const N: usize>(list: &mut List<N>, k: usize) {
    list.slots[k..].rotate_left(1);
    list.slots[N - 1] = (0, 0);
    list.count = list.count.saturating_sub(1);
}

fn leave_out<const N: usize>(r: &mut Random, list: &mut List<N>) {
    let k = some(r, list);
    out(list, k);
}

fn past_count<const N: usize>(r: &mut Random, list: &mut List<N>) {
    let k = used(list) + r.below((N - used(list)).max(1) as u64) as usize;
    let any = (r.wide() as u32, r.wide() as u32);
    list.slots[k.min(N - 1)] = r.pick(&[(1, 0), (0, 1), (1, 1), any]);
}

fn empty<const N: usize>(r: &mut Random, list: &mut List<N>) {
    let (start, blocks) = list.slots[some(r, list)];
    sort_in(list, (r.pick(&[start, start + blocks, start + blocks / 2]), 0));
}

fn twice<const N: usize>(r: &mut Random, list: &mut List<N>) {
    let k = some(r, list);
    put(list, k, list.slots[k]);
}

fn short((start, blocks): Run) -> (u32, u32) {
    (start as u32, blocks as u32)
}

/// A held run more that overlaps or touches one, or is anywhere.
fn held_near(r: &mut Random, p: &Place, s: &mut Slots) {
    let run = runs::any(r, p.state);
    sort_in(&mut s.held, short(run));
}

fn held_in_use(r: &mut Random, p: &Place, s: &mut Slots) {
    let taken = r.pick(&p.state.group.taken);
    sort_in(&mut s.held, short(runs::part(r, taken)));
}

/// A free run that is held too.
fn held_and_free(r: &mut Random, p: &Place, s: &mut Slots) {
    if let Some(run) = free_part(r, p) {
        sort_in(&mut s.held, short(run));
    }
}

fn free_part(r: &mut Random, p: &Place) -> Option<Run> {
    let free = p.state.free();
    let record = *free.get(r.below(free.len().max(1) as u64) as usize)?;
    Some(runs::part(r, record))
}

/// A held run whose end passes 32 bits, alone or beside the others.
fn held_wide(r: &mut Random, _: &Place, s: &mut Slots) {
    let k = some(r, &s.held);
    let (start, blocks) = s.held.slots[k];
    let wide = r.pick(&[
        (start, u32::MAX),
        (start, 0u32.wrapping_sub(start)),
        (start, 0u32.wrapping_sub(start).wrapping_add(blocks)),
        (u32::MAX, 1),
        (u32::MAX, start.wrapping_add(blocks).wrapping_add(1)),
    ]);
    if r.one_in(2) {
        s.held.slots[k] = wide;
    } else {
        sort_in(&mut s.held, wide);
    }
}

fn one_bit(r: &mut Random, _: &Place, s: &mut Slots) {
    let mut bytes = s.encode();
    // Half of them in group, counts and the slots that are likely in use.
    let likely = [(0, 16 + 4 * 8), (16 + 8 * 64, 8 + 8 * MOST_HELD)];
    let (from, n) = if r.one_in(2) { (0, bytes.len()) } else { r.pick(&likely) };
    bytes[from + r.below(n as u64) as usize] ^= 1 << r.below(8);
    *s = Slots::decode(&bytes);
}

/// The state with these runs held, whatever they are: free is what is left.
fn follow(p: &Place, s: &mut Slots, held: Vec<Run>) {
    let state = State { group: p.state.group, held: held.iter().copied().collect() };
    s.free = List::of(&state.free());
    s.held = List::of(&held);
}

fn added_follows(r: &mut Random, p: &Place, s: &mut Slots) {
    let mut held: Vec<Run> = p.state.held.iter().copied().collect();
    if held.len() < MOST_HELD {
        held.extend(free_part(r, p));
    }
    // Mostly sorted.
    if !r.one_in(4) {
        held.sort();
    }
    follow(p, s, held);
}

fn in_use_follows(r: &mut Random, p: &Place, s: &mut Slots) {
    let mut held: Vec<Run> = p.state.held.iter().copied().collect();
    held.truncate(MOST_HELD - 1);
    let taken = r.pick(&p.state.group.taken);
    held.push(runs::part(r, taken));
    held.sort();
    follow(p, s, held);
}

/// A part of a held run once more.
fn overlap_follows(r: &mut Random, p: &Place, s: &mut Slots) {
    let mut held: Vec<Run> = p.state.held.iter().copied().collect();
    if let Some(&run) = held.get(r.below(held.len().max(1) as u64) as usize) {
        held.push(runs::part(r, run));
    }
    held.truncate(MOST_HELD);
    held.sort();
    follow(p, s, held);
}

/// A held run from the last free block on, or from behind it, past the group's end or 32 bits.
fn past_end_follows(r: &mut Random, p: &Place, s: &mut Slots) {
    let mut held: Vec<Run> = p.state.held.iter().copied().collect();
    held.truncate(MOST_HELD - 1);
    let start = p.state.group.length - r.below(2);
    held.push((start, r.pick(&[1, 2, (1 << 32) - start - 1, (1 << 32) - start, u32::MAX.into()])));
    held.sort();
    follow(p, s, held);
}

/// One end of a held run a block further in or out; it may then be empty, or overlap what is in use or held.
fn moved_follows(r: &mut Random, p: &Place, s: &mut Slots) {
    let mut held: Vec<Run> = p.state.held.iter().copied().collect();
    if held.is_empty() {
        return;
    }
    let k = r.below(held.len() as u64) as usize;
    let (start, blocks) = held[k];
    held[k] = r.pick(&[
        (start - 1, blocks + 1),
        (start + 1, blocks - 1),
        (start, blocks + 1),
        (start, blocks - 1),
        (start - 1, blocks),
        (start + 1, blocks),
    ]);
    follow(p, s, held);
}
