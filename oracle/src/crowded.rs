//! Requests from a seed for disks whose log group is crowded: where roomy sizing gives another log than plain sizing, or another number.

use crate::random::Random;
use crate::request::{op, Request};
use crate::wishes;

const MIB: u64 = 1 << 20;
const GIB: u64 = 1 << 30;
const TIB: u64 = 1 << 40;

/// The blocks of a head and of a free list, if the request's sizes are legal.
fn taken(q: &Request) -> (u64, u64) {
    let (f, b) = (q.features(), wishes::block(q));
    let sector = q.options[op::SECTOR].unwrap_or(q.physical.into());
    let roots = 3 + u64::from(f.finobt) + u64::from(f.rmapbt) + u64::from(f.reflink);
    ((4 * sector).div_ceil(b) + roots, if f.rmapbt { 6 } else { 4 })
}

/// Blocks that a log group has besides head and log: about as many as the free list or the log's limit needs.
fn left(r: &mut Random, list: u64) -> u64 {
    match r.below(8) {
        0 => r.below(16),
        1 => list + r.below(3),
        2 => 5,
        _ => 3 + r.below(5),
    }
}

/// Two groups, the second as long as the least log, head and some blocks.
fn two_least(r: &mut Random, q: &mut Request) {
    let b = wishes::block(q);
    let (head, list) = taken(q);
    let second = 64 * MIB / b + head + left(r, list);
    let most = if r.one_in(4) { 120 * GIB } else { 2 * GIB };
    let first = 236 * MIB / b + r.below(most / b);
    q.options[op::AGSIZE] = Some(first * b);
    q.device = (first + second) * b + r.below(2) * r.below(b);
}

/// Two groups, the second as long as a longer log, of a 2048th of the disk, head and some blocks.
fn two_longer(r: &mut Random, q: &mut Request) {
    let b = wishes::block(q);
    let (head, list) = taken(q);
    let first = 128 * GIB / b + r.below(1 + (TIB - 128 * GIB) / b) - u64::from(r.one_in(8));
    // The least second group whose log, head and those blocks fill it.
    let wanted = head + left(r, list);
    let mut second = first / 2048 + wanted;
    while (first + second) / 2048 + wanted > second {
        second += 1;
    }
    q.options[op::AGSIZE] = Some(first * b);
    q.device = (first + second) * b + r.below(b);
}

/// Some groups that hardly hold the least log, with a last one that may be short or too short.
fn small_groups(r: &mut Random, q: &mut Request, groups: u64) {
    let b = wishes::block(q);
    let (head, list) = taken(q);
    let size = 64 * MIB / b + head + left(r, list);
    let n = 4 + r.below(groups.min(60) - 4);
    q.options[op::AGSIZE] = Some(size * b);
    q.device = (n * size + r.below(2) * r.below(size)) * b;
    if r.one_in(8) {
        q.options[op::AGCOUNT] = Some(n);
    }
}

/// So many groups that a 2048th of the disk is more than a group, or than the longest log, which a group hardly holds.
fn many_groups(r: &mut Random, q: &mut Request) {
    let b = wishes::block(q);
    let (head, list) = taken(q);
    let most = 1_048_576.min(2_136_997_888 / b);
    let log = if r.one_in(2) { most } else { 64 * MIB / b + r.below(most - 64 * MIB / b) };
    let size = log + head + left(r, list);
    let n = 2040 + r.below(40);
    q.options[op::AGSIZE] = Some(size * b);
    q.device = (n * size + r.below(2) * r.below(size)) * b;
}

/// More groups than a group has blocks, some of them without a block, and the least log in a full group.
fn groups_miss(r: &mut Random, q: &mut Request) {
    let b = wishes::block(q);
    let (head, list) = taken(q);
    let size = 64 * MIB / b + head + left(r, list);
    let n = size + size / 8 + r.below(size);
    q.options[op::AGCOUNT] = Some(n);
    q.options[op::AGSIZE] = None;
    q.device = (n * size - r.below(n)) * b;
}

/// A request, mostly of a crowded disk of at most `groups` groups; its sizing is left open.
pub fn request(r: &mut Random, groups: u64) -> Request {
    let changes = if r.one_in(8) { 2 } else { 0 };
    let mut q = wishes::request(r, changes);
    q.options[op::AGCOUNT] = None;
    if r.one_in(2) {
        let bits = q.options[op::FEATURES].unwrap_or(127);
        q.options[op::FEATURES] = Some(bits & !2);
    }
    match r.below(16) {
        0..=5 => two_least(r, &mut q),
        6..=9 => two_longer(r, &mut q),
        10..=12 => small_groups(r, &mut q, groups),
        13 if groups > 2080 => many_groups(r, &mut q),
        14 if groups > 2080 || r.one_in(2) => groups_miss(r, &mut q),
        15 => q = wishes::request(r, 4),
        _ => q = wishes::small(r, changes, groups),
    }
    q
}

/// The request's records with a sizing: mostly roomy, but plain, none, another value or two of them too; malformed in other ways sometimes.
pub fn records(r: &mut Random, q: &Request) -> Vec<u8> {
    let mut q = q.clone();
    q.options[op::SIZING] = match r.below(32) {
        0 => None,
        1 => Some(0),
        2 => Some(2 + r.below(300)),
        3 => Some(r.wide()),
        _ => Some(1),
    };
    match r.below(32) {
        0 => [q.encode(), b"OP\x0c\0\0\0\0\0\0\0".to_vec(), vec![r.below(2) as u8]].concat(),
        1..=4 => wishes::records(r, &q),
        _ => q.encode(),
    }
}
