//! Requests from a seed: a plain one, changed in some places, mostly at the bounds that the Rust tests.

use crate::random::Random;
use crate::request::{op, Request};

const MIB: u64 = 1 << 20;
const GIB: u64 = 1 << 30;
const TIB: u64 = 1 << 40;

/// Sizes at which the Rust's choices change.
const SIZES: [u64; 15] = [
    16 * MIB,
    32 * MIB,
    64 * MIB,
    128 * MIB,
    300 * MIB,
    GIB,
    8 * GIB,
    512 * GIB,
    TIB,
    4 * TIB,
    32 * TIB,
    50 * TIB,
    128 * GIB,
    1 << 63,
    u64::MAX,
];

const BLOCKS: [u64; 5] = [1024, 2048, 4096, 8192, 16384];

/// Block, sector and inode sizes, legal or not.
const POWERS: [u64; 22] = [
    0,
    1,
    2,
    256,
    511,
    512,
    513,
    1000,
    1024,
    1536,
    2047,
    2048,
    2049,
    4096,
    4097,
    8192,
    16384,
    32768,
    65536,
    65537,
    131072,
    u32::MAX as u64,
];

/// Sectors that a device names.
const SECTORS: [u64; 11] = [0, 1, 512, 513, 1024, 4096, 8192, 32768, 65536, 1 << 31, u32::MAX as u64];

/// The block size that the request has, where it is one.
pub fn block(q: &Request) -> u64 {
    match q.options[op::BLOCK].unwrap_or(4096) {
        b if b.is_power_of_two() && (512..=65536).contains(&b) => b,
        _ => 4096,
    }
}

/// A size in bytes: near a bound, or any.
fn size(r: &mut Random, unit: u64) -> u64 {
    match r.below(4) {
        0 => r.wide(),
        1 => 300 * MIB + r.below(4 * GIB),
        _ => {
            let v = r.pick(&SIZES);
            r.near(v, unit)
        }
    }
}

/// The bytes that the request formats.
fn span(q: &Request) -> u64 {
    q.options[op::SIZE].unwrap_or(q.device).min(q.device)
}

/// A count of groups: few, or at a bound of this request.
fn agcount(r: &mut Random, q: &Request) -> u64 {
    let blocks = span(q) / block(q);
    match r.below(9) {
        0 => r.below(3),
        1 => r.pick(&[0xffff_fffd, 0xffff_fffe, 0xffff_ffff, 1 << 32, u64::MAX]),
        2 => r.near(span(q) / (16 * MIB), 1),
        3 => r.near(span(q) / TIB, 1),
        4 => r.near(blocks, 1),
        5 => r.wide(),
        6 => r.below(30_000),
        _ => 1 + r.below(24),
    }
}

/// A size of groups in bytes: a part of the disk, or at a bound.
fn agsize(r: &mut Random, q: &Request) -> u64 {
    let b = block(q);
    let near = match r.below(8) {
        0 => 16 * MIB,
        1 => 64 * MIB + 16 * b,
        2 => TIB,
        3 => span(q),
        4 => return r.wide(),
        5 => return r.below(3),
        _ => span(q) / (1 + r.below(24)),
    };
    let v = r.near(near / b * b, b);
    if r.one_in(4) {
        v
    } else {
        v / b * b
    }
}

/// More groups than a group has blocks: the size rounded up leaves the last ones without a block.
fn groups_miss(r: &mut Random, q: &mut Request) {
    let b = block(q);
    let size = 64 * MIB / b + 20 + r.below(4000);
    let groups = size + r.below(3 * size);
    q.options[op::AGCOUNT] = Some(groups + r.below(3));
    q.device = r.near(groups * size * b, size * b);
}

fn label(r: &mut Random) -> Vec<u8> {
    let n = match r.below(16) {
        0 => 255,
        1 => r.below(256),
        _ => r.below(14),
    } as usize;
    if r.one_in(4) {
        r.bytes(n)
    } else {
        r.bytes(n).iter().map(|b| b'a' + b % 26).collect()
    }
}

/// Changes one thing of the request.
fn change(r: &mut Random, q: &mut Request) {
    match r.below(12) {
        0 => q.options[op::BLOCK] = Some(r.pick(&POWERS)),
        1 => q.options[op::SECTOR] = Some(r.pick(&POWERS)),
        2 => q.options[op::INODE] = Some(r.pick(&POWERS)),
        3 => q.options[op::SIZE] = Some(size(r, block(q))),
        4 => {
            let (unit, device) = (block(q), q.device);
            q.options[op::SIZE] = Some(r.near(device, unit));
        }
        5 => q.options[op::AGCOUNT] = Some(agcount(r, q)),
        6 => q.options[op::AGSIZE] = Some(agsize(r, q)),
        7 => q.options[op::IMAXPCT] = Some(r.pick(&[0, 1, 25, 99, 100, 101, 255])),
        8 => q.label = Some(label(r)),
        9 => q.options[op::FEATURES] = Some(r.below(128)),
        10 => {
            q.logical = r.pick(&SECTORS) as u32;
            q.physical = r.pick(&SECTORS) as u32;
        }
        _ if r.one_in(2) => groups_miss(r, q),
        _ => q.device = size(r, block(q)),
    }
}

/// A request that is likely to be accepted, with `changes` things changed at most.
pub fn request(r: &mut Random, changes: u64) -> Request {
    let mut q = Request { logical: 512, physical: r.pick(&[512, 512, 4096]), ..Request::default() };
    if r.one_in(2) {
        q.options[op::BLOCK] = Some(r.pick(&BLOCKS));
    }
    q.device = match r.below(3) {
        0 => 300 * MIB + r.below(20 * GIB),
        1 => size(r, block(&q)),
        _ => r.pick(&SIZES[4..]),
    };
    if r.one_in(2) {
        // Without inobtcount, or with finobt too.
        let bits = r.below(128);
        q.options[op::FEATURES] = Some(bits | (bits >> 3 & 1));
    }
    if r.one_in(4) {
        q.options[op::INODE] = Some(r.pick(&[512, 1024, 2048]).min(block(&q) / 2));
    }
    if r.one_in(4) {
        q.options[op::SECTOR] = Some(r.pick(&[512, 1024, 2048, 4096, 8192, 16384]).min(block(&q)));
    }
    for _ in 0..r.below(changes + 1) {
        change(r, &mut q);
    }
    q
}

/// A request of a few groups, small enough to be planned and written whole.
pub fn small(r: &mut Random, changes: u64, groups: u64) -> Request {
    let mut q = request(r, changes);
    if r.one_in(2) {
        q.device = 300 * MIB + r.below(64 * GIB);
    }
    let b = block(&q);
    match r.below(4) {
        0 => {
            // Groups that hardly hold the log of 64 MiB.
            let n = 5 + r.below(groups.min(60) - 4);
            let size = 64 * MIB / b + 5 + r.below(24);
            q.options[op::AGSIZE] = Some(size * b);
            q.device = n * size * b + r.below(2) * r.below(size * b);
        }
        1 => q.options[op::AGCOUNT] = Some(2 + r.below(groups.min(q.device / (16 * MIB) + 1))),
        _ => {}
    }
    q
}

/// A request of many groups, most of them of small blocks. A group holds the least log, or is larger, up to the largest.
pub fn many(r: &mut Random, groups: u64) -> Request {
    let mut q = request(r, 0);
    let b = r.pick(&[1024, 1024, 1024, 1024, 2048, 2048, 4096, 4096, 8192, 16384]);
    q.options[op::BLOCK] = Some(b);
    q.options[op::INODE] = None;
    q.options[op::SECTOR] = Some(r.pick(&[512, 512, 1024, 2048, 4096]).min(b));
    let n = if r.one_in(4) { groups } else { 2 + r.below(groups - 1) };
    let least = 64 * MIB / b + 30;
    let size = match r.below(4) {
        0 => TIB / b - r.below(4),
        1 => least + r.below(TIB / b - least),
        _ => least + r.below(5000),
    };
    q.options[op::AGSIZE] = Some(size * b);
    let short = if r.one_in(2) { r.below(size - 16 * MIB / b) } else { 0 };
    q.device = (n * size - short) * b + r.below(b);
    q
}

/// A run of many groups: in a quarter of them the group size is the default, of 1 TiB; with UUID, seed and a time, and any inode size.
pub fn many_run(r: &mut Random, groups: u64) -> Request {
    let mut q = many(r, groups);
    if r.one_in(4) {
        q.options[op::AGSIZE] = None;
        q.device = (33 + r.below(groups - 33)) * TIB + r.below(TIB);
    }
    if r.one_in(2) {
        q.options[op::INODE] = Some(r.pick(&[512, 1024, 2048]).min(block(&q) / 2));
    }
    with_run(r, &mut q);
    // Few of those times are in range.
    if !r.one_in(8) {
        q.options[op::SECONDS] = Some(r.below(1 << 31));
        q.options[op::NANOSECONDS] = Some(r.below(1_000_000_000));
    }
    q
}

/// A label of any bytes, no longer than it may be.
pub fn any_label(r: &mut Random, q: &mut Request) {
    let n = r.below(13) as usize;
    q.label = Some(r.bytes(n));
}

/// One of the two ends of the times that the request's features allow.
pub fn end_of_time(r: &mut Random, q: &mut Request) {
    let bigtime = q.features().bigtime;
    let (seconds, nanoseconds) = match (r.one_in(2), bigtime) {
        (true, _) => (0u64.wrapping_sub(1 << 31), 0),
        (false, true) => (16_299_260_425, 709_551_615),
        (false, false) => ((1 << 31) - 1, 999_999_999),
    };
    q.options[op::SECONDS] = Some(seconds);
    q.options[op::NANOSECONDS] = Some(nanoseconds);
}

/// Adds UUID, seed and time, at the bounds of what a time can be too.
pub fn with_run(r: &mut Random, q: &mut Request) {
    if !r.one_in(4) {
        q.id = Some(r.bytes(16).try_into().unwrap());
    }
    if !r.one_in(4) {
        q.options[op::SEED] = Some(r.wide());
    }
    if !r.one_in(4) {
        let bounds = [0, 1 << 31, u64::MAX, (1 << 31) - 1, 0u64.wrapping_sub(1 << 31), 16_299_260_425];
        let v = r.pick(&bounds);
        let near = r.near(v, 1);
        q.options[op::SECONDS] = Some(if r.one_in(3) { r.below(1 << 32) } else { near });
    }
    if !r.one_in(4) {
        let bounds = [0, 709_551_615, 709_551_616, 999_999_999, 1_000_000_000, u32::MAX.into()];
        q.options[op::NANOSECONDS] = Some(r.pick(&bounds));
    }
}

/// Sometimes puts the request under the profile, once the port reads its code.
pub fn with_profile(r: &mut Random, q: &mut Request) {
    if op::LAST >= op::PROFILE && r.one_in(4) {
        q.options[op::PROFILE] = Some(r.below(2));
    }
}

/// The request's records, sometimes with a label before the options, and sometimes malformed.
pub fn records(r: &mut Random, q: &Request) -> Vec<u8> {
    let mut bytes = q.encode();
    if !r.one_in(4) {
        return bytes;
    }
    let at = r.below(bytes.len() as u64) as usize;
    match r.below(8) {
        0 => bytes.truncate(at),
        1 => bytes[at] ^= 1 << r.below(8),
        2 => bytes.clear(),
        3 => bytes.extend_from_within(..18),
        4 => bytes.extend_from_within(18..),
        5 => bytes.extend([b"OP".as_slice(), &[r.below(16) as u8], &r.wide().to_be_bytes()].concat()),
        6 => bytes = [&bytes[..18], &[b"LB", &[2u8][..], b"zz"].concat(), &bytes[18..]].concat(),
        _ => bytes.extend(r.bytes(400)),
    }
    bytes
}
