//! Runs one side's function a number of times, to be measured from outside.
//!
//!     speed SIDE CASE TIMES      SIDE is rust or ours; prints the nanoseconds that the calls took
//!
//! With TIMES 0 it does all but the calls: what is left is start-up.

use std::hint::black_box;
use std::time::Instant;

use mkfs_xfs::crc as rust;
use mkfs_xfs::ours;

/// Where a leaf block and a superblock have their checksum.
const LEAF_CRC: usize = 52;
const SB_CRC: usize = 224;

/// A buffer of `len` bytes, of which the first `content` are not zero.
fn buffer(len: usize, content: usize) -> Vec<u8> {
    let byte = |i: usize| if i < content { (i as u32).wrapping_mul(0x9e37_79b9).to_be_bytes()[0] | 1 } else { 0 };
    (0..len).map(byte).collect()
}

/// The buffer of a case, and its checksum's place; none where the whole is summed.
fn case(name: &str) -> Option<(Vec<u8>, Option<usize>)> {
    Some(match name {
        "crc32c" => (buffer(16_000_000, 16_000_000), None),
        "leaf" => (buffer(4096, 80), Some(LEAF_CRC)),
        "sector" => (buffer(512, 264), Some(SB_CRC)),
        "full" => (buffer(4096, 4096), Some(LEAF_CRC)),
        _ => return None,
    })
}

fn call(side: &str, buf: &mut [u8], off: Option<usize>) -> u32 {
    match (side, off) {
        ("rust", None) => rust::crc32c(buf),
        ("rust", Some(off)) => {
            rust::stamp(buf, off);
            0
        }
        (_, None) => ours::crc32c(buf),
        (_, Some(off)) => ours::stamp(buf, off),
    }
}

fn main() {
    let words: Vec<String> = std::env::args().collect();
    let [_, side, name, times] = &words[..] else { panic!("speed SIDE CASE TIMES") };
    assert!(side == "rust" || side == "ours");
    let (mut buf, off) = case(name).expect("a case");
    let times: u64 = times.parse().expect("a number");
    let began = Instant::now();
    for _ in 0..times {
        black_box(call(side, black_box(&mut buf), off));
    }
    println!("{}", began.elapsed().as_nanos());
}
