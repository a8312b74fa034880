//! Calls the Rust's geometry step on device sizes in a row, to be measured from outside.
//!
//!     sizes FIRST TIMES      FIRST in blocks of 4096 bytes; prints the nanoseconds that the calls took, and how many were accepted
//!
//! With TIMES 0 it does all but the calls: what is left is start-up.

use std::hint::black_box;
use std::time::Instant;

use mkfs_xfs::geometry::{Geometry, Params};

const BLOCK: u64 = 4096;

fn main() {
    let words: Vec<String> = std::env::args().collect();
    let [_, first, times] = &words[..] else { panic!("sizes FIRST TIMES") };
    let (first, times): (u64, u64) = (first.parse().expect("a number"), times.parse().expect("a number"));
    let params = Params::default();
    let began = Instant::now();
    let mut accepted = 0;
    for n in first..first + times {
        let g = Geometry::compute(black_box(&params), black_box(n * BLOCK), 512, 512);
        accepted += u64::from(black_box(&g).is_ok());
    }
    println!("{} {accepted}", began.elapsed().as_nanos());
}
