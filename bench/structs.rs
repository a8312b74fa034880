//! Runs one side's encoder a number of times, to be measured from outside.
//!
//!     structs SIDE CASE TIMES      SIDE is rust or ours; prints the nanoseconds that the calls took
//!
//! With TIMES 0 it does all but the calls: what is left is start-up.

use std::hint::black_box;
use std::time::Instant;

use mkfs_xfs::geometry::{Geometry, Params};
use mkfs_xfs::ours as port;
use mkfs_xfs::structs::ag::{encode_agfl, Agf, Agi};
use mkfs_xfs::structs::btree::{leaf_block, magic};
use mkfs_xfs::structs::sb::{self, SbState};

const UUID: [u8; 16] = *b"0123456789abcdef";

/// The blocks of a free list, six in use.
const LIST: [u32; 64] = [9; 64];

/// A group's numbers, as small as they are on a small disk.
fn agf() -> Agf {
    Agf {
        seqno: 1,
        length: 65536,
        bno_root: 4,
        bno_level: 1,
        cnt_root: 5,
        cnt_level: 1,
        rmap_root: 8,
        rmap_level: 1,
        rmap_blocks: 1,
        refcount_root: 9,
        refcount_level: 1,
        refcount_blocks: 1,
        flfirst: 0,
        fllast: 5,
        flcount: 6,
        freeblks: 65523,
        longest: 65523,
        btreeblks: 0,
    }
}

fn agi() -> Agi {
    Agi {
        seqno: 1,
        length: 65536,
        count: 64,
        root: 6,
        level: 1,
        freecount: 61,
        newino: 128,
        free_root: 7,
        free_level: 1,
        iblocks: 1,
        fblocks: 1,
    }
}

/// The superblock of a disk of 1 GiB.
fn superblock() -> (Geometry, SbState) {
    let g = Geometry::compute(&Params::default(), 1 << 30, 512, 512).expect("a geometry");
    let s = SbState {
        uuid: UUID,
        rootino: 128,
        rbmino: 129,
        rsumino: 130,
        icount: 64,
        ifree: 61,
        fdblocks: 245_724,
        inprogress: false,
    };
    (g, s)
}

/// The call of a case, over its buffer.
fn call(side: &str, name: &str) -> (usize, Box<dyn Fn(&mut [u8])>) {
    let rust = side == "rust";
    let recs = [7u8; 24];
    let (a, i, (g, s)) = (agf(), agi(), superblock());
    let f: Box<dyn Fn(&mut [u8])> = match (name, rust) {
        ("sb", true) => Box::new(move |b| sb::encode(&g, &s, b)),
        ("sb", false) => {
            let (fields, numbers) = (port::fields(&g), port::numbers(&s));
            Box::new(move |b| assert_eq!(port::sb(&fields, &g.label, &numbers, &s.uuid, b), 0))
        }
        ("agf", true) => Box::new(move |b| a.encode(&UUID, b)),
        ("agf", false) => Box::new(move |b| assert_eq!(port::agf(&a, &UUID, b), 0)),
        ("agi", true) => Box::new(move |b| i.encode(&UUID, b)),
        ("agi", false) => Box::new(move |b| assert_eq!(port::agi(&i, &UUID, b), 0)),
        ("agfl", true) => Box::new(|b| encode_agfl(1, &UUID, 0, &LIST[..6], b)),
        ("agfl", false) => Box::new(|b| assert_eq!(port::agfl(1, &UUID, 0, &LIST, 6, b), 0)),
        // The Rust's leaf is a vector of its own.
        ("leaf", true) => Box::new(move |b| {
            black_box(leaf_block(magic::BNO, 8, 1, &UUID, black_box(&recs), 3, b.len()));
        }),
        ("leaf", false) => {
            Box::new(move |b| assert_eq!(port::leaf_block(magic::BNO, 8, 1, &UUID, black_box(&recs), 3, b), 0))
        }
        _ => panic!("no case {name}"),
    };
    (if name == "leaf" { 4096 } else { 512 }, f)
}

fn main() {
    let words: Vec<String> = std::env::args().collect();
    let [_, side, name, times] = &words[..] else { panic!("structs SIDE CASE TIMES") };
    assert!(side == "rust" || side == "ours");
    let (len, f) = call(side, name);
    let mut buf = vec![0u8; len];
    let times: u64 = times.parse().expect("a number");
    let began = Instant::now();
    for _ in 0..times {
        f(black_box(&mut buf));
    }
    println!("{}", began.elapsed().as_nanos());
}
