//! The encoders together, to be replayed. A case is the encoder (1 byte) and a case of its own mode; an answer is a line: the
//! number, and the checksum of the lent bytes as they are left. Which cases are taken is as it was when the program that replayed
//! them had room for 320 bytes of numbers, so that a seed has the cases that it had.

use std::io;

use mkfs_xfs::crc::crc32c;

use super::geometry::{fields, step};
use super::{named, Mode, Out, Told};
use crate::frames::Fields;
use crate::random::Random;
use crate::request::Request;

pub struct Structs;

/// The encoders by number: mode, the bytes of its numbers before the lent ones, and the most lent bytes of a case.
const ENCODERS: [(&str, usize, usize); 11] = [
    ("agf", 72 + 16, 1024),
    ("agi", 44 + 16, 1024),
    ("agfl", 32 + 256, 1024),
    ("leaf", 38, 2048),
    ("dinode", 113, 2048),
    ("free_inode", 28, 2048),
    ("record", 41, 36864),
    ("record", 41, 36864),
    ("time", 13, 0),
    ("sf_dir", 8, 0),
    ("sb", 0, 1024),
];
const AGFL: usize = 2;
const RECORD: usize = 6;
const FIRST_RECORD: usize = 7;
const TIME: usize = 8;
const SF_DIR: usize = 9;
const SB: usize = 10;
const NUMBERS: usize = 320;

/// The numbers and the lent bytes of a case of the encoder's mode; none where the program doesn't take them.
fn taken_apart(encoder: usize, case: &[u8]) -> Option<(Vec<u8>, Vec<u8>)> {
    let (_, length, most) = ENCODERS[encoder];
    let mut f = Fields(case);
    let (mut head, body) = match encoder {
        RECORD | FIRST_RECORD => {
            let op = usize::from(f.u8());
            // A record has as many lent bytes as its stripe unit; of the large ones few are kept.
            let large = f.0.len() > 3000 && f.0[0] % 32 != 0;
            (op + RECORD == encoder && !large).then(|| (f.bytes(length - 1).to_vec(), f.rest().to_vec()))?
        }
        TIME => (f.bytes(length).to_vec(), vec![0; 8]),
        SF_DIR => (f.bytes(length).to_vec(), vec![0; 10]),
        SB => superblock(&mut f)?,
        _ => {
            let mut head = f.bytes(length).to_vec();
            if ENCODERS[encoder].0 == "leaf" || ENCODERS[encoder].0 == "dinode" {
                let n = u32::from_be_bytes(head[length - 4..].try_into().ok()?) as usize;
                head.extend(f.bytes(n));
            }
            (head, f.rest().to_vec())
        }
    };
    // The program reads the low half of a time's seconds.
    let seconds: &[usize] = match ENCODERS[encoder].0 {
        "dinode" => &[45, 57, 69, 81],
        "time" => &[1],
        _ => &[],
    };
    if seconds.iter().any(|&at| head[at..at + 4] != [0; 4]) || head.len() > NUMBERS || body.len() > most.max(10) {
        return None;
    }
    head.resize(NUMBERS, 0);
    Some((head, body))
}

/// A superblock's state, geometry and sector, the geometry first.
fn superblock(f: &mut Fields) -> Option<(Vec<u8>, Vec<u8>)> {
    let state = f.bytes(16 + 6 * 8 + 1).to_vec();
    let n = f.u32() as usize;
    let g = step(&Request::parse(f.bytes(n))?).1?;
    let x = &g.features;
    let mut head: Vec<u8> = fields(&g)[..19].iter().flat_map(|(_, v)| v.to_be_bytes()).collect();
    head.extend([x.finobt, x.rmapbt, x.reflink, x.inobtcount, x.bigtime, x.nrext64, x.sparse].map(u8::from));
    head.extend(g.label);
    head.extend(state);
    Some((head, f.rest().to_vec()))
}

impl Mode for Structs {
    fn case(&self, r: &mut Random) -> Vec<u8> {
        loop {
            let encoder = r.below(ENCODERS.len() as u64) as usize;
            let mut case = named(ENCODERS[encoder].0).unwrap().case(r);
            if encoder == AGFL {
                // The program repeats the first eight blocks of the list.
                (8..64).for_each(|i| case.copy_within(32 + i % 8 * 4..32 + i % 8 * 4 + 4, 32 + i * 4));
            }
            if taken_apart(encoder, &case).is_some() {
                return [&[encoder as u8][..], &case].concat();
            }
        }
    }

    fn answer(&self, case: &[u8], out: Out) -> io::Result<Told> {
        let encoder = usize::from(case[0]);
        let mut answer = Vec::new();
        let told = named(ENCODERS[encoder].0).unwrap().answer(&case[1..], &mut answer)?;
        // Behind the number stand the lent bytes; the superblock's four feature numbers stand before it.
        let mut left = answer[if encoder == SB { 20 } else { 4 }..].to_vec();
        match encoder {
            TIME => left.truncate(8),
            SF_DIR => left.resize(10, 0),
            _ => {}
        }
        writeln!(out, "{} {:08x}", told.number, crc32c(&left))?;
        // So that the sample has some of both.
        let several = ENCODERS[encoder].0 == "record" && left.len() > 32768;
        Ok(Told { kind: if several { "record of several headers" } else { ENCODERS[encoder].0 }, ..told })
    }

    fn replayed(&self, case: &[u8]) -> Option<Vec<u8>> {
        named(ENCODERS[usize::from(case[0])].0)?.replayed(&case[1..])
    }

    fn replayed_answer(&self, case: &[u8], _answer: &[u8]) -> Vec<u8> {
        let mode = named(ENCODERS[usize::from(case[0])].0).unwrap();
        let mut answer = Vec::new();
        mode.answer(&case[1..], &mut answer).unwrap();
        mode.replayed_answer(&case[1..], &answer)
    }
}
