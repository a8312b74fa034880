//! Record lists, leaf blocks, log records and decoded times together, to be replayed. A case is the function (1 byte), the byte
//! that every lent byte has (1) and a case of the function's own mode; an answer is a line: the number, and the checksum of the lent
//! bytes as they are left.
//!
//! `clear_sunit`, `lsn` and `decode_time` leave their results: 8 bytes, or the seconds from −2^31 on and the nanoseconds.
//! Cases with more than 1040 bytes of numbers aren't taken, so that a seed has the cases that it had.

use std::io;

use mkfs_xfs::crc::crc32c;

use super::inodes::{decoding, LEAST};
use super::{named, Mode, Out, Told};
use crate::frames::Fields;
use crate::port::{self, Asked};
use crate::random::Random;

pub struct Records;

/// The functions by number: mode, the byte that its cases start with, the bytes of its numbers, and its lent bytes where
/// a case of the mode has none.
const FUNCTIONS: [(&str, Option<u8>, usize, usize); 10] = [
    ("recs", Some(0), 8 + 1024, 0),
    ("recs", Some(1), 8 + 1024, 0),
    ("recs", Some(2), 8 + 1024, 0),
    ("recs", Some(3), 8 + 1024, 0),
    ("leaf", None, 38, 0),
    ("record", Some(0), 40, 0),
    ("record", Some(1), 40, 0),
    ("record", Some(2), 40, 8),
    ("record", Some(3), 40, 8),
    ("time", None, 21, 12),
];
const LEAF: usize = 4;
const DECODE_TIME: usize = 9;
const NUMBERS: usize = 1040;
const MOST_LENT: usize = 262_656;

/// A decoded time with its seconds from −2^31 on.
fn from_least(time: &[u8]) -> Vec<u8> {
    let (secs, nsecs) = time.split_at(8);
    let from_least = LEAST + i64::from_be_bytes(secs.try_into().unwrap());
    [&from_least.to_be_bytes()[..], nsecs].concat()
}

/// The numbers, and how many bytes are lent; none where the case is another function's or the program doesn't take it.
fn taken_apart(function: usize, case: &[u8]) -> Option<(Vec<u8>, usize)> {
    let (_, first, length, lent) = FUNCTIONS[function];
    let mut f = Fields(case);
    if first.is_some_and(|b| b != f.u8()) {
        return None;
    }
    let mut numbers = f.bytes(length).to_vec();
    if function == LEAF {
        let n = u32::from_be_bytes(numbers[length - 4..].try_into().ok()?) as usize;
        numbers.extend(f.bytes(n));
    }
    let lent = lent.max(f.0.len());
    if numbers.len() > NUMBERS || lent > MOST_LENT {
        return None;
    }
    numbers.resize(NUMBERS, 0);
    Some((numbers, lent))
}

impl Mode for Records {
    fn case(&self, r: &mut Random) -> Vec<u8> {
        loop {
            let function = r.below(FUNCTIONS.len() as u64) as usize;
            let mut case = named(FUNCTIONS[function].0).unwrap().case(r);
            let fill = r.below(256) as u8;
            if let Some((_, lent)) = taken_apart(function, &case) {
                if FUNCTIONS[function].3 == 0 {
                    let end = case.len();
                    case[end - lent..].fill(fill);
                }
                return [&[function as u8, fill][..], &case].concat();
            }
        }
    }

    fn answer(&self, case: &[u8], out: Out) -> io::Result<Told> {
        let function = usize::from(case[0]);
        let mut answer = Vec::new();
        let mut told = named(FUNCTIONS[function].0).unwrap().answer(&case[2..], &mut answer)?;
        let mut left = answer[4..].to_vec();
        if function == DECODE_TIME {
            // What `encode_time` answers to the same case isn't asked here.
            left = from_least(&left[8..]);
            told = Told::asked(if told.kind == "bigtime" { "decode_time bigtime" } else { "decode_time" }, 0);
        }
        writeln!(out, "{} {:08x}", told.number, crc32c(&left))?;
        // So that the sample has some of each.
        Ok(Told { kind: if told.kind.is_empty() { FUNCTIONS[function].0 } else { told.kind }, ..told })
    }

    fn replayed(&self, case: &[u8]) -> Option<Vec<u8>> {
        let function = usize::from(case[0]);
        let (_, lent) = taken_apart(function, &case[2..])?;
        let asked = if function == DECODE_TIME {
            decoding(&case[2..])?
        } else {
            named(FUNCTIONS[function].0)?.asked(&case[2..])?
        };
        let body = [&case[1..2], &(lent as u32).to_be_bytes()].concat();
        Some(Asked { body, ..asked }.frame(port::REPEATED))
    }

    fn replayed_answer(&self, case: &[u8], _answer: &[u8]) -> Vec<u8> {
        let mode = named(FUNCTIONS[usize::from(case[0])].0).unwrap();
        let mut answer = Vec::new();
        mode.answer(&case[2..], &mut answer).unwrap();
        match usize::from(case[0]) {
            DECODE_TIME => port::line(0, 0, &from_least(&answer[12..])),
            _ => mode.replayed_answer(&case[2..], &answer),
        }
    }
}
