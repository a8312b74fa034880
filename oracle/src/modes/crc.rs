//! `crc32c`, `cksum`, `stamp` and `verify`.
//!
//! A case is the operation (1 byte), the offset (8) and the buffer. An answer is the number (4 bytes), the result (4)
//! and the buffer as it is left.

use std::io;
use std::panic::catch_unwind;

use mkfs_xfs::crc;

use super::{Mode, Out, Told};
use crate::frames::Fields;
use crate::port::{self, encoder, Asked, Reply};
use crate::random::Random;

pub struct Crc;

const KINDS: [&str; 4] = ["crc32c", "cksum", "stamp", "verify"];

/// The four bytes of the checksum don't lie inside the buffer.
const NO_ROOM: u32 = 27;

/// The operation, the offset and the buffer of a case.
fn taken_apart(case: &[u8]) -> (usize, usize, Vec<u8>) {
    let mut f = Fields(case);
    (usize::from(f.u8()) % KINDS.len(), f.u64() as usize, f.rest().to_vec())
}

fn put_together(number: u32, result: u32, buf: &[u8]) -> Vec<u8> {
    [&number.to_be_bytes()[..], &result.to_be_bytes(), buf].concat()
}

/// What the Rust does with the buffer; it panics where the offset isn't inside.
fn rust(op: usize, off: usize, buf: &mut [u8]) -> u32 {
    match KINDS[op] {
        "crc32c" => crc::crc32c(buf),
        "cksum" => crc::cksum(buf, off),
        "stamp" => {
            crc::stamp(buf, off);
            0
        }
        _ => u32::from(crc::verify(buf, off)),
    }
}

impl Mode for Crc {
    fn case(&self, r: &mut Random) -> Vec<u8> {
        let op = r.below(4) as u8;
        let len = match r.below(8) {
            0 => r.below(16),
            1 => 512,
            2 => 4096,
            3 => r.below(5000),
            _ => r.below(600),
        } as usize;
        let mut buf = r.bytes(len);
        // Often the end is zeros, as in a structure on disk.
        if r.one_in(2) {
            let content = r.below(len as u64 + 1) as usize;
            buf[content..].fill(0);
        }
        let off = offset(r, len);
        // Often what is verified was stamped.
        if op == 3 && r.one_in(2) && len >= 4 && off <= len - 4 {
            crc::stamp(&mut buf, off);
        }
        [&[op][..], &(off as u64).to_be_bytes(), &buf].concat()
    }

    fn answer(&self, case: &[u8], out: Out) -> io::Result<Told> {
        let (op, off, buf) = taken_apart(case);
        let kind = KINDS[op];
        let done = catch_unwind(|| {
            let mut left = buf.clone();
            let result = rust(op, off, &mut left);
            (result, left)
        });
        let (told, bytes) = match done {
            Ok((result, left)) => (Told::asked(kind, 0), put_together(0, result, &left)),
            Err(_) if kind == "verify" => (Told::apart(kind, 0), put_together(0, 0, &buf)),
            Err(_) => (Told::apart(kind, NO_ROOM), put_together(NO_ROOM, 0, &buf)),
        };
        out.write_all(&bytes)?;
        Ok(told)
    }

    fn asked(&self, case: &[u8]) -> Option<Asked> {
        let (op, off, body) = taken_apart(case);
        let params = (off as u64).to_be_bytes().to_vec();
        Some(Asked { program: port::ENCODERS, function: encoder::CRC + op as u8, params, body })
    }

    fn replied(&self, _case: &[u8], reply: Reply) -> Vec<u8> {
        put_together(reply.number, reply.value as u32, &reply.bytes)
    }

    fn replayed_answer(&self, _case: &[u8], answer: &[u8]) -> Vec<u8> {
        let mut f = Fields(answer);
        let (number, result) = (f.u32(), f.u32());
        port::line(number, result.into(), f.rest())
    }
}

/// An offset: mostly inside, often at an edge, sometimes as large as can be.
fn offset(r: &mut Random, len: usize) -> usize {
    match r.below(8) {
        0 => len.wrapping_sub(4),
        1 => r.below(8) as usize + len.wrapping_sub(6).min(len),
        2 => r.near(u64::MAX - 3, 1) as usize,
        3 => r.wide() as usize,
        _ => r.below(len as u64 + 1) as usize,
    }
}
