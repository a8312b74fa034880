//! The log's functions. A case is the operation (1 byte), UUID (16), two numbers of 4 bytes, two of 8, and the lent
//! buffer; an answer the number (4 bytes) and the buffer as it is left, or the result in 8 bytes.

use std::io;

use mkfs_xfs::structs::log;

use super::{numbered, Mode, Out, Told};
use crate::frames::Fields;
use crate::port::{self, encoder, Asked};
use crate::random::Random;

pub struct Record;

const KINDS: [&str; 4] = ["record", "first_record", "clear_sunit", "lsn"];
const BAD_LENGTH: u32 = 27;
const BAD_SUNIT: u32 = 35;
/// The limit of 35.
const MOST_SUNIT: u32 = 16_384;
/// The longest buffer that a case lends: that of a unit of 262,145 bytes, and one byte more.
const MOST_LENT: usize = 262_657;

/// The bytes of a record, by the scope.
fn length(sunit: u32) -> usize {
    512 * (sunit as usize).div_ceil(512).max(2)
}

/// Five of eight are compared with the Rust; above the limit are its next neighbours, multiples of 32,768 bytes, from which
/// on the Rust writes several headers, and units of any size.
fn sunit(r: &mut Random) -> u32 {
    match r.below(8) {
        0 => r.below(3) as u32,
        1 => 511 + r.below(3) as u32,
        2 => r.below(MOST_SUNIT as u64 + 1) as u32,
        3 => r.pick(&[512, 1024, 2048, 4096, 8192, 16384]),
        4 => r.below(2000) as u32,
        5 => MOST_SUNIT - 1 + r.below(3) as u32,
        6 => (1 + r.below(8) as u32) * 32_768 - 1 + r.below(3) as u32,
        _ => r.wide() as u32,
    }
}

impl Mode for Record {
    fn case(&self, r: &mut Random) -> Vec<u8> {
        let op = if r.one_in(8) { 2 + r.below(2) } else { r.below(2) } as u8;
        let a = if op < 2 { sunit(r) } else { r.wide() as u32 & if r.one_in(3) { 1 } else { u32::MAX } };
        let len = match r.below(6) {
            _ if op >= 2 => 0,
            _ if length(a) > MOST_LENT => r.below(20_000) as usize,
            0 => length(a) - 1,
            1 => length(a) + 1,
            _ => length(a),
        };
        let mut out = vec![op];
        out.extend(r.bytes(16));
        out.extend(a.to_be_bytes());
        out.extend((r.wide() as u32).to_be_bytes());
        out.extend(r.next().to_be_bytes());
        out.extend(r.next().to_be_bytes());
        out.extend(r.bytes(len));
        out
    }

    fn answer(&self, case: &[u8], out: Out) -> io::Result<Told> {
        let mut f = Fields(case);
        let op = usize::from(f.u8()) % KINDS.len();
        let uuid: [u8; 16] = f.array();
        let (a, b, c, d, buf) = (f.u32(), f.u32(), f.u64(), f.u64(), f.rest());
        let kind = KINDS[op];
        let (told, left) = match kind {
            "clear_sunit" => (Told::asked(kind, 0), u64::from(log::clear_sunit(a, b)).to_be_bytes().to_vec()),
            "lsn" => (Told::asked(kind, 0), log::lsn(a, b).to_be_bytes().to_vec()),
            _ if buf.len() != length(a) => (Told::apart(kind, BAD_LENGTH), buf.to_vec()),
            _ if a > MOST_SUNIT => (Told::apart(kind, BAD_SUNIT), buf.to_vec()),
            "record" => (Told::asked(kind, 0), log::record(&uuid, a, c, d)),
            _ => (Told::asked(kind, 0), log::first_record(&uuid, a)),
        };
        out.write_all(&numbered(told.number, &left))?;
        Ok(told)
    }

    fn asked(&self, case: &[u8]) -> Option<Asked> {
        let op = usize::from(*case.first()?) % KINDS.len();
        let (params, lent) = case[1..].split_at_checked(40)?;
        // What gives a number alone leaves it in eight bytes.
        let body = if op < 2 { lent.to_vec() } else { vec![0; 8] };
        Some(Asked { program: port::ENCODERS, function: encoder::RECORD + op as u8, params: params.to_vec(), body })
    }
}
