//! The input records. A case is both programs' standard input, well-formed or not. An answer is 32 numbers of eight
//! bytes (the number of the scope; device, logical and physical sector; size, block, sector, inode, agcount, agsize,
//! imaxpct and seed, each with 1 before it where it is given; the seven features; 1 for a given time, the number and the
//! value that an inode with bigtime stores of it; the label's length; 1 for a given UUID), the label's first 12 bytes
//! and the UUID. Malformed input has no options, all features and zeros beside its number.

use std::io;

use mkfs_xfs::structs::inode::encode_time;

use super::geometry::feature_bits;
use super::plans::{time_fits, BAD_TIME};
use super::{Mode, Out, Told};
use crate::frames::Fields;
use crate::port::{self, Asked, Reply};
use crate::random::Random;
use crate::request::{op, Request, MALFORMED};
use crate::wishes;

pub struct Requests;

/// The options whose numbers are shown as they are, in the order of the port's record.
const SHOWN: [usize; 8] = [op::SIZE, op::BLOCK, op::SECTOR, op::INODE, op::AGCOUNT, op::AGSIZE, op::IMAXPCT, op::SEED];

fn numbers(number: u32, q: &Request) -> Vec<u64> {
    let mut out = vec![number.into(), q.device, q.logical.into(), q.physical.into()];
    for code in SHOWN {
        out.extend([q.options[code].is_some().into(), q.options[code].unwrap_or(0)]);
    }
    let bits = feature_bits(&q.features());
    out.extend((0..7).map(|k| bits >> k & 1));
    let given = q.options[op::SECONDS].is_some() || q.options[op::NANOSECONDS].is_some();
    out.extend(match (given, time_fits(q.time(), true)) {
        (false, _) => [0, 0, 0],
        (true, false) => [1, BAD_TIME.into(), 0],
        (true, true) => [1, 0, encode_time(q.time(), true)],
    });
    out.extend([q.label.as_ref().map_or(0, |l| l.len() as u64), q.id.is_some().into()]);
    out
}

impl Mode for Requests {
    fn case(&self, r: &mut Random) -> Vec<u8> {
        let changes = r.below(6);
        let mut q = wishes::request(r, changes);
        wishes::with_run(r, &mut q);
        wishes::records(r, &q)
    }

    fn answer(&self, case: &[u8], out: Out) -> io::Result<Told> {
        let parsed = Request::parse(case);
        let number = if parsed.is_some() { 0 } else { MALFORMED };
        let q = parsed.unwrap_or_default();
        for n in numbers(number, &q) {
            out.write_all(&n.to_be_bytes())?;
        }
        let mut label = q.label.unwrap_or_default();
        label.resize(12, 0);
        out.write_all(&label)?;
        out.write_all(&q.id.unwrap_or_default())?;
        Ok(Told::apart("", number))
    }

    fn asked(&self, case: &[u8]) -> Option<Asked> {
        Some(Asked { program: port::PLANS, function: port::plan::REQUEST, params: Vec::new(), body: case.to_vec() })
    }

    fn replied(&self, _case: &[u8], reply: Reply) -> Vec<u8> {
        reply.bytes
    }

    fn replayed_answer(&self, _case: &[u8], answer: &[u8]) -> Vec<u8> {
        port::line(Fields(answer).u64() as u32, 0, answer)
    }

    fn show_case(&self, case: &[u8]) -> String {
        format!("{} {:?}", super::hex(case), Request::parse(case))
    }
}
