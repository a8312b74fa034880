//! The root chunk. A case is a change of the geometry (1 byte: 0 is none), the chunk's first block (8), UUID, time (12),
//! the generator's state (8), the input records with their length (4) before them, and the lent buffer. An answer is the
//! number (4 bytes), the state after the draws (8, the state given where the call is refused), and the buffer as it is left.

use std::io;

use mkfs_xfs::format::{root_chunk, Gen};
use mkfs_xfs::geometry::{Geometry, Timestamp};

use super::geometry::step;
use super::inodes::{time, timestamp};
use super::plans::{time_fits, BAD_TIME};
use super::structs::length;
use super::{Mode, Out, Told};
use crate::frames::Fields;
use crate::port::{self, encoder, Asked, Reply};
use crate::random::Random;
use crate::request::Request;
use crate::wishes;

const BAD_LENGTH: u32 = 27;
const NO_PLACE: u32 = 29;
const NO_ANSWER: u32 = 31;

pub struct RootChunk;

/// What a call is given, but for the buffer.
struct Call {
    changed: bool,
    g: Geometry,
    agbno: u64,
    uuid: [u8; 16],
    time: Timestamp,
    seed: u64,
}

/// Changes one number that the others decide, so that the geometry is no answer; false for none.
fn change(g: &mut Geometry, which: u8) -> bool {
    match which {
        1 => g.blocklog += 1,
        2 => g.inopblock += 1,
        3 => g.agblklog += 1,
        4 => g.logblocks += 1,
        5 => g.log_agbno += 1,
        _ => return false,
    }
    true
}

fn call(f: &mut Fields) -> Option<Call> {
    let which = f.u8();
    let (agbno, uuid, time, seed) = (f.u64(), f.array(), timestamp(f), f.u64());
    let n = f.u32() as usize;
    let mut g = step(&Request::parse(f.bytes(n))?).1?;
    let changed = change(&mut g, which);
    Some(Call { changed, g, agbno, uuid, time, seed })
}

fn number(c: &Call, len: usize) -> u32 {
    let g = &c.g;
    match () {
        _ if c.changed => NO_ANSWER,
        _ if !time_fits(c.time, g.features.bigtime) => BAD_TIME,
        _ if len as u64 != g.chunk_blocks() * g.bs() => BAD_LENGTH,
        _ if c.agbno.saturating_add(g.chunk_blocks()) > g.ag_blocks(0) => NO_PLACE,
        _ => 0,
    }
}

fn answered(number: u32, state: u64, buf: &[u8]) -> Vec<u8> {
    [&number.to_be_bytes()[..], &state.to_be_bytes(), buf].concat()
}

impl Mode for RootChunk {
    fn case(&self, r: &mut Random) -> Vec<u8> {
        let (q, g) = loop {
            let changes = r.below(3);
            let q = wishes::request(r, changes);
            if let Some(g) = step(&q).1 {
                break (q, g);
            }
        };
        let end = g.ag_blocks(0);
        let agbno = match r.below(6) {
            0 => r.below(end),
            1 => r.near(end - g.chunk_blocks(), 1),
            2 => r.near(end, 1),
            _ => g.root_chunk_agbno(),
        };
        let mut out = vec![if r.one_in(16) { 1 + r.below(5) as u8 } else { 0 }];
        out.extend(agbno.to_be_bytes());
        out.extend(r.bytes(16));
        out.extend(time(r));
        let seed = if r.one_in(4) { r.near(0, 1) } else { r.next() };
        out.extend(seed.to_be_bytes());
        let records = q.encode();
        out.extend((records.len() as u32).to_be_bytes());
        out.extend(records);
        let n = length(r, &[(g.chunk_blocks() * g.bs()) as usize]);
        out.extend(r.bytes(n));
        out
    }

    fn answer(&self, case: &[u8], out: Out) -> io::Result<Told> {
        let mut f = Fields(case);
        let c = call(&mut f).ok_or_else(|| io::Error::other("a case without a geometry"))?;
        let buf = f.rest();
        let number = number(&c, buf.len());
        if number != 0 {
            out.write_all(&answered(number, c.seed, buf))?; // the lent state stays, and it begins as the seed
            return Ok(Told::apart("", number));
        }
        let mut gen = Gen(c.seed);
        let chunk = root_chunk(&c.g, c.agbno, &c.uuid, c.time, &mut gen);
        out.write_all(&answered(0, gen.0, &chunk))?;
        Ok(Told::asked("", 0))
    }

    fn asked(&self, case: &[u8]) -> Option<Asked> {
        let mut f = Fields(case);
        let params = case.get(1..1 + 8 + 16 + 12 + 8)?;
        let c = call(&mut f)?;
        let params = [&port::geometry(&c.g)[..], params].concat();
        Some(Asked { program: port::ENCODERS, function: encoder::ROOT_CHUNK, params, body: f.rest().to_vec() })
    }

    /// The lent state stays where the call is refused.
    fn replied(&self, case: &[u8], reply: Reply) -> Vec<u8> {
        let seed = Fields(case.get(37..).unwrap_or_default()).u64();
        answered(reply.number, if reply.number == 0 { reply.value } else { seed }, &reply.bytes)
    }

    /// The program says the state 0 of a refused call.
    fn replayed_answer(&self, _case: &[u8], answer: &[u8]) -> Vec<u8> {
        let mut f = Fields(answer);
        let (number, state) = (f.u32(), f.u64());
        port::line(number, if number == 0 { state } else { 0 }, f.rest())
    }
}
