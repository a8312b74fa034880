//! The inode's functions. Cases and answers as in `structs`.

use std::io;

use mkfs_xfs::geometry::Timestamp;
use mkfs_xfs::structs::inode::{self, decode_time, encode_time, Dinode};

use super::plans::{time_fits, BAD_TIME};
use super::structs::{encoded, length, split, split_behind};
use super::{numbered, Mode, Out, Told};
use crate::frames::Fields;
use crate::port::{self, encoder, Asked, Reply};
use crate::random::Random;

const BAD_LENGTH: u32 = 27;
const INODES: [usize; 3] = [512, 1024, 2048];

fn is_inode(len: usize) -> bool {
    INODES.contains(&len)
}

/// A time: mostly accepted, often at an end of a range.
pub fn time(r: &mut Random) -> [u8; 12] {
    let ends = [0, 1 << 31, -(1i64 << 31), 16_299_260_425, i64::MIN, i64::MAX];
    let end = r.pick(&ends) as u64;
    let secs = if r.one_in(4) { r.near(end, 1) } else { r.below(1 << 31) };
    let nsecs = match r.below(16) {
        0 => r.pick(&[1_000_000_000, u32::MAX]),
        1 => r.pick(&[999_999_999, 709_551_615, 709_551_616]),
        _ => r.below(1_000_000_000) as u32,
    };
    let mut out = [0; 12];
    out[..8].copy_from_slice(&secs.to_be_bytes());
    out[8..].copy_from_slice(&nsecs.to_be_bytes());
    out
}

pub fn timestamp(f: &mut Fields) -> Timestamp {
    Timestamp { secs: f.u64() as i64, nsecs: f.u32() }
}

fn dinode(f: &mut Fields) -> (Dinode, [u8; 16]) {
    let mut d = Dinode {
        ino: f.u64(),
        mode: f.u16(),
        format: f.u8(),
        nlink: f.u32(),
        size: f.u64(),
        flags: f.u16(),
        flags2: f.u64(),
        gen: f.u32(),
        changecount: f.u64(),
        atime: timestamp(f),
        mtime: timestamp(f),
        ctime: timestamp(f),
        crtime: timestamp(f),
        data: Vec::new(),
    };
    let uuid = f.array();
    let n = f.u32() as usize;
    d.data = f.bytes(n).to_vec();
    (d, uuid)
}

/// ino (8 bytes), mode (2), format (1), nlink (4), size (8), flags (2), flags2 (8), gen (4), changecount (8), four
/// times (12 each: atime, mtime, ctime, crtime), UUID, the data with its length (4) before it, slot.
pub struct Allocated;

impl Mode for Allocated {
    fn case(&self, r: &mut Random) -> Vec<u8> {
        let slot = length(r, &INODES);
        let room = slot.saturating_sub(inode::CORE_SIZE);
        let data = match r.below(6) {
            0 => room,
            1 => room + 1,
            2 => r.below(room as u64 + 1) as usize,
            _ => r.pick(&[0, 6, 10]),
        };
        let mut out = r.bytes(8 + 2 + 1 + 4 + 8 + 2 + 8 + 4 + 8);
        let same = time(r);
        for _ in 0..4 {
            out.extend(if r.one_in(4) { time(r) } else { same });
        }
        out.extend(r.bytes(16));
        out.extend((data as u32).to_be_bytes());
        out.extend(r.bytes(data + slot));
        out
    }

    fn answer(&self, case: &[u8], out: Out) -> io::Result<Told> {
        let mut f = Fields(case);
        let (d, uuid) = dinode(&mut f);
        let buf = f.rest();
        let bigtime = d.flags2 & inode::DIFLAG2_BIGTIME != 0;
        let number = match () {
            _ if ![d.atime, d.mtime, d.ctime, d.crtime].iter().all(|&t| time_fits(t, bigtime)) => BAD_TIME,
            _ if !is_inode(buf.len()) || inode::CORE_SIZE + d.data.len() > buf.len() => BAD_LENGTH,
            _ => 0,
        };
        encoded(out, number, buf, |b| d.encode(&uuid, b))
    }

    fn asked(&self, case: &[u8]) -> Option<Asked> {
        split_behind(encoder::DINODE, case, 8 + 2 + 1 + 4 + 8 + 2 + 8 + 4 + 8 + 4 * 12 + 16 + 4)
    }
}

/// ino (8 bytes), gen (4), UUID, slot.
pub struct Free;

impl Mode for Free {
    fn case(&self, r: &mut Random) -> Vec<u8> {
        let slot = length(r, &INODES);
        r.bytes(8 + 4 + 16 + slot)
    }

    fn answer(&self, case: &[u8], out: Out) -> io::Result<Told> {
        let mut f = Fields(case);
        let (ino, gen, uuid, buf) = (f.u64(), f.u32(), f.array(), f.rest());
        let number = if is_inode(buf.len()) { 0 } else { BAD_LENGTH };
        encoded(out, number, buf, |b| inode::encode_free(ino, gen, &uuid, b))
    }

    fn asked(&self, case: &[u8]) -> Option<Asked> {
        split(encoder::FREE_INODE, case, 8 + 4 + 16)
    }
}

/// bigtime (1 byte), a time (12), a stored time (8). An answer is the number, the time as it is stored (8 bytes, zeros
/// where it is refused), and the stored time's seconds (8) and nanoseconds (4).
pub struct Time;

/// What `decode_time` is asked; it leaves seconds, counted from −2^31 on, and nanoseconds in 12 bytes.
pub fn decoding(case: &[u8]) -> Option<Asked> {
    let params = [case.get(..1)?, case.get(13..21)?].concat();
    Some(Asked { program: port::ENCODERS, function: encoder::DECODE_TIME, params, body: vec![0; 12] })
}

/// The least second of a decoded time is −2^31.
pub const LEAST: i64 = 1 << 31;

impl Mode for Time {
    fn case(&self, r: &mut Random) -> Vec<u8> {
        let mut out = vec![r.below(2) as u8];
        out.extend(time(r));
        let raw = if r.one_in(4) { r.near(0, 1) } else { r.wide() };
        out.extend(raw.to_be_bytes());
        out
    }

    fn answer(&self, case: &[u8], out: Out) -> io::Result<Told> {
        let mut f = Fields(case);
        let bigtime = f.u8() != 0;
        let (t, raw) = (timestamp(&mut f), f.u64());
        let fits = time_fits(t, bigtime);
        let stored = if fits { encode_time(t, bigtime) } else { 0 };
        let read = decode_time(raw, bigtime);
        let bytes = [&stored.to_be_bytes()[..], &read.secs.to_be_bytes(), &read.nsecs.to_be_bytes()].concat();
        let kind = if bigtime { "bigtime" } else { "32 bits" };
        let told = if fits { Told::asked(kind, 0) } else { Told::apart(kind, BAD_TIME) };
        out.write_all(&numbered(told.number, &bytes))?;
        Ok(told)
    }

    /// What `encode_time` is asked; it leaves what is stored in eight bytes.
    fn asked(&self, case: &[u8]) -> Option<Asked> {
        let asked = split(encoder::TIME, case, 1 + 12)?;
        Some(Asked { body: vec![0; 8], ..asked })
    }

    fn ours(&self, case: &[u8]) -> Option<Vec<u8>> {
        let stored = self.asked(case)?.reply()?;
        let read = decoding(case)?.reply()?;
        let mut f = Fields(&read.bytes);
        let secs = f.u64() as i64 - LEAST;
        let bytes = [&stored.bytes[..], &secs.to_be_bytes(), f.rest()].concat();
        Some(numbered(stored.number, &bytes))
    }

    /// What `encode_time` answers.
    fn replayed_answer(&self, _case: &[u8], answer: &[u8]) -> Vec<u8> {
        let mut f = Fields(answer);
        let number = f.u32();
        port::line(number, 0, f.bytes(8))
    }
}

/// The parent's inode number (8 bytes).
pub struct SfDir;

impl Mode for SfDir {
    fn case(&self, r: &mut Random) -> Vec<u8> {
        let parent = if r.one_in(2) { r.near(1 << 32, 1) } else { r.wide() };
        parent.to_be_bytes().to_vec()
    }

    fn answer(&self, case: &[u8], out: Out) -> io::Result<Told> {
        out.write_all(&numbered(0, &inode::empty_sf_dir(Fields(case).u64())))?;
        Ok(Told::asked("", 0))
    }

    /// Ten bytes are lent, and the value says how many the directory has.
    fn asked(&self, case: &[u8]) -> Option<Asked> {
        let asked = split(encoder::SF_DIR, case, 8)?;
        Some(Asked { body: vec![0; 10], ..asked })
    }

    fn replied(&self, _case: &[u8], reply: Reply) -> Vec<u8> {
        numbered(reply.number, reply.bytes.get(..reply.value as usize).unwrap_or_default())
    }

    fn replayed_answer(&self, _case: &[u8], answer: &[u8]) -> Vec<u8> {
        let mut bytes = answer[4..].to_vec();
        let length = bytes.len() as u64;
        bytes.resize(10, 0);
        port::line(0, length, &bytes)
    }
}
