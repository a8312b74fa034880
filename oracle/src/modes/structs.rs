//! The encoders of superblock, group headers, leaf block and records. A case has the fields in the Rust's order,
//! big-endian, then the lent buffer; an answer is the number (4 bytes) and the buffer as it is left.

use std::io;

use mkfs_xfs::geometry::Geometry;
use mkfs_xfs::structs::ag::{encode_agfl, Agf, Agi};
use mkfs_xfs::structs::btree::{self, AllocRec, InobtRec, RmapRec};
use mkfs_xfs::structs::sb::{self, SbState};

use super::geometry::step;
use super::{numbered, Mode, Out, Told};
use crate::frames::Fields;
use crate::port::{self, encoder, Asked, Reply};
use crate::random::Random;
use crate::request::{Request, MALFORMED};
use crate::wishes;

const BAD_LENGTH: u32 = 27;
const TOO_MANY: u32 = 34;
/// The most records of a list.
const MOST: usize = 64;

fn is_sector(len: usize) -> bool {
    len.is_power_of_two() && (512..=32768).contains(&len)
}

fn is_block(len: usize) -> bool {
    len.is_power_of_two() && (1024..=16384).contains(&len)
}

/// Mostly one of `lengths`, sometimes one off.
pub fn length(r: &mut Random, lengths: &[usize]) -> usize {
    let n = r.pick(lengths);
    match r.below(12) {
        0 => n - 1,
        1 => n + 1,
        2 => r.below(2 * n as u64) as usize,
        _ => n,
    }
}

const SECTORS: [usize; 9] = [512, 512, 512, 1024, 2048, 4096, 8192, 16384, 32768];
const BLOCKS: [usize; 5] = [1024, 2048, 4096, 8192, 16384];

/// Answers a case: `number` refuses it, or `encode` changes the buffer.
pub fn encoded(out: Out, number: u32, buf: &[u8], encode: impl FnOnce(&mut [u8])) -> io::Result<Told> {
    let mut left = buf.to_vec();
    if number == 0 {
        encode(&mut left);
    }
    out.write_all(&numbered(number, &left))?;
    Ok(if number == 0 { Told::asked("", 0) } else { Told::apart("", number) })
}

/// A question to an encoder: the first `n` bytes of a case are its parameters, the others the lent ones.
pub fn split(function: u8, case: &[u8], n: usize) -> Option<Asked> {
    let (params, body) = case.split_at_checked(n)?;
    Some(Asked { program: port::ENCODERS, function, params: params.to_vec(), body: body.to_vec() })
}

/// The same where the last four of these bytes are the length of more parameters.
pub fn split_behind(function: u8, case: &[u8], n: usize) -> Option<Asked> {
    let more = Fields(case.get(n - 4..n)?).u32() as usize;
    let asked = split(function, case, n + more)?;
    Some(Asked { params: [&asked.params[..n - 4], &asked.params[n..]].concat(), ..asked })
}

fn agf(f: &mut Fields) -> Agf {
    Agf {
        seqno: f.u32(),
        length: f.u32(),
        bno_root: f.u32(),
        bno_level: f.u32(),
        cnt_root: f.u32(),
        cnt_level: f.u32(),
        rmap_root: f.u32(),
        rmap_level: f.u32(),
        rmap_blocks: f.u32(),
        refcount_root: f.u32(),
        refcount_level: f.u32(),
        refcount_blocks: f.u32(),
        flfirst: f.u32(),
        fllast: f.u32(),
        flcount: f.u32(),
        freeblks: f.u32(),
        longest: f.u32(),
        btreeblks: f.u32(),
    }
}

/// 18 fields of 4 bytes, UUID, sector.
pub struct AgfSector;

impl Mode for AgfSector {
    fn case(&self, r: &mut Random) -> Vec<u8> {
        let n = length(r, &SECTORS);
        r.bytes(18 * 4 + 16 + n)
    }

    fn answer(&self, case: &[u8], out: Out) -> io::Result<Told> {
        let mut f = Fields(case);
        let agf = agf(&mut f);
        let (uuid, buf) = (f.array(), f.rest());
        let number = if is_sector(buf.len()) { 0 } else { BAD_LENGTH };
        encoded(out, number, buf, |b| agf.encode(&uuid, b))
    }

    fn asked(&self, case: &[u8]) -> Option<Asked> {
        split(encoder::AGF, case, 18 * 4 + 16)
    }
}

fn agi(f: &mut Fields) -> Agi {
    Agi {
        seqno: f.u32(),
        length: f.u32(),
        count: f.u32(),
        root: f.u32(),
        level: f.u32(),
        freecount: f.u32(),
        newino: f.u32(),
        free_root: f.u32(),
        free_level: f.u32(),
        iblocks: f.u32(),
        fblocks: f.u32(),
    }
}

/// 11 fields of 4 bytes, UUID, sector.
pub struct AgiSector;

impl Mode for AgiSector {
    fn case(&self, r: &mut Random) -> Vec<u8> {
        let n = length(r, &SECTORS);
        r.bytes(11 * 4 + 16 + n)
    }

    fn answer(&self, case: &[u8], out: Out) -> io::Result<Told> {
        let mut f = Fields(case);
        let agi = agi(&mut f);
        let (uuid, buf) = (f.array(), f.rest());
        let number = if is_sector(buf.len()) { 0 } else { BAD_LENGTH };
        encoded(out, number, buf, |b| agi.encode(&uuid, b))
    }

    fn asked(&self, case: &[u8]) -> Option<Asked> {
        split(encoder::AGI, case, 11 * 4 + 16)
    }
}

/// seqno (4 bytes), first (4), UUID, count (8), 64 blocks of 4 bytes, sector.
pub struct AgflSector;

impl Mode for AgflSector {
    fn case(&self, r: &mut Random) -> Vec<u8> {
        let first = if r.one_in(2) { 1 } else { r.wide() as u32 };
        let count = if r.one_in(8) { r.wide() } else { r.below(MOST as u64 + 2) };
        let n = length(r, &SECTORS);
        let mut out = r.bytes(4);
        out.extend(first.to_be_bytes());
        out.extend(r.bytes(16));
        out.extend(count.to_be_bytes());
        out.extend(r.bytes(4 * MOST + n));
        out
    }

    fn answer(&self, case: &[u8], out: Out) -> io::Result<Told> {
        let mut f = Fields(case);
        let (seqno, first, uuid, count) = (f.u32(), f.u32(), f.array(), f.u64());
        let list: Vec<u32> = (0..MOST).map(|_| f.u32()).collect();
        let buf = f.rest();
        let number = match () {
            _ if !is_sector(buf.len()) => BAD_LENGTH,
            _ if count > MOST as u64 => TOO_MANY,
            _ => 0,
        };
        encoded(out, number, buf, |b| encode_agfl(seqno, &uuid, first, &list[..count as usize], b))
    }

    fn asked(&self, case: &[u8]) -> Option<Asked> {
        split(encoder::AGFL, case, 4 + 4 + 16 + 8 + 4 * MOST)
    }
}

/// magic (4 bytes), daddr (8), agno (4), UUID, numrecs (2), the records with their length (4) before them, block.
pub struct Leaf;

impl Mode for Leaf {
    fn case(&self, r: &mut Random) -> Vec<u8> {
        let block = length(r, &BLOCKS);
        let room = block.saturating_sub(56);
        let recs = match r.below(6) {
            0 => room,
            1 => room + 1,
            2 => r.below(room as u64 + 9) as usize,
            _ => r.below(13) as usize * 8,
        };
        let mut out = r.bytes(4 + 8 + 4 + 16 + 2);
        out.extend((recs as u32).to_be_bytes());
        out.extend(r.bytes(recs + block));
        out
    }

    fn answer(&self, case: &[u8], out: Out) -> io::Result<Told> {
        let mut f = Fields(case);
        let (magic, daddr, agno, uuid, numrecs) = (f.u32(), f.u64(), f.u32(), f.array(), f.u16());
        let n = f.u32() as usize;
        let (recs, buf) = (f.bytes(n), f.rest());
        let number = match () {
            _ if !is_block(buf.len()) => BAD_LENGTH,
            _ if btree::off::RECS + recs.len() > buf.len() => TOO_MANY,
            _ => 0,
        };
        encoded(out, number, buf, |b| {
            b.copy_from_slice(&btree::leaf_block(magic, daddr, agno, &uuid, recs, numrecs, b.len()))
        })
    }

    fn asked(&self, case: &[u8]) -> Option<Asked> {
        split_behind(encoder::LEAF, case, 4 + 8 + 4 + 16 + 2 + 4)
    }
}

/// The kind (1 byte: free, inode, inode with sparse, rmap), the count (8), 64 records of 16 bytes (the first 8 for
/// free records), and the lent buffer.
pub struct Recs;

const REC_KINDS: [&str; 4] = ["alloc_recs", "inobt_recs", "inobt_recs sparse", "rmap_recs"];
const REC_SIZES: [usize; 4] = [btree::ALLOC_REC, btree::INOBT_REC, btree::INOBT_REC, btree::RMAP_REC];

fn alloc(case: &[u8]) -> AllocRec {
    let mut f = Fields(case);
    AllocRec { start: f.u32(), count: f.u32() }
}

fn inobt(case: &[u8]) -> InobtRec {
    let mut f = Fields(case);
    InobtRec { startino: f.u32(), holemask: f.u16(), count: f.u8(), freecount: f.u8(), free: f.u64() }
}

fn rmap(case: &[u8]) -> RmapRec {
    let mut f = Fields(case);
    RmapRec { start: f.u32(), count: f.u32(), owner: f.u64() }
}

fn rec_bytes(kind: usize, recs: &[&[u8]]) -> Vec<u8> {
    match kind {
        0 => btree::alloc_recs(&recs.iter().map(|r| alloc(r)).collect::<Vec<_>>()),
        3 => btree::rmap_recs(&recs.iter().map(|r| rmap(r)).collect::<Vec<_>>()),
        _ => btree::inobt_recs(&recs.iter().map(|r| inobt(r)).collect::<Vec<_>>(), kind == 2),
    }
}

/// The kind, the count, the records and the lent buffer of a case.
fn recs_of(case: &[u8]) -> (usize, u64, [&[u8]; MOST], &[u8]) {
    let mut f = Fields(case);
    let (kind, count) = (usize::from(f.u8()) % 4, f.u64());
    (kind, count, std::array::from_fn(|_| f.bytes(16)), f.rest())
}

impl Mode for Recs {
    fn case(&self, r: &mut Random) -> Vec<u8> {
        let kind = r.below(4) as usize;
        let count = if r.one_in(16) { r.wide() } else { r.below(MOST as u64 + 3) };
        let fits = (count as usize).min(100) * REC_SIZES[kind];
        let len = match r.below(8) {
            0 => fits + 1,
            1 => fits.saturating_sub(1),
            _ => fits,
        };
        let mut out = vec![kind as u8];
        out.extend(count.to_be_bytes());
        out.extend(r.bytes(16 * MOST + len));
        out
    }

    fn answer(&self, case: &[u8], out: Out) -> io::Result<Told> {
        let (kind, count, recs, buf) = recs_of(case);
        let number = match () {
            _ if u128::from(count) * REC_SIZES[kind] as u128 != buf.len() as u128 => BAD_LENGTH,
            _ if count > MOST as u64 => TOO_MANY,
            _ => 0,
        };
        let told = encoded(out, number, buf, |b| b.copy_from_slice(&rec_bytes(kind, &recs[..count as usize])))?;
        Ok(Told { kind: REC_KINDS[kind], ..told })
    }

    fn asked(&self, case: &[u8]) -> Option<Asked> {
        split(encoder::RECS + case.first()? % 4, &case[1..], 8 + 16 * MOST)
    }
}

/// The kind (1 byte: 0 free, 3 rmap), the count (1, at most 65), that many records of 16 bytes (the first 8 for free
/// records), and the lent buffer: the lists as the Rust takes them, by a lent slice.
pub struct Slices;

/// The kind, the records and the lent buffer of a case.
fn slice_of(case: &[u8]) -> (usize, Vec<&[u8]>, &[u8]) {
    let mut f = Fields(case);
    let (kind, count) = (if f.u8() == 3 { 3 } else { 0 }, usize::from(f.u8()).min(MOST + 1));
    (kind, (0..count).map(|_| f.bytes(16)).collect(), f.rest())
}

impl Mode for Slices {
    fn case(&self, r: &mut Random) -> Vec<u8> {
        let kind = r.pick(&[0, 3]);
        let count = if r.one_in(8) { MOST + r.below(2) as usize } else { r.below(MOST as u64 + 2) as usize };
        let fits = count * REC_SIZES[kind];
        let len = match r.below(8) {
            0 => fits + 1,
            1 => fits.saturating_sub(1),
            _ => fits,
        };
        let mut out = vec![kind as u8, count as u8];
        out.extend(r.bytes(16 * count + len));
        out
    }

    fn answer(&self, case: &[u8], out: Out) -> io::Result<Told> {
        let (kind, recs, buf) = slice_of(case);
        let number = match () {
            _ if recs.len() * REC_SIZES[kind] != buf.len() => BAD_LENGTH,
            _ if recs.len() > MOST => TOO_MANY,
            _ => 0,
        };
        let told = encoded(out, number, buf, |b| b.copy_from_slice(&rec_bytes(kind, &recs)))?;
        Ok(Told { kind: REC_KINDS[kind], ..told })
    }

    fn asked(&self, case: &[u8]) -> Option<Asked> {
        let (kind, recs, _) = slice_of(case);
        let function = if kind == 3 { encoder::RMAP_SLICE } else { encoder::ALLOC_SLICE };
        split(function, case.get(2..)?, 16 * recs.len())
    }
}

fn state(f: &mut Fields) -> SbState {
    SbState {
        uuid: f.array(),
        rootino: f.u64(),
        rbmino: f.u64(),
        rsumino: f.u64(),
        icount: f.u64(),
        ifree: f.u64(),
        fdblocks: f.u64(),
        inprogress: f.u8() != 0,
    }
}

fn feature_words(g: &Geometry) -> [u32; 4] {
    [u32::from(sb::versionnum(g)), sb::features2(g), sb::ro_compat(g), sb::incompat(g)]
}

/// The state (UUID, six numbers of 8 bytes, inprogress in 1), the input records with their length (4 bytes) before
/// them, and the sector. Before the sector, an answer has versionnum, features2, ro_compat and incompat, 4 bytes each.
pub struct Sb;

impl Mode for Sb {
    fn case(&self, r: &mut Random) -> Vec<u8> {
        let (q, sector) = loop {
            let changes = r.below(3);
            let mut q = wishes::request(r, changes);
            q.label = q.label.or_else(|| Some(r.bytes(12)));
            if let Some(g) = step(&q).1 {
                break (q, g.sectsize as usize);
            }
        };
        let records = q.encode();
        let mut out = r.bytes(16 + 6 * 8);
        out.push(r.below(2) as u8);
        out.extend((records.len() as u32).to_be_bytes());
        out.extend(records);
        let n = length(r, &[sector]);
        out.extend(r.bytes(n));
        out
    }

    fn answer(&self, case: &[u8], out: Out) -> io::Result<Told> {
        let mut f = Fields(case);
        let s = state(&mut f);
        let n = f.u32() as usize;
        let (records, buf) = (f.bytes(n), f.rest());
        let Some(q) = Request::parse(records) else {
            return encoded(out, MALFORMED, buf, |_| {});
        };
        let (told, answer) = step(&q);
        let Some(g) = answer else {
            encoded(out, told.number, buf, |_| {})?;
            return Ok(told);
        };
        for v in feature_words(&g) {
            out.write_all(&v.to_be_bytes())?;
        }
        let number = if buf.len() == g.sectsize as usize { 0 } else { BAD_LENGTH };
        encoded(out, number, buf, |b| sb::encode(&g, &s, b))
    }

    fn asked(&self, case: &[u8]) -> Option<Asked> {
        let mut f = Fields(case);
        let state = f.bytes(16 + 6 * 8 + 1);
        let n = f.u32() as usize;
        let g = step(&Request::parse(f.bytes(n))?).1?;
        let params = [&port::geometry(&g)[..], state].concat();
        Some(Asked { program: port::ENCODERS, function: encoder::SB, params, body: f.rest().to_vec() })
    }

    /// The four numbers before the sector are the Rust's: the sector holds the port's.
    fn replied(&self, case: &[u8], reply: Reply) -> Vec<u8> {
        let mut f = Fields(case);
        f.bytes(16 + 6 * 8 + 1);
        let n = f.u32() as usize;
        let named =
            Request::parse(f.bytes(n)).and_then(|q| step(&q).1).map_or(Vec::new(), |g| feature_words(&g).to_vec());
        let named = named.iter().flat_map(|v| v.to_be_bytes());
        named.chain(numbered(reply.number, &reply.bytes)).collect()
    }

    fn replayed_answer(&self, _case: &[u8], answer: &[u8]) -> Vec<u8> {
        let mut f = Fields(answer.get(16..).unwrap_or_default());
        let number = f.u32();
        port::line(number, 0, f.rest())
    }
}
