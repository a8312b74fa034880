//! The port's functions that bench/ measures, from its static library (crate `bench_ffi`, see `../build.rs`). A slice goes as pointer, then length.
//! Every function that is lent a buffer gives the number.

use crate::geometry::Geometry;
use crate::structs::ag::{Agf, Agi};
use crate::structs::sb::SbState;

type Uuid = [u8; 16];

extern "C" {
    fn zq_crc32c(data: *const u8, len: usize) -> u32;
    fn zq_stamp(buf: *mut u8, len: usize, off: usize) -> u32;
    fn zq_sb(
        fields: *const [u64; 26],
        label: *const [u8; 12],
        numbers: *const [u64; 7],
        uuid: *const Uuid,
        sector: *mut u8,
        len: usize,
    ) -> u32;
    fn zq_agf(
        seqno: u32,
        length: u32,
        bno_root: u32,
        bno_level: u32,
        cnt_root: u32,
        cnt_level: u32,
        rmap_root: u32,
        rmap_level: u32,
        rmap_blocks: u32,
        refcount_root: u32,
        refcount_level: u32,
        refcount_blocks: u32,
        flfirst: u32,
        fllast: u32,
        flcount: u32,
        freeblks: u32,
        longest: u32,
        btreeblks: u32,
        uuid: *const Uuid,
        sector: *mut u8,
        len: usize,
    ) -> u32;
    fn zq_agi(
        seqno: u32,
        length: u32,
        count: u32,
        root: u32,
        level: u32,
        freecount: u32,
        newino: u32,
        free_root: u32,
        free_level: u32,
        iblocks: u32,
        fblocks: u32,
        uuid: *const Uuid,
        sector: *mut u8,
        len: usize,
    ) -> u32;
    fn zq_agfl(
        seqno: u32,
        uuid: *const Uuid,
        first: u32,
        list: *const [u32; 64],
        count: usize,
        sector: *mut u8,
        len: usize,
    ) -> u32;
    fn zq_leaf_block(
        magic: u32,
        daddr: u64,
        agno: u32,
        uuid: *const Uuid,
        recs: *const u8,
        used: usize,
        numrecs: u16,
        block: *mut u8,
        len: usize,
    ) -> u32;
}

pub fn crc32c(data: &[u8]) -> u32 {
    unsafe { zq_crc32c(data.as_ptr(), data.len()) }
}

pub fn stamp(buf: &mut [u8], off: usize) -> u32 {
    unsafe { zq_stamp(buf.as_mut_ptr(), buf.len(), off) }
}

/// A geometry as the port's array of its fields.
pub fn fields(g: &Geometry) -> [u64; 26] {
    let f = &g.features;
    [
        g.blocksize.into(),
        g.blocklog.into(),
        g.sectsize.into(),
        g.sectlog.into(),
        g.lsectsize.into(),
        g.lsectlog.into(),
        g.inodesize.into(),
        g.inodelog.into(),
        g.inopblock.into(),
        g.inopblog.into(),
        g.dirblocklog.into(),
        g.dblocks,
        g.agsize,
        g.agcount,
        g.agblklog.into(),
        g.imaxpct.into(),
        g.logblocks,
        g.logagno,
        g.log_agbno,
        f.finobt.into(),
        f.rmapbt.into(),
        f.reflink.into(),
        f.inobtcount.into(),
        f.bigtime.into(),
        f.nrext64.into(),
        f.sparse.into(),
    ]
}

/// The numbers of a superblock's state.
pub fn numbers(s: &SbState) -> [u64; 7] {
    [s.rootino, s.rbmino, s.rsumino, s.icount, s.ifree, s.fdblocks, s.inprogress.into()]
}

pub fn sb(fields: &[u64; 26], label: &[u8; 12], numbers: &[u64; 7], uuid: &Uuid, sector: &mut [u8]) -> u32 {
    unsafe { zq_sb(fields, label, numbers, uuid, sector.as_mut_ptr(), sector.len()) }
}

pub fn agf(a: &Agf, uuid: &Uuid, sector: &mut [u8]) -> u32 {
    unsafe {
        zq_agf(
            a.seqno,
            a.length,
            a.bno_root,
            a.bno_level,
            a.cnt_root,
            a.cnt_level,
            a.rmap_root,
            a.rmap_level,
            a.rmap_blocks,
            a.refcount_root,
            a.refcount_level,
            a.refcount_blocks,
            a.flfirst,
            a.fllast,
            a.flcount,
            a.freeblks,
            a.longest,
            a.btreeblks,
            uuid,
            sector.as_mut_ptr(),
            sector.len(),
        )
    }
}

pub fn agi(a: &Agi, uuid: &Uuid, sector: &mut [u8]) -> u32 {
    unsafe {
        zq_agi(
            a.seqno,
            a.length,
            a.count,
            a.root,
            a.level,
            a.freecount,
            a.newino,
            a.free_root,
            a.free_level,
            a.iblocks,
            a.fblocks,
            uuid,
            sector.as_mut_ptr(),
            sector.len(),
        )
    }
}

pub fn agfl(seqno: u32, uuid: &Uuid, first: u32, list: &[u32; 64], count: usize, sector: &mut [u8]) -> u32 {
    unsafe { zq_agfl(seqno, uuid, first, list, count, sector.as_mut_ptr(), sector.len()) }
}

pub fn leaf_block(magic: u32, daddr: u64, agno: u32, uuid: &Uuid, recs: &[u8], numrecs: u16, block: &mut [u8]) -> u32 {
    let (records, used) = (recs.as_ptr(), recs.len());
    unsafe { zq_leaf_block(magic, daddr, agno, uuid, records, used, numrecs, block.as_mut_ptr(), block.len()) }
}
