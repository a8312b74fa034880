//! A disk as the Rust's `format` leaves it, in memory: its heads and the log's first block; and what a head names.

use std::collections::BTreeMap;
use std::io;
use std::ops::Range;

use mkfs_xfs::geometry::Geometry;

use crate::frames::Fields;
use crate::model::{self, Sizing};
use crate::modes::geometry::step;
use crate::recorded::{formatted, Sink};
use crate::request::{op, Request};

/// What stands where nothing was written.
const OLD: u8 = 0xa5;

/// A device of blocks. Only whole blocks are written.
#[derive(Default)]
struct Contents {
    blocks: BTreeMap<u64, Vec<u8>>,
    zeros: Vec<Range<u64>>,
    /// The blocks at the first flush.
    unfinished: BTreeMap<u64, Vec<u8>>,
}

impl Sink for Contents {
    fn block(&mut self, at: u64, bytes: &[u8]) -> io::Result<()> {
        self.blocks.insert(at, bytes.to_vec());
        Ok(())
    }

    fn zeros(&mut self, at: u64, len: u64) -> io::Result<()> {
        self.blocks.retain(|block, _| !(at..at + len).contains(block));
        self.zeros.push(at..at + len);
        Ok(())
    }

    fn flush(&mut self) -> io::Result<()> {
        if self.unfinished.is_empty() {
            self.unfinished = self.blocks.clone();
        }
        Ok(())
    }
}

/// What a disk holds in a range.
fn read(blocks: &BTreeMap<u64, Vec<u8>>, zeros: &[Range<u64>], block: usize, at: u64, n: usize) -> Vec<u8> {
    let starts = (0..n / block).map(|i| at + (i * block) as u64);
    let one = |start| match blocks.get(&start) {
        Some(bytes) => bytes.clone(),
        None => vec![if zeros.iter().any(|z| z.contains(&start)) { 0 } else { OLD }; block],
    };
    starts.flat_map(one).collect()
}

/// Bytes of a head.
pub fn head_bytes(g: &Geometry) -> usize {
    (g.prealloc_blocks() * g.bs()) as usize
}

/// What a run leaves in the places that the reader reads.
pub struct Disk {
    pub request: Request,
    pub geometry: Geometry,
    pub heads: Vec<Vec<u8>>,
    pub log: Vec<u8>,
    /// Group 0's head before its superblock is finished.
    pub unfinished: Vec<u8>,
}

impl Disk {
    /// The disk of a run that is accepted.
    pub fn of(request: Request, geometry: Geometry) -> io::Result<Disk> {
        let (q, g) = (request, geometry);
        let block = g.blocksize as usize;
        let c = formatted(&q, &g, Contents::default())?;
        let n = head_bytes(&g);
        let on = |at, n| read(&c.blocks, &c.zeros, block, at, n);
        let heads = (0..g.agcount).map(|k| on(g.agb_to_byte(k, 0), n)).collect();
        let log = on(g.agb_to_byte(g.logagno, g.log_agbno), block);
        let unfinished = read(&c.unfinished, &c.zeros, block, 0, n);
        Ok(Disk { heads, log, unfinished, request: q, geometry: g })
    }

    /// The part of a head that a block of it is, by its first byte.
    pub fn parts(&self) -> Vec<(&'static str, Range<usize>)> {
        let (g, f) = (&self.geometry, self.geometry.features);
        let (sector, block) = (g.sectsize as usize, g.blocksize as usize);
        let mut out: Vec<(&'static str, Range<usize>)> = Vec::new();
        for (i, name) in ["superblock", "AGF", "AGI", "AGFL"].into_iter().enumerate() {
            out.push((name, i * sector..(i + 1) * sector));
        }
        let headers = (g.header_blocks() * g.bs()) as usize;
        if 4 * sector < headers {
            out.push(("padding", 4 * sector..headers));
        }
        let mut root = |name, on: bool, at: u64| {
            if on {
                out.push((name, at as usize * block..(at as usize + 1) * block));
            }
        };
        root("root by block", true, g.bno_block());
        root("root by size", true, g.cnt_block());
        root("inode root", true, g.ibt_block());
        root("free inode root", f.finobt, g.fibt_block());
        root("rmap root", f.rmapbt, g.rmap_block());
        root("refcount root", f.reflink, g.refc_block());
        out
    }
}

/// What group 0's head names, by the scope's places: the request that asks for it; none where its bytes pass 2^64 - 1.
pub fn name(head: &[u8]) -> Option<Request> {
    let at = |from: usize| Fields(&head[from..]);
    let block = u64::from(at(4).u32());
    let mut q = Request { logical: 512, physical: 512, ..Request::default() };
    q.device = at(8).u64().checked_mul(block)?;
    let (ro, incompat) = (at(212).u32(), at(216).u32());
    let bits = [ro & 1, ro >> 1 & 1, ro >> 2 & 1, ro >> 3 & 1, incompat >> 3 & 1, incompat >> 5 & 1, incompat >> 1 & 1];
    q.options[op::BLOCK] = Some(block);
    q.options[op::SECTOR] = Some(at(102).u16().into());
    q.options[op::INODE] = Some(at(104).u16().into());
    q.options[op::AGSIZE] = Some(u64::from(at(84).u32()) * block);
    q.options[op::IMAXPCT] = Some(at(127).u8().into());
    q.options[op::FEATURES] = Some(bits.iter().enumerate().map(|(i, &b)| u64::from(b) << i).sum());
    q.label = Some(head[108..120].to_vec());
    q.id = Some(at(32).array());
    Some(q)
}

/// What group 0's head names, and its geometry, if either sizing accepts it.
pub fn named(head: &[u8]) -> Option<(Request, Geometry)> {
    let q = name(head)?;
    let geometry = step(&q).1.or_else(|| model::step(&q, Sizing::Roomy).ok())?;
    Some((q, geometry))
}
