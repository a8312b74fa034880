//! A plain model of runs in either sizing of the log, from the scope, for what the Rust doesn't know: roomy sizing.
//!
//! The model's own: the geometry step with its numbers 1 to 24, the log's blocks in both sizings, which runs are accepted, the
//! order of the written records, the superblocks' counts and root inodes, and the reader's answers.
//! The Rust's, asked with the model's geometry: the default size of groups and the largest, `plan_ag`, and the bytes of heads,
//! root chunk and log record, none of which looks at the sizing but through the log's blocks.
//! In plain sizing the model is held to the Rust by the modes `model` and `model_list`.

use std::io;

use mkfs_xfs::format::{ag_head, root_chunk, Gen, WHACK_SIZE};
use mkfs_xfs::geometry::{ag_max_blocks, default_ag_geometry, Features, Geometry};
use mkfs_xfs::structs::sb::SbState;
use mkfs_xfs::structs::{log, NULL64};

use crate::disk::{head_bytes, name};
use crate::modes::plans::{plan, time_fits, BAD_TIME};
use crate::profile::{profile, OUTSIDE};
use crate::recorded::Sink;
use crate::request::{op, Request};

const MIB: u64 = 1 << 20;
const TIB: u64 = 1 << 40;

/// How the log's upper limit is found: plain, or roomy by option code 12.
#[derive(Clone, Copy, Debug, PartialEq, Eq)]
pub enum Sizing {
    Plain,
    Roomy,
}

/// A number of the scope's table, where its condition holds.
fn refuse(number: u32, condition: bool) -> Result<(), u32> {
    if condition {
        Err(number)
    } else {
        Ok(())
    }
}

fn power_within(n: u64, least: u64, most: u64) -> bool {
    n.is_power_of_two() && (least..=most).contains(&n)
}

struct Sizes {
    block: u64,
    sector: u64,
    inode: u64,
}

/// The sector where none is asked for: the device's physical one, or its logical one where that is larger than a block or a sector can be.
fn default_sector(block: u64, logical: u64, physical: u64) -> u64 {
    let physical = if physical.max(logical) > 32768 { logical } else { physical.max(logical) };
    if physical > block && logical <= block {
        logical
    } else {
        physical
    }
}

/// 1 to 8.
fn sizes(q: &Request) -> Result<Sizes, u32> {
    let f = q.features();
    refuse(1, f.inobtcount && !f.finobt)?;
    let block = q.options[op::BLOCK].unwrap_or(4096);
    refuse(2, !power_within(block, 512, 65536))?;
    refuse(3, block == 512)?;
    refuse(4, block > 16384)?;
    let logical = u64::from(q.logical).max(512);
    let sector = q.options[op::SECTOR].unwrap_or(default_sector(block, logical, q.physical.into()));
    refuse(5, !power_within(sector, 512, 32768))?;
    refuse(6, block < sector)?;
    refuse(7, sector < logical)?;
    let inode = q.options[op::INODE].unwrap_or(512);
    refuse(8, !power_within(inode, 512, 2048.min(block / 2)))?;
    Ok(Sizes { block, sector, inode })
}

/// The block size, where none of 1 to 8 refuses the request; they don't look at the device's size.
pub fn block_size(q: &Request) -> Result<u64, u32> {
    Ok(sizes(q)?.block)
}

/// Blocks of the file system, and of a group, and how many groups.
struct Groups {
    blocks: u64,
    size: u64,
    count: u64,
}

impl Groups {
    /// The length of a group.
    fn length(&self, k: u64) -> u64 {
        self.blocks.saturating_sub(k * self.size).min(self.size)
    }
}

/// 9 to 13.
fn wanted_groups(q: &Request, block: u64) -> Result<Groups, u32> {
    let device = q.device / block;
    let blocks = q.options[op::SIZE].map_or(device, |bytes| bytes / block);
    refuse(9, blocks > device)?;
    refuse(10, blocks < 16 * MIB / block)?;
    let (size, count) = match (q.options[op::AGSIZE], q.options[op::AGCOUNT]) {
        (Some(bytes), _) => {
            refuse(11, bytes % block != 0)?;
            refuse(12, bytes == 0)?;
            (bytes / block, blocks.div_ceil(bytes / block))
        }
        (None, Some(count)) => {
            refuse(13, count == 0)?;
            (blocks.div_ceil(count), count)
        }
        (None, None) => default_ag_geometry(block.trailing_zeros() as u8, blocks, false),
    };
    Ok(Groups { blocks, size, count })
}

/// 9 to 18.
fn groups(q: &Request, block: u64) -> Result<Groups, u32> {
    let mut g = wanted_groups(q, block)?;
    let (last, least) = (g.blocks % g.size, 16 * MIB / block);
    if last != 0 && last < least {
        refuse(14, q.options[op::AGCOUNT].is_some())?;
        g.count -= 1;
        g.blocks = g.count * g.size;
    }
    refuse(15, g.size < least)?;
    refuse(16, g.size > ag_max_blocks(block.trailing_zeros() as u8))?;
    refuse(17, g.size > g.blocks)?;
    refuse(18, g.count > 4_294_967_294)?;
    Ok(g)
}

/// Blocks of a head.
fn head_blocks(s: &Sizes, f: &Features) -> u64 {
    (4 * s.sector).div_ceil(s.block) + 3 + u64::from(f.finobt) + u64::from(f.rmapbt) + u64::from(f.reflink)
}

fn free_list(f: &Features) -> u64 {
    if f.rmapbt {
        6
    } else {
        4
    }
}

/// The log in plain sizing, and in roomy sizing, where its group's own length is the measure.
fn log_blocks(sizing: Sizing, s: &Sizes, g: &Groups, f: &Features) -> u64 {
    let limit = match sizing {
        Sizing::Plain => g.size - head_blocks(s, f) - 5,
        Sizing::Roomy => g.length(g.count / 2).saturating_sub(head_blocks(s, f) + free_list(f).max(5)),
    };
    let wanted = (g.blocks / 2048).max(64 * MIB / s.block);
    wanted.min(limit).min(1_048_576).min(2_136_997_888 / s.block)
}

/// The geometry step in a sizing.
pub fn step(q: &Request, sizing: Sizing) -> Result<Geometry, u32> {
    let s = sizes(q)?;
    let g = groups(q, s.block)?;
    let f = q.features();
    let by_size = match g.blocks.saturating_mul(s.block) {
        bytes if bytes < TIB => 25,
        bytes if bytes < 50 * TIB => 5,
        _ => 1,
    };
    let imaxpct = q.options[op::IMAXPCT].unwrap_or(by_size);
    refuse(19, imaxpct > 100)?;
    let text = q.label.as_deref().unwrap_or_default();
    refuse(20, text.len() > 12)?;
    refuse(21, g.blocks < 300 * MIB / s.block)?;
    let logblocks = log_blocks(sizing, &s, &g, &f);
    refuse(22, logblocks < 64 * MIB / s.block)?;
    refuse(23, g.count < 2)?;
    refuse(24, g.count != g.blocks.div_ceil(g.size))?;
    Ok(geometry(&s, &g, f, imaxpct, text, logblocks))
}

/// The Rust's record of it.
fn geometry(s: &Sizes, g: &Groups, f: Features, imaxpct: u64, text: &[u8], logblocks: u64) -> Geometry {
    let log2 = |n: u64| n.trailing_zeros() as u8;
    let mut label = [0; 12];
    label[..text.len()].copy_from_slice(text);
    Geometry {
        blocksize: s.block as u32,
        blocklog: log2(s.block),
        sectsize: s.sector as u32,
        sectlog: log2(s.sector),
        lsectsize: s.sector as u32,
        lsectlog: log2(s.sector),
        inodesize: s.inode as u32,
        inodelog: log2(s.inode),
        inopblock: (s.block / s.inode) as u32,
        inopblog: log2(s.block / s.inode),
        dirblocklog: log2(s.block.max(4096)),
        dblocks: g.blocks,
        agsize: g.size,
        agcount: g.count,
        agblklog: log2(g.size.next_power_of_two()),
        imaxpct: imaxpct as u8,
        logblocks,
        logagno: g.count / 2,
        log_agbno: head_blocks(s, &f),
        features: f,
        label,
    }
}

/// The geometry of a run whose geometry and plans are accepted. Only the log group's plan can be refused, by 25.
pub fn planned(q: &Request, sizing: Sizing) -> Result<Geometry, u32> {
    let g = step(q, sizing)?;
    plan(&g, g.logagno)?;
    Ok(g)
}

/// The geometry of an accepted run.
pub fn run(q: &Request, sizing: Sizing) -> Result<Geometry, u32> {
    let g = planned(q, sizing)?;
    refuse(BAD_TIME, !time_fits(q.time(), g.features.bigtime))?;
    refuse(OUTSIDE, !profile(q, &g))?;
    Ok(g)
}

/// The sizing that the reader reports of an accepted run: plain where that leaves the same log.
pub fn reported(q: &Request, g: &Geometry) -> Sizing {
    match planned(q, Sizing::Plain) {
        Ok(plain) if plain.logblocks == g.logblocks => Sizing::Plain,
        _ => Sizing::Roomy,
    }
}

/// The superblock of a group while the run isn't finished. Those of the groups after 0 count the chunk as free and don't name the root
/// inode, but for the last one and, above 2 groups, group (agcount - 1) / 2.
fn superblock(g: &Geometry, uuid: [u8; 16], k: u64) -> SbState {
    let (first, root) = (k == 0, g.rootino());
    let named = first || k == g.agcount - 1 || g.agcount > 2 && k == (g.agcount - 1) / 2;
    let free = g.dblocks - g.agcount * g.prealloc_blocks() - g.logblocks;
    SbState {
        uuid,
        rootino: if named { root } else { NULL64 },
        rbmino: if first { root + 1 } else { NULL64 },
        rsumino: if first { root + 2 } else { NULL64 },
        icount: if first { 64 } else { 0 },
        ifree: if first { 61 } else { 0 },
        fdblocks: if first { free - g.chunk_blocks() } else { free },
        inprogress: true,
    }
}

/// The free count in the finished superblock.
pub fn free_count(g: &Geometry) -> u64 {
    superblock(g, [0; 16], 0).fdblocks
}

fn head_with(g: &Geometry, uuid: [u8; 16], k: u64, inprogress: bool) -> io::Result<Vec<u8>> {
    let p = plan(g, k).map_err(|n| io::Error::other(format!("group {k} is refused by {n}")))?;
    Ok(ag_head(g, &p, &uuid, &SbState { inprogress, ..superblock(g, uuid, k) }))
}

/// A group's head at the run's end.
fn head(g: &Geometry, uuid: [u8; 16], k: u64) -> io::Result<Vec<u8>> {
    head_with(g, uuid, k, k != 0)
}

/// The log's first block.
fn log_block(g: &Geometry, uuid: [u8; 16]) -> Vec<u8> {
    let sector = if g.sectsize > 512 { g.lsectsize } else { 0 };
    let mut block = log::first_record(&uuid, log::clear_sunit(g.logsunit(), sector));
    block.resize(g.blocksize as usize, 0);
    block
}

/// Hands the written records of an accepted run on, in the scope's order.
pub fn written<S: Sink>(q: &Request, g: &Geometry, mut sink: S) -> io::Result<S> {
    let (bs, uuid) = (g.bs(), q.id.unwrap_or_default());
    let blocks = |sink: &mut S, at: u64, bytes: &[u8]| {
        let starts = (at..).step_by(bs as usize);
        starts.zip(bytes.chunks(bs as usize)).try_for_each(|(at, block)| sink.block(at, block))
    };
    let end = q.device / bs * bs;
    let most = WHACK_SIZE.min(end);
    sink.zeros(0, most)?;
    sink.zeros(end - most, most)?;
    let log_at = g.agb_to_byte(g.logagno, g.log_agbno);
    sink.zeros(log_at, g.logblocks * bs)?;
    blocks(&mut sink, log_at, &log_block(g, uuid))?;
    for k in 0..g.agcount {
        blocks(&mut sink, g.agb_to_byte(k, 0), &head_with(g, uuid, k, true)?)?;
    }
    let chunk = g.root_chunk_agbno();
    let mut state = Gen(q.options[op::SEED].unwrap_or(0));
    blocks(&mut sink, g.agb_to_byte(0, chunk), &root_chunk(g, chunk, &uuid, q.time(), &mut state))?;
    sink.flush()?;
    let headers = (g.header_blocks() * bs) as usize;
    blocks(&mut sink, 0, &head(g, uuid, 0)?[..headers])?;
    sink.flush()?;
    Ok(sink)
}

/// What group 0's head gives.
pub struct Found {
    pub geometry: Geometry,
    pub uuid: [u8; 16],
}

/// Group 0's head: plain sizing first, which is the one reported where both leave these bytes.
pub fn read_group0(bytes: &[u8]) -> Result<Found, u32> {
    refuse(27, bytes.len() < 512)?;
    let q = name(bytes).ok_or(30u32)?;
    let uuid = q.id.unwrap_or_default();
    let both = [Sizing::Plain, Sizing::Roomy];
    let accepted = both.map(|sizing| step(&q, sizing).ok());
    let length = accepted.iter().flatten().map(head_bytes).next().ok_or(30u32)?;
    refuse(27, bytes.len() != length)?;
    for (sizing, g) in both.into_iter().zip(accepted) {
        let Some(geometry) = g else { continue };
        if planned(&q, sizing).is_ok() && head(&geometry, uuid, 0).is_ok_and(|own| own == bytes) {
            return Ok(Found { geometry, uuid });
        }
    }
    Err(30)
}

/// The number of a group's head, read with what group 0 gave.
pub fn read_group(first: &Found, k: u64, bytes: &[u8]) -> u32 {
    let g = &first.geometry;
    match () {
        () if k >= g.agcount => 29,
        () if bytes.len() != head_bytes(g) => 27,
        () if head(g, first.uuid, k).is_ok_and(|own| own == bytes) => 0,
        () => 30,
    }
}

/// The number of the log's first block.
pub fn read_log(first: &Found, bytes: &[u8]) -> u32 {
    match () {
        () if bytes.len() != first.geometry.blocksize as usize => 27,
        () if log_block(&first.geometry, first.uuid) == bytes => 0,
        () => 30,
    }
}
