//! The reader on disks of one request in both sizings. A case is the input records of two requests without a sizing, the first one's length
//! (2 bytes) before them. An answer has a line for each thing read, with the model's numbers (`../model.rs`): for each sizing that accepts the
//! first request what group 0's head gives (replay_disks has the row), every head and the log's first block read with it, the same read
//! with the other sizing's group 0; then group 0's head with the second request's name, and with other counts under a right checksum.

use std::io;

use mkfs_xfs::crc::stamp;
use mkfs_xfs::structs::sb::off;

use super::corners;
use super::plans::plan;
use super::roomy::beside;
use super::{Mode, Out, Told};
use crate::crowded;
use crate::disk::Disk;
use crate::frames::Fields;
use crate::model::{planned, read_group, read_group0, read_log, Found, Sizing};
use crate::port::reader;
use crate::random::Random;
use crate::request::{op, Request};
use crate::wishes;

pub struct Sizings;

const GROUPS: u64 = 24;

/// A crowded disk of few groups that some sizing accepts, or a corner.
fn request(r: &mut Random) -> Request {
    loop {
        let corner = r.one_in(32);
        let mut q = if corner { corners::pick(r) } else { crowded::request(r, GROUPS) };
        q.id = Some(r.bytes(16).try_into().unwrap());
        let most = if corner { 3000 } else { GROUPS };
        let (plain, roomy) = (planned(&q, Sizing::Plain), planned(&q, Sizing::Roomy));
        if plain.or(roomy).is_ok_and(|g| g.agcount <= most) {
            return q;
        }
    }
}

/// The two requests of a case.
fn requests(case: &[u8]) -> Option<(Request, Request)> {
    let mut f = Fields(case);
    let n = usize::from(f.u16());
    Some((Request::parse(f.bytes(n))?, Request::parse(f.rest())?))
}

/// The disks of a request, in plain sizing by the Rust, in roomy by the model; none where it is refused.
fn disks(q: &Request) -> io::Result<[Option<Disk>; 2]> {
    let of = |sizing, value| {
        let mut q = q.clone();
        q.options[op::SIZING] = value;
        planned(&q, sizing).ok().map(|g| Disk::of(q, g)).transpose()
    };
    Ok([of(Sizing::Plain, None)?, of(Sizing::Roomy, Some(1))?])
}

/// The head with the fields of another request's name.
fn renamed(head: &[u8], q: &Request) -> Vec<u8> {
    let mut bytes = head.to_vec();
    let mut put = |at: usize, n: usize, v: u64| bytes[at..at + n].copy_from_slice(&v.to_be_bytes()[8 - n..]);
    let f = q.features();
    let block = wishes::block(q);
    let bits = |on: &[(bool, u32)]| on.iter().map(|&(on, bit)| u64::from(on) << bit).sum();
    put(off::BLOCKSIZE, 4, block);
    put(off::DBLOCKS, 8, q.device / block);
    put(off::AGBLOCKS, 4, q.options[op::AGSIZE].unwrap_or(0) / block);
    put(off::SECTSIZE, 2, q.options[op::SECTOR].unwrap_or(512));
    put(off::INODESIZE, 2, q.options[op::INODE].unwrap_or(512));
    put(off::FEATURES_RO_COMPAT, 4, bits(&[(f.finobt, 0), (f.rmapbt, 1), (f.reflink, 2), (f.inobtcount, 3)]));
    put(off::FEATURES_INCOMPAT, 4, bits(&[(true, 0), (f.sparse, 1), (true, 2), (f.bigtime, 3), (f.nrext64, 5)]));
    bytes
}

/// The head with another log length and free count, and the superblock's checksum of them.
fn recounted(d: &Disk, log: i64, free: i64) -> Vec<u8> {
    let mut bytes = d.heads[0].clone();
    let count = |at| Fields(&d.heads[0][at..]).u64().wrapping_add_signed(free);
    let blocks = (d.geometry.logblocks as u32).wrapping_add(log as u32);
    bytes[off::LOGBLOCKS..off::LOGBLOCKS + 4].copy_from_slice(&blocks.to_be_bytes());
    bytes[off::FDBLOCKS..off::FDBLOCKS + 8].copy_from_slice(&count(off::FDBLOCKS).to_be_bytes());
    stamp(&mut bytes[..d.geometry.sectsize as usize], off::CRC);
    bytes
}

/// The changes of log and free count that are tried: the second leaves the other sizing's head where the logs differ by one.
const RECOUNTS: [(i64, i64); 4] = [(-1, 0), (-1, 1), (1, -1), (0, 1)];

/// A reader: what group 0's head gives, and the numbers of heads and of the log's first block read with it.
trait Reading {
    fn row(&self, head: &[u8]) -> Vec<u64>;
    fn numbers(&self, first: &[u8], d: &Disk) -> Vec<u32>;
}

struct Model;

impl Reading for Model {
    fn row(&self, head: &[u8]) -> Vec<u64> {
        let g = match read_group0(head) {
            Err(number) => return vec![number.into()],
            Ok(Found { geometry, .. }) => geometry,
        };
        let Ok(p) = plan(&g, 0) else { return Vec::new() };
        let sizes = [0, g.blocksize.into(), g.sectsize.into(), g.inodesize.into(), g.dblocks, g.agsize, g.agcount];
        let lists = [p.free.len(), p.agfl.len(), p.rmap.len()].map(|n| n as u64);
        [&sizes[..], &[g.logblocks, g.logagno, p.length], &lists].concat()
    }

    fn numbers(&self, first: &[u8], d: &Disk) -> Vec<u32> {
        match read_group0(first) {
            Err(number) => vec![number],
            Ok(found) => {
                let heads = d.heads.iter().zip(0..).map(|(head, k)| read_group(&found, k, head));
                heads.chain([read_log(&found, &d.log)]).collect()
            }
        }
    }
}

/// The port's reader. A refused head's row is its number alone; where the program doesn't run, there is nothing.
struct Port;

impl Reading for Port {
    fn row(&self, head: &[u8]) -> Vec<u64> {
        let mut row = reader::group0(head).unwrap_or_default();
        if row.first() != Some(&0) {
            row.truncate(1);
        }
        row
    }

    fn numbers(&self, first: &[u8], d: &Disk) -> Vec<u32> {
        let heads = d.heads.iter().zip(0..).map(|(head, k)| reader::group(first, k, head));
        heads.chain([reader::log(first, &d.log)]).flatten().collect()
    }
}

fn read(case: &[u8], by: &dyn Reading) -> io::Result<String> {
    let (q, other) = requests(case).ok_or_else(|| io::Error::other("no two requests"))?;
    let both = disks(&q)?;
    let mut lines = Vec::new();
    for d in both.iter().flatten() {
        let first = &d.heads[0];
        lines.push(format!("row {:?}", by.row(first)));
        for with in both.iter().flatten() {
            lines.push(format!("numbers {:?}", by.numbers(&with.heads[0], d)));
        }
        lines.push(format!("renamed {:?}", by.row(&renamed(first, &other))));
        for (log, free) in RECOUNTS {
            lines.push(format!("recounted {log} {free} {:?}", by.row(&recounted(d, log, free))));
        }
    }
    Ok(lines.join("\n") + "\n")
}

impl Mode for Sizings {
    fn case(&self, r: &mut Random) -> Vec<u8> {
        let (q, mut other) = (request(r), crowded::request(r, GROUPS));
        if r.one_in(2) {
            // The same sizes and features, so that heads are as long.
            for code in [op::BLOCK, op::SECTOR, op::INODE, op::FEATURES] {
                other.options[code] = q.options[code];
            }
            (other.logical, other.physical) = (q.logical, q.physical);
        }
        let first = q.encode();
        [&(first.len() as u16).to_be_bytes()[..], &first, &other.encode()].concat()
    }

    fn answer(&self, case: &[u8], out: Out) -> io::Result<Told> {
        out.write_all(read(case, &Model)?.as_bytes())?;
        let (q, _) = requests(case).ok_or_else(|| io::Error::other("no two requests"))?;
        Ok(Told::apart(beside(&q), 0))
    }

    fn ours(&self, case: &[u8]) -> Option<Vec<u8>> {
        read(case, &Port).ok().map(String::into_bytes)
    }

    fn show_case(&self, case: &[u8]) -> String {
        format!("{} {:?}", super::hex(case), requests(case))
    }

    fn show_answer(&self, answer: &[u8]) -> String {
        String::from_utf8_lossy(answer).into_owned()
    }
}
