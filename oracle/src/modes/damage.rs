//! The reader on damaged heads and log blocks of 100 disks that the Rust's `format` left, and on right bytes in a wrong place.
//! A case is what is done (1 byte), the disk (1), the place (8, a group or LOG) and the rest of what is done. An answer is
//! the number of the bytes so made, and that of the place's own bytes after it.

use std::io;

use super::plans::accepted;
use super::reader::{disk, run, spread};
use super::{roomy, Mode, Out, Told};
use crate::disk::{head_bytes, named, Disk};
use crate::frames::Fields;
use crate::port::reader;
use crate::random::Random;
use crate::request::{op, Request};

const DISKS: u64 = 100;
const PAIRS: u64 = 20;
const GROUPS: u64 = 12;
const SEED: u64 = 20_261_115;

/// The place that is no group.
pub const LOG: u64 = u64::MAX;

/// The bytes of a superblock that name something.
const NAMED: [std::ops::Range<u64>; 8] = [4..8, 8..16, 84..88, 102..104, 104..106, 108..120, 127..128, 212..220];

/// What is done.
const CHANGED: u8 = 0;
const SEVERAL: u8 = 1;
const UNFINISHED: u8 = 2;
const EXCHANGED: u8 = 3;
const OTHER_RUN: u8 = 4;
const OTHER_UUID: u8 = 5;
const OTHER_SECTOR: u8 = 6;
const OTHER_LENGTH: u8 = 7;

pub struct Damage {
    disks: Vec<Disk>,
    /// The same disk with sectors of 512 bytes and of 4096.
    sectors: Vec<(Disk, Disk)>,
}

/// Makes an accepted run of at most GROUPS groups.
type Run = fn(&mut Random) -> Vec<u8>;

/// A disk with a UUID of its own.
fn named_disk(r: &mut Random, run: Run) -> Disk {
    let mut q = Request::parse(&run(r)).unwrap();
    q.id = Some(r.bytes(16).try_into().unwrap());
    disk(&q.encode()).unwrap()
}

/// Both disks of a request with blocks of 4096 bytes or more.
fn two_sectors(r: &mut Random, run: Run) -> (Disk, Disk) {
    loop {
        let mut q = Request::parse(&run(r)).unwrap();
        spread(r, &mut q);
        let with = |sector| {
            let mut q = q.clone();
            q.options[op::SECTOR] = Some(sector);
            disk(&q.encode())
        };
        if let (Ok(small), Ok(large)) = (with(512), with(4096)) {
            return (small, large);
        }
    }
}

/// What is done to which disk in which place, with the bytes that it leads to.
pub struct Made<'a> {
    pub done: u8,
    pub disk: &'a Disk,
    pub place: u64,
    pub part: &'static str,
    pub bytes: Vec<u8>,
}

/// What a disk has in a place.
fn own(d: &Disk, place: u64) -> &[u8] {
    d.heads.get(place as usize).unwrap_or(&d.log)
}

impl Damage {
    pub fn new() -> Damage {
        Damage::of(|r| run(r, GROUPS))
    }

    /// The disks are roomy runs' by the model, most of them crowded.
    pub fn roomy() -> Damage {
        Damage::of(|r| loop {
            let case = roomy::run(r);
            if accepted(&case).1.is_some_and(|(_, g)| g.agcount <= GROUPS) {
                return case;
            }
        })
    }

    fn of(run: Run) -> Damage {
        let mut r = Random::new(SEED);
        let disks = (0..DISKS).map(|_| named_disk(&mut r, run)).collect();
        let sectors = (0..PAIRS).map(|_| two_sectors(&mut r, run)).collect();
        Damage { disks, sectors }
    }

    /// One byte of a place: its offset, and what it is changed by.
    fn change(&self, r: &mut Random, d: &Disk, place: u64) -> (u32, u8) {
        let parts = d.parts();
        let range = match place {
            LOG => 0..d.log.len(),
            _ => parts[r.below(parts.len() as u64) as usize].1.clone(),
        };
        let (start, n) = (range.start as u64, range.len() as u64);
        let offset = match r.below(8) {
            0..=2 if place != LOG && start == 0 => {
                let name = &NAMED[r.below(NAMED.len() as u64) as usize];
                name.start + r.below(name.end - name.start)
            }
            0..=4 => start + r.below(n.min(512)),
            5 => start + n - 1 - r.below(8),
            _ => start + r.below(n),
        };
        let by = if r.one_in(2) { 1 << r.below(8) } else { 1 + r.below(255) as u8 };
        (offset as u32, by)
    }

    /// Another disk than this one, mostly one whose heads are as long.
    fn other(&self, r: &mut Random, index: u64) -> u8 {
        let long = |i: &u64| self.disks[*i as usize].heads[0].len();
        let others: Vec<u64> = (0..DISKS).filter(|&i| i != index).collect();
        let alike: Vec<u64> = others.iter().copied().filter(|i| long(i) == long(&index)).collect();
        let any = alike.is_empty() || r.one_in(4);
        r.pick(if any { &others } else { &alike }) as u8
    }

    /// The bytes of a case.
    fn made(&self, case: &[u8]) -> Made<'_> {
        let mut f = Fields(case);
        let (done, index, place) = (f.u8(), usize::from(f.u8()), f.u64());
        let disk = if done == OTHER_SECTOR { &self.sectors[index].0 } else { &self.disks[index] };
        let mut bytes = own(disk, place).to_vec();
        let mut part = "";
        match done {
            CHANGED | SEVERAL => {
                while !f.0.is_empty() {
                    let (offset, by) = (f.u32() as usize, f.u8());
                    bytes[offset] ^= by;
                    let found = disk.parts().into_iter().find(|(_, range)| range.contains(&offset));
                    part = if place == LOG { "log block" } else { found.map_or("", |(name, _)| name) };
                }
            }
            UNFINISHED => bytes = disk.unfinished.clone(),
            EXCHANGED => bytes = own(disk, f.u64()).to_vec(),
            OTHER_RUN => bytes = own(&self.disks[usize::from(f.u8())], place).to_vec(),
            OTHER_UUID => {
                let mut q = disk.request.clone();
                q.id = Some(f.array());
                let other = Disk::of(q, disk.geometry.clone()).unwrap();
                bytes = own(&other, place).to_vec();
            }
            OTHER_SECTOR => bytes = own(&self.sectors[index].1, place).to_vec(),
            _ => bytes.resize(f.u32() as usize, 0),
        }
        Made { done, disk, place, part, bytes }
    }
}

/// The scope's number for bytes of which only the disk's own are left here by a run.
pub fn expected(m: &Made) -> u32 {
    let length = match m.place {
        0 if m.bytes.len() < 512 => return 27,
        0 => match named(&m.bytes) {
            None => return 30,
            Some((_, g)) => head_bytes(&g),
        },
        LOG => m.disk.log.len(),
        k if k >= m.disk.geometry.agcount => return 29,
        _ => m.disk.heads[0].len(),
    };
    match () {
        () if m.bytes.len() != length => 27,
        () if m.bytes == own(m.disk, m.place) => 0,
        () => 30,
    }
}

impl Mode for Damage {
    fn case(&self, r: &mut Random) -> Vec<u8> {
        let done = match r.below(1000) {
            0..=879 => CHANGED,
            880..=974 => SEVERAL,
            975..=979 => UNFINISHED,
            980..=984 => EXCHANGED,
            985..=989 => OTHER_RUN,
            990..=992 => OTHER_UUID,
            993..=996 => OTHER_SECTOR,
            _ => OTHER_LENGTH,
        };
        let index = r.below(if done == OTHER_SECTOR { PAIRS } else { DISKS });
        let d = if done == OTHER_SECTOR { &self.sectors[index as usize].0 } else { &self.disks[index as usize] };
        let groups = d.geometry.agcount;
        let place = match r.below(8) {
            _ if done == UNFINISHED => 0,
            0..=2 if done != OTHER_RUN && done != OTHER_SECTOR && done != OTHER_UUID => 0,
            7 if done != EXCHANGED => LOG,
            _ => 1 + r.below(groups - 1),
        };
        let mut case = [&[done, index as u8][..], &place.to_be_bytes()].concat();
        let n = own(d, place).len() as u64;
        match done {
            CHANGED => {
                let (offset, by) = self.change(r, d, place);
                case.extend([&offset.to_be_bytes()[..], &[by]].concat());
            }
            SEVERAL => {
                // A run of bytes, or bytes anywhere.
                let (at, count, together) = (r.below(n - 64), 2 + r.below(62), r.one_in(2));
                for i in 0..count {
                    let change = self.change(r, d, place);
                    let (offset, by) = if together { ((at + i) as u32, change.1) } else { change };
                    case.extend([&offset.to_be_bytes()[..], &[by]].concat());
                }
            }
            EXCHANGED => case.extend(((place + 1 + r.below(groups - 1)) % groups).to_be_bytes()),
            OTHER_RUN => case.push(self.other(r, index)),
            OTHER_UUID => case.extend(r.bytes(16)),
            OTHER_LENGTH => {
                let other = r.pick(&[0, 511, 512, n - 512, n - 1, n + 1, n + 4096]);
                case.extend((if other == n { 0 } else { other } as u32).to_be_bytes());
            }
            _ => {}
        }
        case
    }

    fn answer(&self, case: &[u8], out: Out) -> io::Result<Told> {
        let m = self.made(case);
        let number = expected(&m);
        writeln!(out, "{number} 0")?;
        let kind = match m.done {
            CHANGED => m.part,
            SEVERAL => "several bytes",
            UNFINISHED => "unfinished group 0",
            EXCHANGED => "another group's head",
            OTHER_RUN => "another run's head or log block",
            OTHER_UUID => "the same run with another UUID",
            OTHER_SECTOR => "sectors of 4096 read with sectors of 512",
            _ => "another length",
        };
        Ok(Told::apart(kind, number))
    }

    fn ours(&self, case: &[u8]) -> Option<Vec<u8>> {
        let m = self.made(case);
        let first = &m.disk.heads[0];
        let number = |bytes: &[u8]| match m.place {
            0 => Some(*reader::group0(bytes)?.first()? as u32),
            LOG => reader::log(first, bytes),
            k => reader::group(first, k, bytes),
        };
        Some(format!("{} {}\n", number(&m.bytes)?, number(own(m.disk, m.place))?).into_bytes())
    }

    fn show_case(&self, case: &[u8]) -> String {
        let m = self.made(case);
        format!("{} place {} {} {:?}", super::hex(case), m.place, m.part, m.disk.request)
    }

    fn show_answer(&self, answer: &[u8]) -> String {
        String::from_utf8_lossy(answer).into_owned()
    }
}
