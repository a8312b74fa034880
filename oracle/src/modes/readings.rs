//! Single changes of one small disk, to be replayed. A case is an offset in its three heads and its log's
//! first block (4 bytes) and the byte that is put there; the first replayed case is these bytes themselves. An answer is the
//! number of the place so changed, and that of the place restored.

use std::io;

use super::damage::{expected, Made, LOG};
use super::reader::disk;
use super::writes::whole_case;
use super::{Mode, Out, Told};
use crate::disk::Disk;
use crate::frames::Fields;
use crate::port::{self, Asked};
use crate::random::Random;

pub struct Readings {
    disk: Disk,
    bytes: Vec<u8>,
}

impl Readings {
    pub fn new() -> Readings {
        let disk = disk(&whole_case()).unwrap();
        let bytes = [disk.heads.concat(), disk.log.clone()].concat();
        Readings { disk, bytes }
    }
}

impl Mode for Readings {
    fn case(&self, r: &mut Random) -> Vec<u8> {
        let parts = self.disk.parts();
        let range = &parts[r.below(parts.len() as u64) as usize].1;
        let head = self.disk.heads[0].len() as u64;
        let most = if r.one_in(4) { 1024 } else { 224 };
        let within = range.start as u64 + r.below((range.len() as u64).min(most));
        let offset = match r.below(10) {
            0 => 3 * head + r.below(1024),
            1 | 2 => head + within,
            3 | 4 => 2 * head + within,
            _ => within,
        };
        let by = if r.one_in(4) { 0 } else { r.below(256) as u8 };
        [&(offset as u32).to_be_bytes()[..], &[self.bytes[offset as usize] ^ by]].concat()
    }

    fn answer(&self, case: &[u8], out: Out) -> io::Result<Told> {
        if case.len() == self.bytes.len() {
            writeln!(out, "0 0")?;
            return Ok(Told::asked("", 0));
        }
        let mut f = Fields(case);
        let (offset, value) = (f.u32() as usize, f.u8());
        let n = self.disk.heads[0].len();
        let (place, at) = (offset / n, offset % n);
        let mut bytes = self.disk.heads.get(place).unwrap_or(&self.disk.log).clone();
        bytes[at] = value;
        let part = match self.disk.heads.get(place) {
            None => "log block",
            Some(_) => self.disk.parts().into_iter().find(|(_, range)| range.contains(&at)).map_or("", |p| p.0),
        };
        let place = if place < self.disk.heads.len() { place as u64 } else { LOG };
        let number = expected(&Made { done: 0, disk: &self.disk, place, part, bytes });
        writeln!(out, "{number} 0")?;
        Ok(Told::apart(part, number))
    }

    /// The bytes themselves, or a change of one.
    fn asked(&self, case: &[u8]) -> Option<Asked> {
        if case.len() == self.bytes.len() {
            let (params, body) = (Vec::new(), case.to_vec());
            return Some(Asked { program: port::DISKS, function: port::disk::DISK, params, body });
        }
        let mut f = Fields(case);
        let params = [f.u32(), f.u8().into()].map(u32::to_be_bytes).concat();
        Some(Asked { program: port::DISKS, function: port::disk::CHANGE, params, body: Vec::new() })
    }

    fn replayed_answer(&self, _case: &[u8], answer: &[u8]) -> Vec<u8> {
        answer.to_vec()
    }

    fn always(&self) -> Vec<Vec<u8>> {
        vec![self.bytes.clone()]
    }
}
