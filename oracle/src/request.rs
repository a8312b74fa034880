//! The scope's input records: read, as the Rust's parameters, and written.

use mkfs_xfs::geometry::{Features, Params, Timestamp};

use crate::frames::Fields;
use crate::model::Sizing;

pub const MALFORMED: u32 = 28;

/// The codes of `OP` records.
pub mod op {
    pub const SIZE: usize = 1;
    pub const BLOCK: usize = 2;
    pub const SECTOR: usize = 3;
    pub const INODE: usize = 4;
    pub const AGCOUNT: usize = 5;
    pub const AGSIZE: usize = 6;
    pub const IMAXPCT: usize = 7;
    pub const SEED: usize = 8;
    pub const FEATURES: usize = 9;
    pub const SECONDS: usize = 10;
    pub const NANOSECONDS: usize = 11;
    pub const SIZING: usize = 12;
    pub const PROFILE: usize = 13;
    /// The last code.
    pub const LAST: usize = PROFILE;
}

/// What the records say. `options[code]` is the value of the `OP` record with that code.
#[derive(Clone, Debug, Default)]
pub struct Request {
    pub device: u64,
    pub logical: u32,
    pub physical: u32,
    pub options: [Option<u64>; op::PROFILE + 1],
    pub label: Option<Vec<u8>>,
    pub id: Option<[u8; 16]>,
}

/// The largest value that an option's type in the Rust holds; those of the sizing and the profile are the scope's.
fn largest(code: usize) -> u64 {
    match code {
        op::BLOCK | op::SECTOR | op::INODE | op::NANOSECONDS => u64::from(u32::MAX),
        op::IMAXPCT => u64::from(u8::MAX),
        op::FEATURES => 127,
        op::SIZING | op::PROFILE => 1,
        _ => u64::MAX,
    }
}

/// Puts `value` where nothing stands yet.
fn once<T>(place: &mut Option<T>, value: T) -> Option<()> {
    place.replace(value).is_none().then_some(())
}

/// The next `n` bytes, `None` where the record is cut.
fn whole<'a>(from: &mut Fields<'a>, n: usize) -> Option<Fields<'a>> {
    let b = from.bytes(n);
    (b.len() == n).then_some(Fields(b))
}

impl Request {
    /// Reads the records; `None` where they are malformed.
    pub fn parse(bytes: &[u8]) -> Option<Request> {
        Request::parse_to(bytes, op::LAST)
    }

    /// Reads the records of a run that may be under the profile.
    pub fn parse_profiled(bytes: &[u8]) -> Option<Request> {
        Request::parse_to(bytes, op::PROFILE)
    }

    /// Reads records with codes up to `last`.
    fn parse_to(bytes: &[u8], last: usize) -> Option<Request> {
        let mut from = Fields(bytes);
        let mut r = Request::default();
        if whole(&mut from, 2)?.rest() != b"DV" {
            return None;
        }
        let mut dv = whole(&mut from, 16)?;
        (r.device, r.logical, r.physical) = (dv.u64(), dv.u32(), dv.u32());
        while !from.0.is_empty() {
            r.record(&mut from, last)?;
        }
        Some(r)
    }

    /// Reads one record after the first.
    fn record(&mut self, from: &mut Fields, last: usize) -> Option<()> {
        match whole(from, 2)?.rest() {
            b"OP" => {
                let mut body = whole(from, 9)?;
                let (code, value) = (usize::from(body.u8()), body.u64());
                if !(1..=last).contains(&code) || value > largest(code) {
                    return None;
                }
                once(&mut self.options[code], value)
            }
            b"LB" => {
                let n = usize::from(whole(from, 1)?.u8());
                once(&mut self.label, whole(from, n)?.rest().to_vec())
            }
            b"ID" => once(&mut self.id, whole(from, 16)?.array()),
            _ => None,
        }
    }

    /// The records, options by rising code, then label and UUID.
    pub fn encode(&self) -> Vec<u8> {
        let mut out = b"DV".to_vec();
        out.extend(self.device.to_be_bytes());
        out.extend(self.logical.to_be_bytes());
        out.extend(self.physical.to_be_bytes());
        for (code, value) in self.options.iter().enumerate() {
            if let Some(v) = value {
                out.extend(b"OP");
                out.push(code as u8);
                out.extend(v.to_be_bytes());
            }
        }
        if let Some(l) = &self.label {
            out.extend(b"LB");
            out.push(l.len() as u8);
            out.extend(l);
        }
        if let Some(id) = &self.id {
            out.extend(b"ID");
            out.extend(id);
        }
        out
    }

    pub fn features(&self) -> Features {
        let bits = self.options[op::FEATURES].unwrap_or(127);
        let on = |bit: u32| bits >> bit & 1 == 1;
        Features {
            finobt: on(0),
            rmapbt: on(1),
            reflink: on(2),
            inobtcount: on(3),
            bigtime: on(4),
            nrext64: on(5),
            sparse: on(6),
        }
    }

    /// Absent or 0 is plain sizing.
    pub fn sizing(&self) -> Sizing {
        match self.options[op::SIZING] {
            Some(1) => Sizing::Roomy,
            _ => Sizing::Plain,
        }
    }

    /// Absent time is 0.
    pub fn time(&self) -> Timestamp {
        Timestamp {
            secs: self.options[op::SECONDS].unwrap_or(0) as i64,
            nsecs: self.options[op::NANOSECONDS].unwrap_or(0) as u32,
        }
    }

    /// The label as the Rust's type. The Rust reads only its bytes and, in a refusal, its text, so bytes that are
    /// no UTF-8 are handed over as they are where they are accepted, and as letters where they are too many.
    fn label_text(&self) -> Option<String> {
        self.label.as_ref().map(|l| match String::from_utf8(l.clone()) {
            Ok(text) => text,
            Err(_) if l.len() > 12 => "x".repeat(l.len()),
            Err(_) => unsafe { String::from_utf8_unchecked(l.clone()) },
        })
    }

    /// The Rust's parameters. Absent UUID, time and seed are zeros, as the scope adds.
    pub fn params(&self) -> Params {
        let o = &self.options;
        let short = |code: usize| o[code].map(|v| v as u32);
        Params {
            size: o[op::SIZE],
            block_size: short(op::BLOCK),
            sector_size: short(op::SECTOR),
            inode_size: short(op::INODE),
            agcount: o[op::AGCOUNT],
            agsize: o[op::AGSIZE],
            imaxpct: o[op::IMAXPCT].map(|v| v as u8),
            label: self.label_text(),
            uuid: Some(self.id.unwrap_or_default()),
            time: Some(self.time()),
            gen_seed: Some(o[op::SEED].unwrap_or(0)),
            features: self.features(),
        }
    }
}
