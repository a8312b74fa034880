//! A plain model of how much a run sends: the records of its list, their bytes, and how many of these are payload of `WB`.
//! The list is counted where it is short; elsewhere the three are worked out, which is held to every list that is counted.

use std::io;

use mkfs_xfs::geometry::Geometry;

use crate::modes::geometry::feature_bits;
use crate::modes::plans::run_of;
use crate::modes::Told;
use crate::recorded::{formatted, Sink};
use crate::request::Request;

/// The most groups of a list that is counted.
const COUNTED: u64 = 40;

#[derive(Clone, Copy, Debug, Default, PartialEq, Eq)]
pub struct Length {
    pub records: u64,
    pub bytes: u64,
    pub payload: u64,
}

/// A mark, and two numbers of eight bytes.
const MARK: u64 = 2;
const NUMBERS: u64 = 16;

impl Sink for Length {
    fn block(&mut self, _: u64, bytes: &[u8]) -> io::Result<()> {
        self.records += 1;
        self.bytes += MARK + NUMBERS + bytes.len() as u64;
        self.payload += bytes.len() as u64;
        Ok(())
    }

    fn zeros(&mut self, _: u64, _: u64) -> io::Result<()> {
        self.records += 1;
        self.bytes += MARK + NUMBERS;
        Ok(())
    }

    fn flush(&mut self) -> io::Result<()> {
        self.records += 1;
        self.bytes += MARK;
        Ok(())
    }
}

/// The list of an accepted run, counted: the Rust's, in roomy sizing the model's.
fn counted(q: &Request, g: &Geometry) -> io::Result<Length> {
    formatted(q, g, Length::default())
}

/// The same without a list: zeros at the start, at the end and over the log; log block, heads, root chunk and group 0's header blocks
/// again, block by block; two flushes.
pub fn worked_out(g: &Geometry) -> Length {
    let block = u64::from(g.blocksize);
    let headers = (4 * u64::from(g.sectsize)).div_ceil(block);
    // A root each by block, by size and of inodes; finobt, rmapbt and reflink have one each.
    let roots = 3 + u64::from((feature_bits(&g.features) & 7).count_ones());
    let chunk = 64 * u64::from(g.inodesize) / block;
    let blocks = 1 + g.agcount * (headers + roots) + chunk + headers;
    Length {
        records: 3 + blocks + 2,
        bytes: 3 * (MARK + NUMBERS) + blocks * (MARK + NUMBERS + block) + 2 * MARK,
        payload: blocks * block,
    }
}

/// The length of what a run sends, or the number that refuses it: `writelist`'s.
pub fn length(q: Option<Request>) -> io::Result<(Told, Option<Length>)> {
    let (told, run) = run_of(q);
    let Some((q, g)) = run else {
        return Ok((told, None));
    };
    let worked_out = worked_out(&g);
    if g.agcount > COUNTED {
        return Ok((Told::apart("worked out,", 0), Some(worked_out)));
    }
    if counted(&q, &g)? != worked_out {
        return Err(io::Error::other(format!("{q:?} has another list than {worked_out:?}")));
    }
    Ok((Told { kind: "counted,", ..told }, Some(worked_out)))
}

#[cfg(test)]
mod tests {
    use super::*;
    use crate::modes::lengths::records;
    use crate::random::Random;

    /// The three that stand beside the change request: 1 GiB without options.
    #[test]
    fn a_gibibyte() {
        let q = Request { device: 1 << 30, logical: 512, physical: 512, ..Request::default() };
        let found = length(Some(q)).unwrap().1.unwrap();
        assert_eq!(found, Length { records: 43, bytes: 156_390, payload: 155_648 });
    }

    /// What is worked out is what is counted, in both sizings; most groups that there may be stay below 2^50.
    #[test]
    fn lists() {
        let (mut r, mut counts) = (Random::new(9), [0u32; 3]);
        for _ in 0..1000 {
            let q = Request::parse(&records(&mut r));
            let roomy = q.as_ref().is_some_and(|q| q.options[crate::request::op::SIZING] == Some(1));
            let (told, found) = length(q).unwrap();
            counts[0] += u32::from(told.kind == "counted," && !roomy);
            counts[1] += u32::from(told.kind == "counted," && roomy);
            counts[2] += u32::from(told.kind == "worked out,");
            assert!(found.is_none_or(|l| l.bytes < 1 << 50));
        }
        assert!(counts.iter().all(|&n| n > 50), "{counts:?}");
    }
}
