//! A plain model of the question whether all device sizes of a range are formatted: it tries every size.

use mkfs_xfs::geometry::Geometry;

use crate::model::{block_size, planned};
use crate::modes::geometry::step;
use crate::modes::plans::plan;
use crate::request::Request;

/// The change request's number.
pub const NO_RANGE: u32 = 36;

/// The most blocks between the ends of a range.
pub const FARTHEST: u64 = 65_536;

pub const MIB: u64 = 1 << 20;

/// Who says whether geometry and plans of a request are accepted.
pub type Planner = fn(&Request) -> Result<Geometry, u32>;

/// The model, in the request's sizing.
pub fn by_model(q: &Request) -> Result<Geometry, u32> {
    planned(q, q.sizing())
}

/// The Rust, which knows plain sizing only: its geometry, and its plans of the first, the log's and the last group.
pub fn by_rust(q: &Request) -> Result<Geometry, u32> {
    let (told, answer) = step(q);
    let g = answer.ok_or(told.number)?;
    for k in [0, g.logagno, g.agcount - 1] {
        plan(&g, k)?;
    }
    Ok(g)
}

/// What is said of a range of sizes that is one.
#[derive(Clone, Copy, Debug, PartialEq, Eq)]
pub enum Range {
    Formatted,
    /// The smallest refused size, in blocks, and its number.
    Refused(u64, u32),
}

/// Every size from `smallest` to `largest`, in whole blocks, both cut down to such. The device's own size isn't read.
pub fn range(q: &Request, smallest: u64, largest: u64, by: Planner) -> Result<Range, u32> {
    let block = block_size(q)?;
    let (first, last) = (smallest / block, largest / block);
    if first > last || last - first > FARTHEST {
        return Err(NO_RANGE);
    }
    for blocks in first..=last {
        let device = Request { device: blocks * block, ..q.clone() };
        if let Err(number) = by(&device) {
            return Ok(Range::Refused(blocks, number));
        }
    }
    Ok(Range::Formatted)
}

#[cfg(test)]
mod tests {
    use super::*;
    use crate::request::op;

    fn station() -> Request {
        Request { logical: 512, physical: 512, ..Request::default() }
    }

    fn both(q: &Request, smallest: u64, largest: u64) -> Result<Range, u32> {
        let found = range(q, smallest, largest, by_model);
        assert_eq!(found, range(q, smallest, largest, by_rust));
        found
    }

    #[test]
    fn ranges() {
        let (q, gib) = (station(), 1 << 30);
        assert_eq!(both(&q, 299 * MIB, 301 * MIB), Ok(Range::Refused(76_544, 21)));
        assert_eq!(both(&q, 300 * MIB, 301 * MIB), Ok(Range::Formatted));
        assert_eq!(both(&q, 300 * MIB - 1, 301 * MIB), Ok(Range::Refused(76_799, 21)));
        assert_eq!(both(&q, 0, 0), Ok(Range::Refused(0, 10)));
        // One size, by both of its ends; one block apart the wrong way; as far apart as may be, and a block more.
        assert_eq!(both(&q, gib + 5, gib + 3), Ok(Range::Formatted));
        assert_eq!(both(&q, gib + 4096, gib + 4095), Err(36));
        assert_eq!(both(&q, gib, gib + 4096 * 65_536 + 4095), Ok(Range::Formatted));
        assert_eq!(both(&q, gib, gib + 4096 * 65_537), Err(36));
        // A size option stays in force: below it 9, above it one answer for all.
        let mut sized = q.clone();
        sized.options[op::SIZE] = Some(gib);
        assert_eq!(both(&sized, gib - 1, gib + MIB), Ok(Range::Refused(262_143, 9)));
        assert_eq!(both(&sized, gib, gib + MIB), Ok(Range::Formatted));
        // K6 and K7: one group up to 80,895 blocks, then two.
        let mut grouped = q.clone();
        grouped.options[op::AGSIZE] = Some(76_800 * 4096);
        assert_eq!(both(&grouped, 80_895 * 4096, 80_896 * 4096), Ok(Range::Refused(80_895, 23)));
        assert_eq!(both(&grouped, 80_896 * 4096, 80_896 * 4096), Ok(Range::Refused(80_896, 25)));
        // 1 to 8 are answers of the call, before 36.
        let mut small = q.clone();
        small.options[op::BLOCK] = Some(512);
        assert_eq!(both(&small, 1, 0), Err(3));
    }
}
