//! A plain model of the question which device size is the smallest that leaves so many free blocks: it tries every size.

use crate::model::{block_size, free_count};
use crate::ranges::{Planner, MIB};
use crate::request::{op, Request};

/// The change request's numbers.
pub const NONE_REACHES: u32 = 38;
pub const NO_ROW: u32 = 39;

pub const MOST_SIZES: u64 = 65_536;

/// The smallest of `count` sizes from `start` on, 1 MiB apart, with as many free blocks as are wanted, groups being the default ones.
pub fn smallest(q: &Request, start: u64, count: u64, wanted: u64, by: Planner) -> Result<u64, u32> {
    block_size(q)?;
    let last = u128::from(start) + u128::from(count.saturating_sub(1)) * u128::from(MIB);
    if count == 0 || count > MOST_SIZES || last > u128::from(u64::MAX) {
        return Err(NO_ROW);
    }
    let mut q = q.clone();
    (q.options[op::AGSIZE], q.options[op::AGCOUNT]) = (None, None);
    for i in 0..count {
        q.device = start + i * MIB;
        if by(&q).is_ok_and(|g| free_count(&g) >= wanted) {
            return Ok(q.device);
        }
    }
    Err(NONE_REACHES)
}

#[cfg(test)]
mod tests {
    use super::*;
    use crate::modes::plans::plan;
    use crate::modes::ranges::request;
    use crate::random::Random;
    use crate::ranges::{by_model, by_rust};

    #[test]
    fn rows() {
        let q = Request { logical: 512, physical: 512, ..Request::default() };
        let mut given = q.clone();
        (given.options[op::AGSIZE], given.options[op::AGCOUNT]) = (Some(7), Some(0));
        for (start, count, wanted, found) in [
            (0, 301, 60_380, Ok(300 * MIB)),
            (0, 301, 60_381, Err(38)),
            (0, 302, 60_381, Ok(301 * MIB)),
            (0, 300, 0, Err(38)),
            (1 << 30, 1, 245_724, Ok(1 << 30)),
            (1 << 30, 1, 245_725, Err(38)),
            (300 * MIB - 1, 2, 0, Ok(301 * MIB - 1)),
            (0, 0, 0, Err(39)),
            (0, 65_537, 0, Err(39)),
            (u64::MAX, 1, 0, Ok(u64::MAX)),
            (u64::MAX, 2, 0, Err(39)),
        ] {
            assert_eq!(smallest(&q, start, count, wanted, by_model), found, "{start} {count} {wanted}");
            assert_eq!(smallest(&q, start, count, wanted, by_rust), found, "{start} {count} {wanted}");
            assert_eq!(smallest(&given, start, count, wanted, by_model), found, "{start} {count} {wanted}");
        }
    }

    /// The free count is what the plans of all groups have, in free blocks and free lists.
    #[test]
    fn free_counts() {
        let (mut r, mut counted) = (Random::new(7), 0);
        while counted < 300 {
            let q = request(&mut r);
            let Ok(g) = by_model(&q) else { continue };
            if g.agcount <= 100 {
                let plans = (0..g.agcount).map(|k| plan(&g, k).unwrap());
                assert_eq!(free_count(&g), plans.map(|p| p.freeblks() + p.agfl.len() as u64).sum::<u64>());
                counted += 1;
            }
        }
    }
}
