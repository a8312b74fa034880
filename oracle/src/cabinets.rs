//! A plain model of a staging area that the lists of a cabinet's disks share.

pub const MOST_DISKS: usize = 16;

/// The change request's numbers.
pub const NO_FIT: u32 = 40;
pub const TOO_MANY_DISKS: u32 = 41;

/// A disk's list in bytes, or the number that refuses it.
pub type Answer = Result<u64, u32>;

/// What the disks are answered, in order, and what is left of the area; each is given by its own run.
pub fn cabinet(area: u64, disks: &[Answer]) -> Result<(Vec<Answer>, u64), u32> {
    if disks.len() > MOST_DISKS {
        return Err(TOO_MANY_DISKS);
    }
    let mut left = area;
    let mut answers = Vec::new();
    for &disk in disks {
        let answer = disk.and_then(|bytes| if bytes > left { Err(NO_FIT) } else { Ok(bytes) });
        left -= answer.unwrap_or(0);
        answers.push(answer);
    }
    Ok((answers, left))
}

#[cfg(test)]
mod tests {
    use super::*;

    /// Every cabinet of `n` disks that are refused by 21 or have 1 to 3 bytes.
    fn all(n: usize) -> Vec<Vec<Answer>> {
        let mut found = vec![Vec::new()];
        for _ in 0..n {
            let more = |disks: Vec<Answer>| [Err(21), Ok(1), Ok(2), Ok(3)].map(|d| [&disks[..], &[d]].concat());
            found = found.into_iter().flat_map(more).collect();
        }
        found
    }

    /// The sentences of the request, each by itself.
    #[test]
    fn small_cabinets() {
        for (disks, area) in (0..=5).flat_map(all).flat_map(|disks| (0..=15).map(move |area| (disks.clone(), area))) {
            let (answers, left) = cabinet(area, &disks).unwrap();
            assert_eq!(answers.len(), disks.len());
            let taken = |answers: &[Answer]| answers.iter().flatten().sum::<u64>();
            assert_eq!(taken(&answers) + left, area);
            for (i, (&own, &answer)) in disks.iter().zip(&answers).enumerate() {
                let before = taken(&answers[..i]);
                let fits = own.is_ok_and(|bytes| before + bytes <= area);
                assert_eq!(answer, if own.is_err() || fits { own } else { Err(40) });
                // One that isn't admitted takes nothing: without it the others have the same answers.
                if answer.is_err() {
                    let without = |list: &[Answer]| [&list[..i], &list[i + 1..]].concat();
                    assert_eq!(cabinet(area, &without(&disks)), Ok((without(&answers), left)));
                }
            }
        }
    }

    #[test]
    fn counts_of_disks() {
        assert_eq!(cabinet(7, &[]), Ok((vec![], 7)));
        assert_eq!(cabinet(16, &[Ok(1); 16]), Ok((vec![Ok(1); 16], 0)));
        assert_eq!(cabinet(u64::MAX, &[Err(28); 17]), Err(41));
    }
}
