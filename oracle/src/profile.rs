//! A plain model of the scan station profile: which runs it allows, and which disks a reader that admits only such lets pass.

use mkfs_xfs::geometry::Geometry;

use crate::modes::geometry::feature_bits;
use crate::request::{op, Request};

/// Outside the profile, where nothing else refuses.
pub const OUTSIDE: u32 = 37;

/// 1 to 12 bytes, each a capital letter, a digit or a hyphen.
fn label_fits(label: &[u8]) -> bool {
    let fits = |b: &u8| matches!(b, b'A'..=b'Z' | b'0'..=b'9' | b'-');
    (1..=12).contains(&label.len()) && label.iter().all(fits)
}

/// The rules that a geometry with this label breaks, as they are counted.
fn broken(g: &Geometry, label: &[u8]) -> Vec<&'static str> {
    let rules = [
        ("block size alone,", g.blocksize == 4096),
        ("sector size alone,", g.sectsize == 512 || g.sectsize == 4096),
        ("inode size alone,", g.inodesize == 512),
        ("features alone,", feature_bits(&g.features) == 127),
        ("groups alone,", (2..=64).contains(&g.agcount)),
        ("label alone,", label_fits(label)),
    ];
    rules.into_iter().filter(|rule| !rule.1).map(|rule| rule.0).collect()
}

/// What a run breaks: its label is the one that was asked for, with all its bytes.
pub fn broken_by_run(q: &Request, g: &Geometry) -> Vec<&'static str> {
    broken(g, q.label.as_deref().unwrap_or_default())
}

/// What a disk breaks: its label is the field without the zeros at its end.
pub fn broken_by_disk(g: &Geometry) -> Vec<&'static str> {
    let zeros = g.label.iter().rev().take_while(|&&b| b == 0).count();
    broken(g, &g.label[..12 - zeros])
}

/// Whether the profile lets a run pass that is accepted without it.
pub fn profile(q: &Request, g: &Geometry) -> bool {
    q.options[op::PROFILE] != Some(1) || broken_by_run(q, g).is_empty()
}

#[cfg(test)]
mod tests {
    use super::*;
    use crate::modes::plans::run_of;

    /// 1 GiB under the profile, changed.
    fn number(change: impl Fn(&mut Request)) -> u32 {
        let mut q = Request { device: 1 << 30, logical: 512, physical: 512, ..Request::default() };
        q.label = Some(b"BELT-7".to_vec());
        q.options[op::PROFILE] = Some(1);
        change(&mut q);
        run_of(Request::parse_profiled(&q.encode())).0.number
    }

    fn option(code: usize, value: u64) -> u32 {
        number(|q| q.options[code] = Some(value))
    }

    #[test]
    fn rules() {
        assert_eq!(number(|_| {}), 0);
        assert_eq!([4096, 1024, 2048, 8192, 16384, 512].map(|v| option(op::BLOCK, v)), [0, 37, 37, 37, 37, 3]);
        assert_eq!([512, 4096, 1024, 2048, 8192].map(|v| option(op::SECTOR, v)), [0, 0, 37, 37, 6]);
        assert_eq!([512, 4096, 1024, 2048].map(|v| number(|q| q.physical = v)), [0, 0, 37, 37]);
        assert_eq!([512, 1024, 2048, 4096].map(|v| option(op::INODE, v)), [0, 37, 37, 8]);
        assert_eq!((0..128).filter(|&bits| option(op::FEATURES, bits) == 0).collect::<Vec<_>>(), [127]);
        let groups = |n: u64| number(|q| (q.options[op::AGCOUNT], q.device) = (Some(n), 10 << 30));
        assert_eq!([1, 2, 3, 63, 64, 65, 66].map(groups), [23, 0, 0, 0, 0, 37, 37]);
        assert_eq!([64, 65].map(|n: u64| number(|q| q.device = n << 40)), [0, 37]);
        assert_eq!([option(op::SIZING, 1), option(op::IMAXPCT, 101), option(op::NANOSECONDS, 1 << 31)], [0, 19, 26]);
        // Without the switch nothing is asked; another value is malformed.
        assert_eq!([0, 1, 2].map(|v| number(|q| (q.options[op::PROFILE], q.label) = (Some(v), None))), [0, 37, 28]);
    }

    #[test]
    fn labels() {
        assert_eq!([number(|q| q.label = None), number(|q| q.label = Some(vec![]))], [37, 37]);
        assert_eq!([12, 13].map(|n| number(|q| q.label = Some(vec![b'A'; n]))), [0, 20]);
        let allowed = b"ABCDEFGHIJKLMNOPQRSTUVWXYZ0123456789-";
        for (place, byte) in (0..12).flat_map(|place| (0..=255u8).map(move |byte| (place, byte))) {
            for length in [place + 1, 12] {
                let mut label = vec![b'Q'; length];
                label[place] = byte;
                let wanted = if allowed.contains(&byte) { 0 } else { 37 };
                assert_eq!(number(|q| q.label = Some(label.clone())), wanted, "{label:?}");
            }
        }
    }

    /// On a disk the zeros at a label's end are no part of it.
    #[test]
    fn disks() {
        let admitted = |label: &[u8]| {
            let mut q = Request { device: 1 << 30, logical: 512, physical: 512, ..Request::default() };
            q.label = Some(label.to_vec());
            broken_by_disk(&run_of(Some(q)).1.unwrap().1).is_empty()
        };
        assert_eq!(
            [&b"AB"[..], b"AB\0\0", b"A\0B", b"\0AB", b"\0", b""].map(admitted),
            [true, true, false, false, false, false]
        );
    }
}
