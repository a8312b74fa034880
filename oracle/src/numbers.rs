//! The scope's numbers for the Rust's refusals, by their messages.

use mkfs_xfs::error::Error;

/// A refusal that the scope says can't occur, or an error that is no refusal.
pub const UNNUMBERED: u32 = 999;

/// How a message begins, what it holds after that, its number. The first that fits counts.
const MESSAGES: [(&str, &str, u32); 28] = [
    ("label ", "is longer than 12 bytes", 20),
    ("inobtcount requires finobt", "", 1),
    ("illegal block size", "", 2),
    ("minimum block size for CRC", "", 3),
    ("block size ", "mkfs.xfs sizes its log from the minimum log size", 4),
    ("illegal sector size", "hw sector is", 7),
    ("illegal sector size", "", 5),
    ("block size ", "cannot be smaller than sector size", 6),
    ("illegal inode size", "", 8),
    ("size ", "is too large, maximum is", 9),
    ("size ", "of data subvolume is too small", 10),
    ("agsize (", "not a multiple of fs blk size", 11),
    ("agsize 0", "", 12),
    ("agcount 0", "", 13),
    ("last AG size", "too small", 14),
    ("agsize (", "too small, need at least", 15),
    ("agsize (", "too big, maximum is", 16),
    ("agsize (", "too big, data area is", 17),
    ("", "allocation groups is too many", 18),
    ("imaxpct ", "is over 100", 19),
    ("filesystems under 300 MB", "", 21),
    ("log size must be at least 64MB", "", 22),
    ("filesystem must have at least 2 superblocks", "", 23),
    ("AG ", "has no space for its free list", 25),
    ("blocks ", "are not free", 33),
    ("internal log size", "", UNNUMBERED),
    ("filesystem must be larger than 300MB", "", UNNUMBERED),
    ("the root inode chunk at block", "", UNNUMBERED),
];

pub fn number_of(e: &Error) -> u32 {
    let (Error::InvalidParams(text) | Error::Unsupported(text)) = e else {
        return UNNUMBERED;
    };
    let fits = |&&(head, within, _): &&(&str, &str, u32)| text.starts_with(head) && text.contains(within);
    MESSAGES.iter().find(fits).map_or(UNNUMBERED, |m| m.2)
}
