//! Names the bytes in which two XFS images differ, by structure and field, places alike taken together.
//!
//!     differ ONE OTHER        nothing and 0 where they are the same, else `structure: field field; ..` and 1
//!
//! The places are those that the first image's superblock gives. Holes that both files have are passed over.

use std::collections::{BTreeMap, BTreeSet};
use std::fs::File;
use std::io::{self, ErrorKind};
use std::os::fd::AsRawFd;
use std::os::unix::fs::FileExt;
use std::process::ExitCode;

extern "C" {
    fn lseek(fd: i32, offset: i64, whence: i32) -> i64;
}

const SEEK_DATA: i32 = 3;
const STEP: usize = 1 << 16;

/// Fields, or runs of them, by their first byte.
const SUPERBLOCK: [(usize, &str); 8] = [
    (0, "sizes and places"),
    (108, "label"),
    (120, "logarithms"),
    (126, "in progress"),
    (127, "imaxpct"),
    (128, "counts and features"),
    (224, "checksum"),
    (228, "rest"),
];
const LEAF: [(usize, &str); 3] = [(0, "header"), (52, "checksum"), (56, "records")];
const INODE: [(usize, &str); 13] = [
    (0, "core"),
    (32, "atime"),
    (40, "mtime"),
    (48, "ctime"),
    (56, "size and counts"),
    (92, "generation"),
    (96, "next unlinked"),
    (100, "checksum"),
    (104, "change count"),
    (120, "flags"),
    (144, "creation time"),
    (152, "number and UUID"),
    (176, "data"),
];

/// What the superblock says of the places.
struct Layout {
    block: u64,
    sector: u64,
    inode: u64,
    group: u64,
    chunk: u64,
    log: (u64, u64),
}

/// The field that holds a byte.
fn field(fields: &[(usize, &str)], at: u64) -> String {
    let found = fields.iter().rev().find(|(first, _)| *first as u64 <= at);
    found.map_or(at.to_string(), |(_, name)| name.to_string())
}

fn number(sb: &[u8], at: usize, bytes: usize) -> u64 {
    sb[at..at + bytes].iter().fold(0, |n, &b| n << 8 | u64::from(b))
}

impl Layout {
    fn read(file: &File) -> io::Result<Layout> {
        let mut sb = [0u8; 512];
        file.read_exact_at(&mut sb, 0)?;
        let (block, root, group_log) = (number(&sb, 4, 4), number(&sb, 56, 8), number(&sb, 124, 1) as u32);
        let group = number(&sb, 84, 4);
        let log = number(&sb, 48, 8);
        let log = ((log >> group_log) * group + log % (1 << group_log)) * block;
        Ok(Layout {
            block,
            sector: number(&sb, 102, 2),
            inode: number(&sb, 104, 2),
            group: group * block,
            chunk: (root >> number(&sb, 123, 1)) * block,
            log: (log, log + number(&sb, 96, 4) * block),
        })
    }

    /// The structure and the field that a byte belongs to; `mark` gives a block's.
    fn name(&self, at: u64, mark: impl Fn(u64) -> String) -> (String, String) {
        let (group, within) = (at / self.group, at % self.group);
        if within < 4 * self.sector {
            let which = (within / self.sector) as usize;
            let of = if group == 0 { "of group 0" } else { "of others" };
            let at = within % self.sector;
            let name = if which == 0 { field(&SUPERBLOCK, at) } else { format!("byte {at}") };
            return (format!("{} {of}", ["superblock", "AGF", "AGI", "free list"][which]), name);
        }
        if within < self.block {
            return ("header block".into(), "behind the free list".into());
        }
        if (self.log.0..self.log.1).contains(&at) {
            let place = if at < self.log.0 + self.block { "first block" } else { "rest" };
            return ("log".into(), place.into());
        }
        let inode = at.wrapping_sub(self.chunk) / self.inode;
        if at >= self.chunk && inode < 64 {
            let which = match inode {
                0 => "root inode",
                1 => "bitmap inode",
                2 => "summary inode",
                _ => "free inodes",
            };
            return (which.into(), field(&INODE, (at - self.chunk) % self.inode));
        }
        (format!("block {}", mark(at / self.block * self.block)), field(&LEAF, at % self.block))
    }
}

/// Where the next bytes are that aren't a hole.
fn next_data(file: &File, from: u64) -> Option<u64> {
    let at = unsafe { lseek(file.as_raw_fd(), from as i64, SEEK_DATA) };
    u64::try_from(at).ok()
}

/// The bytes at an offset, as many as there are.
fn part<'a>(file: &File, at: u64, buf: &'a mut [u8]) -> io::Result<&'a [u8]> {
    let mut n = 0;
    while n < buf.len() {
        match file.read_at(&mut buf[n..], at + n as u64) {
            Ok(0) => break,
            Ok(more) => n += more,
            Err(e) if e.kind() == ErrorKind::Interrupted => {}
            Err(e) => return Err(e),
        }
    }
    Ok(&buf[..n])
}

type Names = BTreeMap<String, BTreeSet<String>>;

fn compare(one: &File, other: &File) -> io::Result<Names> {
    let layout = Layout::read(one)?;
    let mark = |at: u64| {
        let mut four = [0u8; 4];
        let _ = one.read_exact_at(&mut four, at);
        if four.iter().all(u8::is_ascii_alphanumeric) {
            return String::from_utf8_lossy(&four).into_owned();
        }
        let group = at / layout.group;
        format!("{} of group {group}", at % layout.group / layout.block)
    };
    let mut names = Names::new();
    let (mut a, mut b) = (vec![0u8; STEP], vec![0u8; STEP]);
    let mut at = 0;
    while let Some(next) = [one, other].iter().filter_map(|f| next_data(f, at)).min() {
        at = next;
        let (x, y) = (part(one, at, &mut a)?, part(other, at, &mut b)?);
        for (i, _) in x.iter().zip(y).enumerate().filter(|(_, (p, q))| p != q) {
            let (structure, field) = layout.name(at + i as u64, mark);
            names.entry(structure).or_default().insert(field);
        }
        at += x.len().min(y.len()).max(1) as u64;
    }
    if one.metadata()?.len() != other.metadata()?.len() {
        names.entry("file".into()).or_default().insert("length".into());
    }
    Ok(names)
}

fn main() -> ExitCode {
    let words: Vec<String> = std::env::args().skip(1).collect();
    let [one, other] = &words[..] else {
        eprintln!("usage: differ ONE OTHER");
        return ExitCode::from(2);
    };
    match File::open(one).and_then(|f| compare(&f, &File::open(other)?)) {
        Ok(names) if names.is_empty() => ExitCode::SUCCESS,
        Ok(names) => {
            let all = names.iter().map(|(s, fields)| {
                let fields: Vec<&str> = fields.iter().map(String::as_str).collect();
                format!("{s}: {}", fields.join(", "))
            });
            println!("{}", all.collect::<Vec<_>>().join("; "));
            ExitCode::FAILURE
        }
        Err(e) => {
            eprintln!("differ: {e}");
            ExitCode::from(2)
        }
    }
}
