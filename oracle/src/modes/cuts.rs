//! Power lost while formatting: an accepted run's list, cut after each of its records and once inside each, is applied by `applylist` to a
//! device that held something, and `readdisk` reads it. A case is a kind of old contents (1 byte), a seed for random ones (8), another run's
//! input records behind their length (4), and the run's. An answer has, for each stretch of cuts with the same outcome, a line with the
//! first and the last of them, and what is printed.
//!
//! The outcome is the change request's: the old contents before the first record; 30 until the `WB` with the finished superblock, which is
//! the first behind the first `FL`; from it on the run's table, UUID and sizing. `applylist` does the first record with the second one's
//! head, so a list that is cut before leaves the old contents; the first record alone is written here.

use std::fs::{self, File, OpenOptions};
use std::io::{self, Seek, SeekFrom, Write};
use std::path::{Path, PathBuf};
use std::process::{Command, Stdio};

use mkfs_xfs::geometry::Geometry;

use super::plans::{run_of, table};
use super::profiles::within;
use super::reader::{self, sizing};
use super::{hex, roomy, Mode, Out, Told};
use crate::frames::Fields;
use crate::profile::{broken_by_disk, OUTSIDE};
use crate::random::Random;
use crate::recorded::{formatted, Sink};
use crate::request::{op, Request};

pub struct Cuts;

/// The most groups of a case, so that all of its cuts are tried.
const GROUPS: u64 = 6;

/// What the reader says of bytes that no run left.
const NOT_LEFT: &str = "refused 30\n";

/// What stood on the device: nothing, random bytes, the disk of the same run, of another one, or the same run's, unfinished.
const OLD: [&str; 5] =
    ["over zeros,", "over random bytes,", "over its own disk,", "over another disk,", "over its unfinished disk,"];
const RANDOM: u8 = 1;
const SAME: u8 = 2;
const OTHER: u8 = 3;
const UNFINISHED: u8 = 4;

/// A run in blocks and sectors of 16,384 bytes: its head has 163,840, more than are zeroed at the start.
fn long_head(r: &mut Random) -> Request {
    let mut q = Request { device: (1 << 30) + r.below(1 << 32), logical: 512, physical: 512, ..Request::default() };
    q.options[op::BLOCK] = Some(16384);
    q.options[op::SECTOR] = Some(16384);
    q.options[op::INODE] = r.pick(&[None, Some(2048)]);
    q.options[op::SIZING] = r.pick(&[None, Some(1)]);
    q.id = Some(r.bytes(16).try_into().unwrap());
    q
}

/// A run within the profile, under its code once the port reads that.
fn profiled(r: &mut Random) -> Request {
    let mut q = within(r);
    q.id = Some(r.bytes(16).try_into().unwrap());
    if op::LAST >= op::PROFILE {
        q.options[op::PROFILE] = r.pick(&[None, Some(1)]);
    }
    q
}

/// An accepted run of few groups: of any kind, crowded in roomy sizing, with a long head, or within the profile.
fn run(r: &mut Random) -> Request {
    loop {
        let q = match r.below(4) {
            0 => Request::parse(&reader::run(r, GROUPS)),
            1 => Request::parse(&roomy::run(r)),
            2 => Some(long_head(r)),
            _ => Some(profiled(r)),
        };
        let Some(q) = q else { continue };
        let few = |(_, g): (Request, Geometry)| g.agcount <= GROUPS;
        if i64::try_from(q.device).is_ok() && run_of(Some(q.clone())).1.is_some_and(few) {
            return q;
        }
    }
}

/// Another run on a device of the same size.
fn other(r: &mut Random, device: u64) -> Request {
    loop {
        let mut q = run(r);
        (q.device, q.options[op::AGSIZE], q.options[op::SIZE]) = (device, None, None);
        if run_of(Some(q.clone())).1.is_some() {
            return q;
        }
    }
}

struct Case {
    old: u8,
    seed: u64,
    other: Vec<u8>,
    records: Vec<u8>,
}

impl Case {
    fn read(case: &[u8]) -> Case {
        let mut f = Fields(case);
        let (old, seed, n) = (f.u8(), f.u64(), f.u32());
        Case { old, seed, other: f.bytes(n as usize).to_vec(), records: f.rest().to_vec() }
    }

    fn write(&self) -> Vec<u8> {
        let n = (self.other.len() as u32).to_be_bytes();
        [&[self.old][..], &self.seed.to_be_bytes(), &n, &self.other, &self.records].concat()
    }
}

/// The run of input records, which is accepted.
fn of(records: &[u8]) -> io::Result<(Request, Geometry)> {
    run_of(Request::parse(records)).1.ok_or_else(|| io::Error::other("no accepted run"))
}

/// Counts the records of a list, those before the first flush, and the place of the first block behind that.
#[derive(Default)]
struct Places {
    records: usize,
    flushed: bool,
    finishing: Option<usize>,
}

impl Sink for Places {
    fn block(&mut self, _: u64, _: &[u8]) -> io::Result<()> {
        if self.flushed && self.finishing.is_none() {
            self.finishing = Some(self.records);
        }
        self.records += 1;
        Ok(())
    }

    fn zeros(&mut self, _: u64, _: u64) -> io::Result<()> {
        self.records += 1;
        Ok(())
    }

    fn flush(&mut self) -> io::Result<()> {
        self.flushed = true;
        self.records += 1;
        Ok(())
    }
}

/// How many records a run has, and how many stand before the finishing one.
fn places(q: &Request, g: &Geometry) -> io::Result<(usize, usize)> {
    let p = formatted(q, g, Places::default())?;
    Ok((p.records, p.finishing.ok_or_else(|| io::Error::other("no finishing record"))?))
}

/// The readers that are asked: the plain one, and the one that admits only profile disks, once the port has it.
fn readers() -> &'static [&'static str] {
    if op::LAST >= op::PROFILE {
        &["", "--profile"]
    } else {
        &[""]
    }
}

/// What is printed of a run's finished disk.
fn read_back(records: &[u8], reader: &str) -> io::Result<String> {
    let (q, g) = of(records)?;
    if reader == "--profile" && !broken_by_disk(&g).is_empty() {
        return Ok(format!("refused {OUTSIDE}\n"));
    }
    let mut out = Vec::new();
    let mut bare = q.clone();
    bare.options[op::PROFILE] = None;
    table(&mut out, Some(bare))?;
    sizing(&mut out, &q, &g)?;
    let id = hex(&q.id.unwrap_or_default());
    let parts = [&id[..8], &id[8..12], &id[12..16], &id[16..20], &id[20..]];
    Ok(String::from_utf8_lossy(&out).into_owned() + &format!("uuid {}\n", parts.join("-")))
}

/// A cut: so many whole records, and whether a part of the next one follows. The last is the whole list.
fn cuts(records: usize) -> impl Iterator<Item = (usize, bool)> {
    (0..records).flat_map(|n| [(n, false), (n, true)]).chain([(records, false)])
}

/// How many records a cut leaves applied: the first one is done with the second one's head.
fn applied((n, part): (usize, bool)) -> usize {
    if n == 1 && part {
        0
    } else {
        n
    }
}

/// Stretches of cuts with the same outcome.
fn stretches(out: Out, outcomes: impl Iterator<Item = ((usize, bool), String)>) -> io::Result<()> {
    let mut last: Option<(String, String, String)> = None;
    let name = |(n, part): (usize, bool)| format!("{n}{}", if part { "+" } else { "" });
    for (cut, outcome) in outcomes {
        match &mut last {
            Some((_, end, text)) if *text == outcome => *end = name(cut),
            _ => {
                if let Some((a, b, text)) = last.take() {
                    write!(out, "{a} to {b}\n{text}")?;
                }
                last = Some((name(cut), name(cut), outcome));
            }
        }
    }
    if let Some((a, b, text)) = last {
        write!(out, "{a} to {b}\n{text}")?;
    }
    Ok(())
}

impl Mode for Cuts {
    fn case(&self, r: &mut Random) -> Vec<u8> {
        let q = run(r);
        let old = (r.turn() % OLD.len() as u64) as u8;
        let other = if old == OTHER { other(r, q.device).encode() } else { Vec::new() };
        Case { old, seed: r.next(), other, records: q.encode() }.write()
    }

    fn answer(&self, case: &[u8], out: Out) -> io::Result<Told> {
        let c = Case::read(case);
        let (q, g) = of(&c.records)?;
        let (records, finishing) = places(&q, &g)?;
        for reader in readers() {
            let new = read_back(&c.records, reader)?;
            let old = match c.old {
                SAME => new.clone(),
                OTHER => read_back(&c.other, reader)?,
                _ => NOT_LEFT.into(),
            };
            let outcome = |cut| match applied(cut) {
                0 => old.clone(),
                n if n <= finishing => NOT_LEFT.into(),
                _ => new.clone(),
            };
            stretches(out, cuts(records).map(|cut| (cut, outcome(cut))))?;
        }
        Ok(Told::apart(OLD[usize::from(c.old)], 0))
    }

    fn ours(&self, case: &[u8]) -> Option<Vec<u8>> {
        let c = Case::read(case);
        let folder = PathBuf::from(format!("/dev/shm/cuts.{}", std::process::id()));
        fs::create_dir_all(&folder).ok()?;
        let out = tried(&c, &folder).unwrap_or_else(|e| format!("failed: {e}\n").into_bytes());
        let _ = fs::remove_dir_all(&folder);
        Some(out)
    }

    fn calls(&self, case: &[u8]) -> Vec<Told> {
        let c = Case::read(case);
        let Ok((q, g)) = of(&c.records) else { return Vec::new() };
        let Ok((records, finishing)) = places(&q, &g) else { return Vec::new() };
        let old = if c.old == SAME || c.old == OTHER { 0 } else { 30 };
        let told = |cut| match applied(cut) {
            0 => Told::apart("cut before the first record,", old),
            n if n <= finishing => Told::apart("cut before the finishing record,", 30),
            _ => Told::apart("cut behind the finishing record,", 0),
        };
        cuts(records).map(told).collect()
    }

    fn traits(&self, case: &[u8]) -> Vec<(&'static str, String)> {
        let c = Case::read(case);
        let Ok((q, g)) = of(&c.records) else { return Vec::new() };
        let long = g.prealloc_blocks() * g.bs() > 131_072;
        let within = broken_by_disk(&g).is_empty();
        vec![
            ("sizing", format!("{:?}", q.sizing())),
            ("head", if long { "above 128 KiB" } else { "to 128 KiB" }.into()),
            ("profile", if within { "within" } else { "outside" }.into()),
            ("sizes: block, sector, inode", format!("{} {} {}", g.blocksize, g.sectsize, g.inodesize)),
        ]
    }

    fn show_case(&self, case: &[u8]) -> String {
        let c = Case::read(case);
        format!("{} {} {:?}", OLD[usize::from(c.old)], hex(&c.records), Request::parse(&c.records))
    }

    fn show_answer(&self, answer: &[u8]) -> String {
        String::from_utf8_lossy(answer).into_owned()
    }
}

// ---- the port's side: the programs of target/bin

/// What a program prints on standard output and on standard error, given words and bytes.
fn asked(program: &str, words: &[&str], input: &[u8]) -> io::Result<(Vec<u8>, String)> {
    let path = Path::new("target/bin").join(program);
    let mut call = Command::new(path);
    call.args(words).stdin(Stdio::piped()).stdout(Stdio::piped()).stderr(Stdio::piped());
    let mut child = call.spawn()?;
    let mut to = child.stdin.take().unwrap();
    let bytes = input.to_vec();
    // A program may stop before it has read all.
    let writer = std::thread::spawn(move || drop(to.write_all(&bytes)));
    let out = child.wait_with_output()?;
    writer.join().map_err(|_| io::Error::other("no writer"))?;
    Ok((out.stdout, String::from_utf8_lossy(&out.stderr).into_owned()))
}

/// Where each record of a list ends.
fn ends(list: &[u8]) -> Vec<usize> {
    let mut f = Fields(list);
    let mut out = Vec::new();
    while !f.0.is_empty() {
        let mark: [u8; 2] = f.array();
        let length = if mark == *b"FL" { 0 } else { (f.u64(), f.u64()).1 };
        if mark == *b"WB" {
            f.bytes(length as usize);
        }
        out.push(list.len() - f.0.len());
    }
    out
}

/// Where each record of a list writes, at most 64 KiB at the start of it.
fn spans(list: &[u8]) -> Vec<(u64, usize)> {
    let mut f = Fields(list);
    let mut out = Vec::new();
    while !f.0.is_empty() {
        let mark: [u8; 2] = f.array();
        if mark != *b"FL" {
            let (at, length) = (f.u64(), f.u64());
            out.push((at, length.min(65536) as usize));
            if mark == *b"WB" {
                f.bytes(length as usize);
            }
        }
    }
    out
}

/// A device with the case's old contents.
fn old_disk(c: &Case, list: &[u8], path: &Path) -> io::Result<()> {
    let (q, g) = of(&c.records)?;
    let mut file = File::create(path)?;
    file.set_len(q.device)?;
    let name = path.to_str().ok_or_else(|| io::Error::other("no name"))?;
    match c.old {
        RANDOM => {
            let mut r = Random::new(c.seed);
            for (at, length) in spans(list) {
                file.seek(SeekFrom::Start(at))?;
                file.write_all(&r.bytes(length))?;
            }
            // Behind what is zeroed at the start, where a long head lies.
            file.seek(SeekFrom::Start(0))?;
            file.write_all(&r.bytes(262_144))?;
        }
        SAME => drop(asked("applylist", &[name], list)?),
        OTHER => drop(asked("applylist", &[name], &asked("writelist", &[], &c.other)?.0)?),
        UNFINISHED => drop(asked("applylist", &[name], &list[..ends(list)[places(&q, &g)?.1 - 1]])?),
        _ => {}
    }
    Ok(())
}

/// Applies what a cut leaves of the list. The first record alone is zeros at the start.
fn cut_disk(list: &[u8], ends: &[usize], cut: (usize, bool), r: &mut Random, path: &Path) -> io::Result<()> {
    let (n, part) = cut;
    if cut == (1, false) {
        let length = Fields(&list[10..]).u64();
        return OpenOptions::new().write(true).open(path)?.write_all(&vec![0; length as usize]);
    }
    let start = if n == 0 { 0 } else { ends[n - 1] };
    let more = if part { 1 + r.below((ends[n] - start - 1) as u64) as usize } else { 0 };
    let name = path.to_str().ok_or_else(|| io::Error::other("no name"))?;
    asked("applylist", &[name], &list[..start + more]).map(drop)
}

/// What is printed of a disk: the table and, where it is accepted, sizing and UUID.
fn printed(reader: &str, path: &Path) -> io::Result<String> {
    let name = path.to_str().ok_or_else(|| io::Error::other("no name"))?;
    let words: Vec<&str> = [reader, name].into_iter().filter(|w| !w.is_empty()).collect();
    let (out, said) = asked("readdisk", &words, &[])?;
    let text = String::from_utf8_lossy(&out).into_owned();
    if text.starts_with("refused ") {
        return Ok(text);
    }
    let line = |start: &str| said.lines().find(|l| l.starts_with(start)).unwrap_or_default().to_string();
    let id = line("uuid ").split(',').next().unwrap_or_default().to_string();
    Ok(format!("{text}{}\n{id}\n", line("log sizing")))
}

/// All cuts of a case.
fn tried(c: &Case, folder: &Path) -> io::Result<Vec<u8>> {
    let (old, disk) = (folder.join("old"), folder.join("disk"));
    let list = asked("writelist", &[], &c.records)?.0;
    old_disk(c, &list, &old)?;
    let ends = ends(&list);
    let mut r = Random::new(c.seed ^ 1);
    let mut outcomes: Vec<Vec<((usize, bool), String)>> = vec![Vec::new(); readers().len()];
    for cut in cuts(ends.len()) {
        let copied = Command::new("cp").arg("--sparse=always").args([&old, &disk]).status()?;
        if !copied.success() {
            return Err(io::Error::other("cp"));
        }
        cut_disk(&list, &ends, cut, &mut r, &disk)?;
        for (found, reader) in outcomes.iter_mut().zip(readers()) {
            found.push((cut, printed(reader, &disk)?));
        }
    }
    let mut out = Vec::new();
    for found in outcomes {
        stretches(&mut out, found.into_iter())?;
    }
    Ok(out)
}
