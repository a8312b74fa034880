//! The scan station profile: option code 13 for planlist (`profile`), writelist (`profile_list`) and `inquire length` (`profile_length`),
//! cases and answers being those of the programs; and `readdisk --profile` (`profile_disks`), through `oracle/reread`. The rules are the
//! model's (`../profile.rs`).

use std::io;

use mkfs_xfs::geometry::Geometry;

use super::lengths::print;
use super::plans::{run_of, table};
use super::reader::sizing;
use super::writes::list;
use super::{Mode, Out, Told};
use crate::disk::head_bytes;
use crate::profile::{broken_by_disk, broken_by_run, OUTSIDE};
use crate::random::Random;
use crate::request::{op, Request};
use crate::wishes;
use crate::words;

const MIB: u64 = 1 << 20;
const TIB: u64 = 1 << 40;

/// The most groups of a case, where it is accepted.
const GROUPS: u64 = 100;

const LETTERS: &[u8] = b"ABCDEFGHIJKLMNOPQRSTUVWXYZ0123456789-";

fn label(r: &mut Random, length: u64) -> Vec<u8> {
    (0..length).map(|_| r.pick(LETTERS)).collect()
}

/// So many groups, by their size or their number, or as 1 TiB each by default.
fn groups(r: &mut Random, q: &mut Request, n: u64) {
    let size = (64 * MIB / 4096 + 30 + r.below(9000)) / 4 * 4 * 4096;
    q.device = n.max(5) * size + r.below(4096);
    match r.below(3) {
        0 if n >= 5 => q.options[op::AGSIZE] = Some(size),
        1 if n > 32 => q.device = n * TIB - r.below(TIB / 2),
        _ => q.options[op::AGCOUNT] = Some(n),
    }
}

/// A request within the profile, its options given or left to default.
pub fn within(r: &mut Random) -> Request {
    let mut q = Request { logical: 512, physical: r.pick(&[512, 4096]), ..Request::default() };
    let n = if r.one_in(2) { r.pick(&[2, 3, 63, 64]) } else { 2 + r.below(63) };
    if r.one_in(3) {
        q.device = 300 * MIB + r.below(64 << 30);
    } else {
        groups(r, &mut q, n);
    }
    q.options[op::BLOCK] = r.pick(&[None, Some(4096)]);
    q.options[op::SECTOR] = r.pick(&[None, Some(512), Some(4096)]);
    q.options[op::INODE] = r.pick(&[None, Some(512)]);
    q.options[op::FEATURES] = r.pick(&[None, Some(127)]);
    q.options[op::SIZING] = r.pick(&[None, None, Some(0), Some(1)]);
    let length = 1 + r.below(12);
    q.label = Some(label(r, length));
    q
}

/// Breaks one rule.
fn break_rule(r: &mut Random, q: &mut Request, rule: u64) {
    match rule {
        0 => {
            q.options[op::BLOCK] = Some(r.pick(&[1024, 2048, 8192, 16384]));
            q.options[op::SECTOR] = r.pick(&[None, Some(512)]);
        }
        1 if r.one_in(2) => q.options[op::SECTOR] = Some(r.pick(&[1024, 2048])),
        1 => {
            q.physical = r.pick(&[1024, 2048]);
            q.logical = r.pick(&[512, q.physical]);
            q.options[op::SECTOR] = None;
        }
        2 => q.options[op::INODE] = Some(r.pick(&[1024, 2048])),
        3 => {
            // Without finobt there is no inobtcount.
            let bits = if r.one_in(2) { 127 ^ 1 << r.below(7) } else { r.below(127) };
            q.options[op::FEATURES] = Some(if bits & 1 == 0 { bits & !8 } else { bits });
        }
        4 => {
            (q.options[op::AGSIZE], q.options[op::AGCOUNT]) = (None, None);
            let n = if r.one_in(2) { 65 } else { 65 + r.below(GROUPS - 64) };
            groups(r, q, n);
        }
        5 => q.label = r.pick(&[None, Some(0), Some(13)]).map(|n| label(r, n)),
        _ => one_byte(r, q),
    }
}

/// A label with any byte in any place: all of them one after the other.
fn one_byte(r: &mut Random, q: &mut Request) {
    let turn = r.turn();
    let (place, byte) = (turn / 256 % 12, (turn % 256) as u8);
    let length = place + 1 + if r.one_in(2) { 0 } else { r.below(12 - place) };
    let mut text = label(r, length);
    text[place as usize] = byte;
    q.label = Some(text);
}

/// A request that breaks no rule, mostly one, or several; or any request.
fn request(r: &mut Random) -> Request {
    loop {
        let mut q = within(r);
        match r.below(16) {
            0 | 1 => {}
            2..=6 => one_byte(r, &mut q),
            7..=12 => {
                let rule = r.below(6);
                break_rule(r, &mut q, rule);
            }
            13 => (0..2 + r.below(3)).for_each(|_| {
                let rule = r.below(7);
                break_rule(r, &mut q, rule);
            }),
            14 => q.device = r.pick(&[299 * MIB, 300 * MIB, 64 * TIB, 65 * TIB]),
            _ => q = wishes::small(r, 2, 60),
        }
        if r.one_in(16) {
            wishes::with_run(r, &mut q);
        }
        if run_of(Some(q.clone())).1.is_none_or(|(_, g)| g.agcount <= GROUPS) {
            return q;
        }
    }
}

/// The request's records under the profile: mostly; without the code, with 0, another value or two of them too.
fn records(r: &mut Random) -> Vec<u8> {
    let mut q = request(r);
    q.options[op::PROFILE] = match r.below(32) {
        0 | 1 => None,
        2 | 3 => Some(0),
        4 => Some(2 + r.below(300)),
        5 => Some(r.wide()),
        _ => Some(1),
    };
    match r.below(32) {
        0 => [q.encode(), b"OP\x0d\0\0\0\0\0\0\0".to_vec(), vec![r.below(2) as u8]].concat(),
        1 => wishes::records(r, &q),
        _ => q.encode(),
    }
}

/// What the broken rules are counted under.
fn kind(broken: &[&'static str]) -> &'static str {
    match broken {
        [] => "within the profile,",
        [one] => one,
        _ => "several rules,",
    }
}

/// A run is counted by the rules that it breaks, whatever its number.
fn kind_of(q: &Option<Request>) -> &'static str {
    let Some(q) = q else { return "malformed," };
    if q.options[op::PROFILE] != Some(1) {
        return "not under the profile,";
    }
    let mut bare = q.clone();
    bare.options[op::PROFILE] = None;
    run_of(Some(bare)).1.map_or("refused anyway,", |(q, g)| kind(&broken_by_run(&q, &g)))
}

/// A program that reads records of runs under the profile.
pub struct Profiles {
    print: fn(Out, Option<Request>) -> io::Result<Told>,
    words: &'static [&'static str],
}

impl Profiles {
    pub fn tables() -> Profiles {
        Profiles { print: |out, q| table(out, q), words: &[] }
    }

    pub fn lists() -> Profiles {
        Profiles { print: |out, q| list(out, q), words: &[] }
    }

    pub fn lengths() -> Profiles {
        Profiles { print: |out, q| print(out, q), words: &["length"] }
    }
}

impl Mode for Profiles {
    fn case(&self, r: &mut Random) -> Vec<u8> {
        loop {
            // An empty input has another meaning for planlist.
            let case = records(r);
            if !case.is_empty() && run_of(Request::parse_profiled(&case)).1.is_none_or(|(_, g)| g.agcount <= GROUPS) {
                return case;
            }
        }
    }

    fn answer(&self, case: &[u8], out: Out) -> io::Result<Told> {
        let q = Request::parse_profiled(case);
        let told = (self.print)(out, q.clone())?;
        Ok(Told { kind: kind_of(&q), ..told })
    }

    fn run<'a>(&self, case: &'a [u8]) -> (Vec<String>, &'a [u8]) {
        (self.words.iter().map(|w| w.to_string()).collect(), case)
    }

    fn show_case(&self, case: &[u8]) -> String {
        format!("{} {:?}", super::hex(case), Request::parse_profiled(case))
    }

    fn show_answer(&self, answer: &[u8]) -> String {
        String::from_utf8_lossy(&answer[..answer.len().min(1000)]).into_owned()
    }
}

/// Disks of accepted runs, read by `readdisk --profile`, sometimes without the switch. A case is the words for `oracle/reread` and the input
/// records; with `--flip OFFSET` a byte of the disk is changed before it is read, in a head or the log's first block, or where nobody reads.
pub struct Disks;

/// An offset in what the reader reads of group `k`, or of the log; the superblock's own fields aren't changed.
fn read_at(r: &mut Random, g: &Geometry) -> u64 {
    let k = r.below(g.agcount + 1);
    if k == g.agcount {
        return g.agb_to_byte(g.logagno, g.log_agbno) + r.below(g.bs());
    }
    let sector = u64::from(g.sectsize);
    g.agb_to_byte(k, 0) + sector + r.below(head_bytes(g) as u64 - sector)
}

/// Whether a byte is read: it is in a head, or in the log's first block.
fn is_read(g: &Geometry, at: u64) -> bool {
    let log = g.agb_to_byte(g.logagno, g.log_agbno);
    at % (g.agsize * g.bs()) < head_bytes(g) as u64 || (log..log + g.bs()).contains(&at)
}

impl Mode for Disks {
    fn case(&self, r: &mut Random) -> Vec<u8> {
        loop {
            let q = request(r);
            let (_, Some((_, g))) = run_of(Some(q.clone())) else { continue };
            let mut given: Vec<String> = Vec::new();
            if r.one_in(6) {
                let at = if r.one_in(4) { g.bs() * (g.agsize - 1) } else { read_at(r, &g) };
                given.extend(["--flip".into(), at.to_string()]);
            }
            if !r.one_in(8) {
                given.push("--profile".into());
            }
            if i64::try_from(q.device).is_ok() {
                return words::case(&given, &q.encode());
            }
        }
    }

    fn answer(&self, case: &[u8], out: Out) -> io::Result<Told> {
        let (given, records) = words::parts(case);
        let q = Request::parse(records);
        let (_, Some((request, g))) = run_of(q.clone()) else { return Err(io::Error::other("no accepted run")) };
        let given: Vec<&str> = given.split_whitespace().collect();
        let only = given.contains(&"--profile");
        let flipped = given.iter().position(|w| *w == "--flip").and_then(|i| given[i + 1].parse().ok());
        let broken = broken_by_disk(&g);
        let number = match flipped {
            Some(at) if is_read(&g, at) => 30,
            _ if only && !broken.is_empty() => OUTSIDE,
            _ => 0,
        };
        let kind = if only { kind(&broken) } else { "without the switch," };
        if number != 0 {
            writeln!(out, "refused {number}")?;
        } else {
            table(out, q)?;
            sizing(out, &request, &g)?;
        }
        Ok(Told::apart(kind, number))
    }

    fn run<'a>(&self, case: &'a [u8]) -> (Vec<String>, &'a [u8]) {
        let (given, records) = words::parts(case);
        (given.split_whitespace().map(String::from).collect(), records)
    }

    fn show_case(&self, case: &[u8]) -> String {
        let (given, records) = words::parts(case);
        format!("{given} {} {:?}", super::hex(records), Request::parse(records))
    }

    fn show_answer(&self, answer: &[u8]) -> String {
        String::from_utf8_lossy(answer).into_owned()
    }
}
