//! The planner, and program planlist.

use std::io;
use std::panic::catch_unwind;

use mkfs_xfs::format::{plan_ag, AgPlan};
use mkfs_xfs::geometry::{Geometry, Timestamp};
use mkfs_xfs::structs::btree::{AllocRec, RmapRec};

use super::geometry::step;
use super::{Mode, Out, Told};
use crate::frames::Fields;
use crate::numbers::{number_of, UNNUMBERED};
use crate::port::{self, Asked, Reply};
use crate::profile::{profile, OUTSIDE};
use crate::random::Random;
use crate::request::{Request, MALFORMED};
use crate::wishes;

/// Time out of range.
pub const BAD_TIME: u32 = 26;

/// The Rust's plan, or the number of its refusal.
pub fn plan(g: &Geometry, agno: u64) -> Result<AgPlan, u32> {
    match catch_unwind(|| plan_ag(g, agno)) {
        Ok(done) => done.map_err(|e| number_of(&e)),
        Err(_) => Err(UNNUMBERED),
    }
}

/// Whether the scope accepts the time.
pub fn time_fits(t: Timestamp, bigtime: bool) -> bool {
    if t.nsecs >= 1_000_000_000 {
        return false;
    }
    if bigtime {
        let stored = (i128::from(t.secs) + (1 << 31)) * 1_000_000_000 + i128::from(t.nsecs);
        (0..1 << 64).contains(&stored)
    } else {
        i32::try_from(t.secs).is_ok()
    }
}

/// The geometry of an accepted run, or the number that refuses it.
pub fn accepted(case: &[u8]) -> (Told, Option<(Request, Geometry)>) {
    run_of(Request::parse(case))
}

/// The same of a request, which is none where the records are malformed. 25 is the log group's alone.
pub fn run_of(q: Option<Request>) -> (Told, Option<(Request, Geometry)>) {
    let Some(q) = q else {
        return (Told::apart("", MALFORMED), None);
    };
    let (told, answer) = step(&q);
    let Some(g) = answer else {
        return (told, None);
    };
    if let Err(number) = plan(&g, g.logagno) {
        return (Told { number, ..told }, None);
    }
    if !time_fits(q.time(), g.features.bigtime) {
        return (Told { number: BAD_TIME, asked: false, ..told }, None);
    }
    if !profile(&q, &g) {
        return (Told { number: OUTSIDE, asked: false, ..told }, None);
    }
    (told, Some((q, g)))
}

/// A request of at most `groups` groups, if it is accepted.
pub fn few(r: &mut Random, groups: u64) -> Request {
    loop {
        let changes = r.below(3);
        let mut q = wishes::small(r, changes, groups);
        wishes::with_run(r, &mut q);
        if step(&q).1.is_none_or(|g| g.agcount <= groups) {
            return q;
        }
    }
}

/// `plan_ag` of group 0, the log group, the last and one other. A case is a number (8 bytes) that chooses the other
/// group, and the input records. An answer is a line with the geometry step's number, then, if it is 0, a line for
/// each group: the number, and after 0 agno, length, the free records, the free list, the rmap records and the
/// chunk, each with its count before it, freeblks and longest.
pub struct Plans;

/// The plan in the order of its fields; `freeblks` and `longest` are the side's own.
fn plan_line(out: Out, p: &AgPlan, freeblks: u64, longest: u64) -> io::Result<()> {
    write!(out, "0 {} {} {}", p.agno, p.length, p.free.len())?;
    for r in &p.free {
        write!(out, " {} {}", r.start, r.count)?;
    }
    write!(out, " {}", p.agfl.len())?;
    for b in &p.agfl {
        write!(out, " {b}")?;
    }
    write!(out, " {}", p.rmap.len())?;
    for r in &p.rmap {
        write!(out, " {} {} {}", r.start, r.count, r.owner)?;
    }
    match p.chunk {
        Some(c) => write!(out, " 1 {c}")?,
        None => write!(out, " 0")?,
    }
    writeln!(out, " {freeblks} {longest}")
}

/// How many numbers the port's program gives of a plan: those outside the lists, and 64 places of each list.
const PLAN: usize = FREE + 128 + 64 + 192;
const FREE: usize = 10;
const AGFL: usize = FREE + 128;
const RMAP: usize = AGFL + 64;

/// These numbers of a plan, or of its refusal.
fn plan_numbers(plan: Result<AgPlan, u32>) -> Vec<u64> {
    let p = match plan {
        Ok(p) => p,
        Err(number) => {
            let mut out = vec![number.into()];
            out.resize(PLAN, 0);
            return out;
        }
    };
    let lists = [p.free.len(), p.agfl.len(), p.rmap.len()].map(|n| n as u64);
    let mut out = vec![0, p.agno, p.length, lists[0], lists[1], lists[2]];
    out.extend([p.chunk.is_some().into(), p.chunk.unwrap_or(0), p.freeblks(), p.longest()]);
    out.extend(p.free.iter().flat_map(|r| [r.start, r.count].map(u64::from)));
    out.resize(AGFL, 0);
    out.extend(p.agfl.iter().map(|&b| u64::from(b)));
    out.resize(RMAP, 0);
    out.extend(p.rmap.iter().flat_map(|r| [r.start.into(), r.count.into(), r.owner]));
    out.resize(PLAN, 0);
    out
}

/// The plan of these numbers with its `freeblks` and `longest`; none where it is refused.
fn plan_of(n: &[u64]) -> Option<(AgPlan, u64, u64)> {
    if n.len() < PLAN || n[0] != 0 {
        return None;
    }
    let listed = |count: u64, width: usize, from: usize| n[from..].chunks(width).take(count.min(64) as usize);
    let plan = AgPlan {
        agno: n[1],
        length: n[2],
        free: listed(n[3], 2, FREE).map(|r| AllocRec { start: r[0] as u32, count: r[1] as u32 }).collect(),
        agfl: listed(n[4], 1, AGFL).map(|r| r[0] as u32).collect(),
        rmap: listed(n[5], 3, RMAP).map(|r| RmapRec { start: r[0] as u32, count: r[1] as u32, owner: r[2] }).collect(),
        chunk: (n[6] == 1).then_some(n[7]),
    };
    Some((plan, n[8], n[9]))
}

/// The groups that are planned.
fn groups(agcount: u64, logagno: u64, choice: u64) -> [u64; 4] {
    [0, logagno, agcount - 1, choice % agcount]
}

impl Mode for Plans {
    fn case(&self, r: &mut Random) -> Vec<u8> {
        let changes = r.below(3);
        let q = if r.one_in(2) { wishes::request(r, changes) } else { wishes::small(r, changes, 1000) };
        let input = if r.one_in(8) { wishes::records(r, &q) } else { q.encode() };
        [&r.next().to_be_bytes()[..], &input].concat()
    }

    fn answer(&self, case: &[u8], out: Out) -> io::Result<Told> {
        let mut f = Fields(case);
        let choice = f.u64();
        let Some(q) = Request::parse(f.rest()) else {
            writeln!(out, "{MALFORMED}")?;
            return Ok(Told::apart("", MALFORMED));
        };
        let (mut told, answer) = step(&q);
        writeln!(out, "{}", told.number)?;
        let Some(g) = answer else {
            return Ok(told);
        };
        for agno in groups(g.agcount, g.logagno, choice) {
            match plan(&g, agno) {
                Ok(p) => plan_line(out, &p, p.freeblks(), p.longest())?,
                Err(number) => {
                    writeln!(out, "{number}")?;
                    told.number = number;
                }
            }
        }
        Ok(told)
    }

    fn asked(&self, case: &[u8]) -> Option<Asked> {
        let (choice, records) = case.split_at_checked(8)?;
        let (params, body) = (choice.to_vec(), records.to_vec());
        Some(Asked { program: port::PLANS, function: port::plan::PLANS, params, body })
    }

    fn replied(&self, _case: &[u8], reply: Reply) -> Vec<u8> {
        let mut out = format!("{}\n", reply.number).into_bytes();
        for numbers in reply.numbers().get(2..).unwrap_or_default().chunks(PLAN) {
            match plan_of(numbers) {
                Some((p, freeblks, longest)) => {
                    plan_line(&mut out, &p, freeblks, longest).expect("a vector takes everything")
                }
                None => out.extend(format!("{}\n", numbers[0]).bytes()),
            }
        }
        out
    }

    fn replayed_answer(&self, case: &[u8], _answer: &[u8]) -> Vec<u8> {
        let mut f = Fields(case);
        let choice = f.u64();
        let Some(q) = Request::parse(f.rest()) else {
            return port::line(MALFORMED, 0, &[]);
        };
        let (told, answer) = step(&q);
        let Some(g) = answer else {
            return port::line(told.number, 0, &[]);
        };
        let mut row = vec![g.agcount, g.logagno];
        groups(g.agcount, g.logagno, choice).iter().for_each(|&agno| row.extend(plan_numbers(plan(&g, agno))));
        port::line(0, 0, &port::row(&row))
    }

    fn show_case(&self, case: &[u8]) -> String {
        format!("{} {:?}", super::hex(case), case.get(8..).map(Request::parse))
    }

    fn show_answer(&self, answer: &[u8]) -> String {
        String::from_utf8_lossy(answer).into_owned()
    }
}

/// Program planlist: a case is its standard input, an answer its standard output.
pub struct Planlist;

/// The most groups of a case, so that each is answered quickly.
const GROUPS: u64 = 300;

/// The first and the last line of a table.
fn header(out: Out) -> io::Result<()> {
    writeln!(out, "group length log list chunk free longest")
}

fn total(out: Out, sums: [u64; 5]) -> io::Result<()> {
    writeln!(out, "total {} {} {} {} {}", sums[0], sums[1], sums[2], sums[3], sums[4])
}

fn list(out: Out, g: &Geometry) -> io::Result<()> {
    header(out)?;
    let mut sums = [0u64; 5];
    for agno in 0..g.agcount {
        let p = plan(g, agno).map_err(|n| io::Error::other(format!("group {agno} is refused with {n}")))?;
        let log = if agno == g.logagno { g.logblocks } else { 0 };
        let chunk = if p.chunk.is_some() { g.chunk_blocks() } else { 0 };
        let row = [p.length, log, p.agfl.len() as u64, chunk, p.freeblks()];
        writeln!(out, "{agno} {} {} {} {} {} {}", row[0], row[1], row[2], row[3], row[4], p.longest())?;
        for (sum, value) in sums.iter_mut().zip(row) {
            *sum += value;
        }
    }
    total(out, sums)
}

/// What the program prints of a request, which is none where its records are malformed.
pub fn table(out: Out, q: Option<Request>) -> io::Result<Told> {
    let (told, run) = run_of(q);
    match run {
        Some((_, g)) => list(out, &g)?,
        None => writeln!(out, "refused {}", told.number)?,
    }
    Ok(told)
}

impl Mode for Planlist {
    fn case(&self, r: &mut Random) -> Vec<u8> {
        let q = few(r, GROUPS);
        wishes::records(r, &q)
    }

    // An empty input means no disk: a table without rows, which the Rust isn't asked for.
    fn answer(&self, case: &[u8], out: Out) -> io::Result<Told> {
        if case.is_empty() {
            header(out)?;
            total(out, [0; 5])?;
            return Ok(Told::apart("empty", 0));
        }
        table(out, Request::parse(case))
    }

    fn show_case(&self, case: &[u8]) -> String {
        format!("{} {:?}", super::hex(case), Request::parse(case))
    }

    fn show_answer(&self, answer: &[u8]) -> String {
        String::from_utf8_lossy(answer).into_owned()
    }
}
