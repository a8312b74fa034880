//! The reader on disks by mkfs.xfs. A case is the input records of an accepted run with a UUID; mkfs.xfs gets the same
//! options, and the log's size where the sizing is roomy. An answer is the number of group 0's head, then those of the
//! other heads and of the log's first block, read with group 0's head, or, where that is refused, with the one that `format`
//! leaves. Which bytes are to be accepted is known from what `format` leaves, or the model for roomy runs.

use std::fs::{self, File};
use std::io;
use std::os::unix::fs::FileExt;
use std::process::Command;

use super::reader::{disk, run};
use super::{roomy, Mode, Out, Told};
use crate::disk::{head_bytes, named, Disk};
use crate::model::Sizing;
use crate::port::reader;
use crate::random::Random;
use crate::request::{op, Request};

pub struct Made {
    run: fn(&mut Random) -> Vec<u8>,
}

const GROUPS: u64 = 12;

/// Heads and log block of a disk by mkfs.xfs, where `format` puts them; `None` where it refuses the options.
fn made(d: &Disk) -> io::Result<Option<(Vec<Vec<u8>>, Vec<u8>)>> {
    let path = format!("/dev/shm/zechurqi.{}", std::process::id());
    let (q, g, f) = (&d.request, &d.geometry, d.geometry.features);
    File::create(&path)?.set_len(q.device)?;
    let on = u8::from;
    let id = super::hex(&q.id.unwrap_or_default());
    let id = [&id[..8], &id[8..12], &id[12..16], &id[16..20], &id[20..]].join("-");
    let features = format!(
        "crc=1,finobt={},rmapbt={},reflink={},inobtcount={},bigtime={},uuid={id}",
        on(f.finobt),
        on(f.rmapbt),
        on(f.reflink),
        on(f.inobtcount),
        on(f.bigtime)
    );
    let inodes = format!("size={},sparse={},nrext64={},maxpct={}", g.inodesize, on(f.sparse), on(f.nrext64), g.imaxpct);
    let data = format!("agsize={},size={}", g.agsize * g.bs(), g.dblocks * g.bs());
    let sizes = [format!("size={}", g.blocksize), format!("size={}", g.sectsize)];
    let log = format!("size={}", g.logblocks * g.bs());
    let log = if q.sizing() == Sizing::Roomy { vec!["-l", &log] } else { vec![] };
    let done = Command::new("mkfs.xfs")
        .args(["-q", "-f", "-K", "-m", &features, "-i", &inodes, "-d", &data, "-b", &sizes[0], "-s", &sizes[1]])
        .args(log)
        .arg(&path)
        .output()?;
    let file = File::open(&path)?;
    fs::remove_file(&path)?;
    if !done.status.success() {
        return Ok(None);
    }
    let read = |at, n| -> io::Result<Vec<u8>> {
        let mut bytes = vec![0; n];
        file.read_exact_at(&mut bytes, at)?;
        Ok(bytes)
    };
    let heads: io::Result<Vec<_>> = (0..g.agcount).map(|k| read(g.agb_to_byte(k, 0), head_bytes(g))).collect();
    Ok(Some((heads?, read(g.agb_to_byte(g.logagno, g.log_agbno), g.blocksize as usize)?)))
}

/// What the run leaves that group 0's head names, in either sizing; `None` where it is refused.
fn left(head: &[u8]) -> Option<Disk> {
    let (q, g) = named(head)?;
    let with = |sizing| {
        let mut q = q.clone();
        q.options[op::SIZING] = sizing;
        disk(&q.encode()).ok().filter(|d| d.heads[0] == head)
    };
    (head.len() == head_bytes(&g)).then(|| with(None).or_else(|| with(Some(1))))?
}

/// Which parts of the heads and of the log block aren't the disk's, in words.
fn differing(d: &Disk, heads: &[Vec<u8>], log: &[u8]) -> String {
    let mut names: Vec<&str> = Vec::new();
    for (name, range) in d.parts() {
        let other = |k: usize| d.heads[k][range.clone()] != heads[k][range.clone()];
        match ((0..heads.len()).filter(|&k| other(k)).count(), other(0)) {
            (0, _) => {}
            (1, true) => names.extend([name, "(group 0)"]),
            (n, _) if n == heads.len() => names.extend([name, "(every group)"]),
            _ => names.extend([name, "(some groups)"]),
        }
    }
    if d.log != log {
        names.push("log block");
    }
    names.join(" ")
}

impl Made {
    pub fn new() -> Made {
        Made { run: |r| run(r, GROUPS) }
    }

    /// The runs are roomy ones, most of them crowded.
    pub fn roomy() -> Made {
        Made { run: roomy::run }
    }
}

impl Mode for Made {
    fn case(&self, r: &mut Random) -> Vec<u8> {
        loop {
            let mut q = Request::parse(&(self.run)(r)).unwrap();
            q.id = Some(r.bytes(16).try_into().unwrap());
            q.label = None;
            q.options[op::SIZE] = None;
            if q.device < 1 << 40 && disk(&q.encode()).is_ok() {
                return q.encode();
            }
        }
    }

    fn answer(&self, case: &[u8], out: Out) -> io::Result<Told> {
        let own = disk(case)?;
        let Some((heads, log)) = made(&own)? else {
            writeln!(out, "mkfs.xfs refuses")?;
            return Ok(Told::apart("mkfs.xfs refuses the options", 0));
        };
        let first = left(&heads[0]);
        let number = |same: bool| if same { 0 } else { 30 };
        let group0 = number(first.is_some());
        let d = first.unwrap_or(own);
        let others: Vec<u32> = d.heads.iter().zip(&heads).skip(1).map(|(a, b)| number(a == b)).collect();
        writeln!(out, "{group0} {others:?} {}", number(d.log == log))?;
        let differing = differing(&d, &heads, &log);
        let kind = if differing.is_empty() { "the same bytes:".into() } else { format!("other bytes in {differing}:") };
        Ok(Told::apart(kind.leak(), group0))
    }

    fn ours(&self, case: &[u8]) -> Option<Vec<u8>> {
        let d = disk(case).ok()?;
        let Some((heads, log)) = made(&d).ok()? else {
            return Some(b"mkfs.xfs refuses\n".to_vec());
        };
        let number = *reader::group0(&heads[0])?.first()?;
        let first = if number == 0 { &heads[0] } else { &d.heads[0] };
        let others: Option<Vec<u32>> =
            heads.iter().zip(0..).skip(1).map(|(head, k)| reader::group(first, k, head)).collect();
        Some(format!("{number} {:?} {}\n", others?, reader::log(first, &log)?).into_bytes())
    }

    fn show_case(&self, case: &[u8]) -> String {
        format!("{} {:?}", super::hex(case), Request::parse(case))
    }

    fn show_answer(&self, answer: &[u8]) -> String {
        String::from_utf8_lossy(answer).into_owned()
    }
}
