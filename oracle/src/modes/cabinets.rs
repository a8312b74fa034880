//! Program `inquire cabinet`: a case is the area's word (`../words.rs`), then the input records of each disk with their length (2 bytes) before
//! them; an answer is the standard output, by the model (`../cabinets.rs`). The records are handed over in files.

use std::fs;
use std::io;
use std::path::PathBuf;

use super::lengths::records;
use super::{Mode, Out, Told};
use crate::cabinets::{cabinet, Answer, MOST_DISKS};
use crate::frames::Fields;
use crate::lengths::{length, worked_out};
use crate::modes::plans::accepted;
use crate::random::Random;
use crate::request::Request;
use crate::wishes;
use crate::words;

pub struct Cabinets {
    /// Where the files are; it is made with the first of them.
    folder: PathBuf,
}

impl Cabinets {
    pub fn new() -> Cabinets {
        Cabinets { folder: std::env::temp_dir().join(format!("cabinet.{}", std::process::id())) }
    }
}

impl Drop for Cabinets {
    fn drop(&mut self) {
        let _ = fs::remove_dir_all(&self.folder);
    }
}

/// The area's word and each disk's records.
fn parts(case: &[u8]) -> (String, Vec<&[u8]>) {
    let (area, rest) = words::parts(case);
    let (mut f, mut disks) = (Fields(rest), Vec::new());
    while !f.0.is_empty() {
        let n = usize::from(f.u16());
        disks.push(f.bytes(n));
    }
    (area, disks)
}

/// Disks whose lists are about as long as each other, or of any lengths; one is sometimes there twice.
fn disks(r: &mut Random) -> Vec<Vec<u8>> {
    let n = match r.below(24) {
        0 => 0,
        1 => MOST_DISKS as u64,
        2 | 3 => MOST_DISKS as u64 + 1 + r.below(4),
        _ => 1 + r.below(MOST_DISKS as u64),
    };
    let alike = r.one_in(2);
    let mut found: Vec<Vec<u8>> = Vec::new();
    for i in 0..n {
        found.push(match r.below(8) {
            0 if i > 0 => found[r.below(i) as usize].clone(),
            1..=4 if alike => wishes::small(r, 0, 20).encode(),
            _ => records(r),
        });
    }
    found
}

/// A list as it is worked out, for the choice of an area.
fn list(records: &[u8]) -> Answer {
    let (told, run) = accepted(records);
    run.map_or(Err(told.number), |(_, g)| Ok(worked_out(&g).bytes))
}

/// An area: what some of the lists need, or a byte more or less.
fn area(r: &mut Random, lists: &[u64]) -> u64 {
    let first = r.below(lists.len() as u64 + 1) as usize;
    let some = match r.below(8) {
        0 => lists.iter().sum(),
        1 => lists[..first].iter().sum(),
        2 => lists.iter().copied().min().unwrap_or(0),
        3 => lists.iter().copied().max().unwrap_or(0),
        4 => return r.pick(&[0, 1, 1 << 20, 1 << 60, u64::MAX]),
        5 => return r.wide(),
        _ => lists.iter().copied().filter(|_| r.one_in(2)).sum(),
    };
    match r.below(8) {
        0..=2 => some,
        3 | 4 => some.saturating_sub(1),
        5 => some + 1,
        // In words with a letter.
        6 => some.next_multiple_of(1024),
        _ => some / 1024 * 1024,
    }
}

impl Mode for Cabinets {
    fn case(&self, r: &mut Random) -> Vec<u8> {
        let disks = disks(r);
        let lists: Vec<u64> = disks.iter().flat_map(|records| list(records)).collect();
        let area = area(r, &lists);
        let word = if r.one_in(50) { words::no_size(r) } else { words::size_word(r, area) };
        let mut case = words::case(&[word], &[]);
        for records in disks {
            case.extend((records.len() as u16).to_be_bytes());
            case.extend(records);
        }
        case
    }

    fn answer(&self, case: &[u8], out: Out) -> io::Result<Told> {
        let (area, disks) = parts(case);
        let Some(area) = words::size(&area) else {
            return Ok(Told::apart("no such words, nothing printed,", 0));
        };
        let mut lists = Vec::new();
        for records in disks {
            let (told, found) = length(Request::parse(records))?;
            lists.push(found.map(|l| l.bytes).ok_or(told.number));
        }
        match cabinet(area, &lists) {
            Ok((answers, left)) => {
                for answer in answers {
                    match answer {
                        Ok(bytes) => writeln!(out, "admitted {bytes}")?,
                        Err(number) => writeln!(out, "refused {number}")?,
                    }
                }
                writeln!(out, "left {left}")?;
                Ok(Told::apart("cabinet,", 0))
            }
            Err(number) => {
                writeln!(out, "refused {number}")?;
                Ok(Told::apart("cabinet,", number))
            }
        }
    }

    /// The files are written anew for each case. Standard input isn't read.
    fn run<'a>(&self, case: &'a [u8]) -> (Vec<String>, &'a [u8]) {
        let (area, disks) = parts(case);
        let mut given = words::asked("cabinet", &area);
        fs::create_dir_all(&self.folder).expect("a folder for the files");
        for (i, records) in disks.into_iter().enumerate() {
            let path = self.folder.join(i.to_string());
            fs::write(&path, records).expect("a file with records");
            given.push(path.to_string_lossy().into_owned());
        }
        (given, &[])
    }

    fn calls(&self, case: &[u8]) -> Vec<Told> {
        let (area, disks) = parts(case);
        let lists: Vec<Answer> = disks.into_iter().map(list).collect();
        let Some(Ok((answers, left))) = words::size(&area).map(|area| cabinet(area, &lists)) else { return Vec::new() };
        let full = Told::apart(if left == 0 { "nothing left," } else { "some left," }, 0);
        answers.into_iter().map(|a| Told::apart("disk,", a.err().unwrap_or(0))).chain([full]).collect()
    }

    fn traits(&self, case: &[u8]) -> Vec<(&'static str, String)> {
        vec![("disks", parts(case).1.len().to_string())]
    }

    fn show_case(&self, case: &[u8]) -> String {
        let (area, disks) = parts(case);
        let disks: Vec<_> = disks.iter().map(|d| format!("{} {:?}", super::hex(d), Request::parse(d))).collect();
        format!("{area} {}", disks.join(" | "))
    }

    fn show_answer(&self, answer: &[u8]) -> String {
        String::from_utf8_lossy(answer).into_owned()
    }
}
