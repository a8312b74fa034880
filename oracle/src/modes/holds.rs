//! Program `inquire holds`: runs held back and given back. A case is the words after `holds` and the input records (`../words.rs`); an answer is
//! the standard output, by the model (`../holds.rs`).

use std::io;

use super::geometry::step;
use super::{Mode, Out, Told};
use crate::holds::{Group, State};
use crate::random::Random;
use crate::request::{op, Request, MALFORMED};
use crate::runs::{self, Call};
use crate::words::{self, number, parts};

pub struct Holds;

/// Most calls of a case.
const CALLS: u64 = 48;

fn call(word: &str) -> Option<Call> {
    let [name, start, blocks] = word.split(':').collect::<Vec<_>>().try_into().ok()?;
    let run = (number(start)?, number(blocks)?);
    match name {
        "hold" => Some(Call::Hold(run)),
        "release" => Some(Call::Release(run)),
        _ => None,
    }
}

/// The group and the calls, if the words are as they should be.
fn read(words: &str) -> Option<(u64, Vec<Call>)> {
    let mut words = words.split_whitespace();
    let group = number(words.next()?)?;
    Some((group, words.map(call).collect::<Option<_>>()?))
}

fn word(call: Call) -> String {
    match call {
        Call::Hold((start, blocks)) => format!("hold:{start}:{blocks}"),
        Call::Release((start, blocks)) => format!("release:{start}:{blocks}"),
    }
}

/// Words that are no call.
const NO_CALLS: [&str; 13] = [
    "hold",
    "hold:1",
    "hold:1:",
    "hold::1",
    "hold:1:2:3",
    "held:1:2",
    "Hold:30:2",
    "hold:-1:2",
    "hold:30:x",
    "hold:18446744073709551616:1",
    "release:30:18446744073709551616",
    "release",
    "30:2",
];

/// Calls, each made from the state that those before it leave; seldom none.
fn calls(r: &mut Random, group: &Group) -> Vec<String> {
    let (mut state, taste) = (group.start(), runs::taste(r));
    let mut words = Vec::new();
    for _ in 0..r.below(CALLS + 1) {
        let call = runs::call(r, &state, taste);
        let _ = call.make(&mut state);
        words.push(word(call));
    }
    words
}

/// The geometry's group, or the number that refuses records, geometry, group or plan.
pub fn asked(records: &[u8], group: u64) -> Result<Group, u32> {
    let q = Request::parse(records).ok_or(MALFORMED)?;
    let (told, geometry) = step(&q);
    Group::of(&geometry.ok_or(told.number)?, group)
}

/// The lines of the calls and of what they leave.
fn lines(mut state: State, calls: &[Call]) -> String {
    let mut out = String::new();
    for &call in calls {
        out += &match (call.make(&mut state), call) {
            (Err(number), _) => format!("refused {number}\n"),
            (Ok(()), Call::Hold(_)) => "held\n".into(),
            (Ok(()), Call::Release(_)) => "released\n".into(),
        };
    }
    let list = |name: &str, run: &(u64, u64)| format!("{name} {} {}\n", run.0, run.1);
    out.extend(state.free().iter().map(|run| list("free", run)));
    out.extend(state.held.iter().map(|run| list("held", run)));
    out
}

/// Which group a plan is of.
fn kind(records: &[u8], group: u64) -> &'static str {
    let Some(g) = Request::parse(records).and_then(|q| step(&q).1) else { return "" };
    match group {
        0 => "group 0,",
        k if k == g.logagno && k == g.agcount - 1 => "log group and last,",
        k if k == g.logagno => "log group,",
        k if k == g.agcount - 1 => "last group,",
        _ => "another group,",
    }
}

impl Mode for Holds {
    fn case(&self, r: &mut Random) -> Vec<u8> {
        let records = runs::records(r);
        let geometry = Request::parse(&records).and_then(|q| step(&q).1);
        let number = match &geometry {
            Some(g) => runs::group(r, g),
            None => r.wide(),
        };
        let group = geometry.and_then(|g| Group::of(&g, number).ok());
        let mut words = vec![number.to_string()];
        match group {
            Some(group) => words.extend(calls(r, &group)),
            None => words.extend((0..1 + r.below(3)).map(|_| word(Call::Hold((r.below(1 << 20), 1 + r.below(9)))))),
        }
        if r.one_in(50) {
            let at = r.below(words.len() as u64) as usize;
            words[at] = r.pick(&NO_CALLS).into();
        }
        words::case(&words, &records)
    }

    fn answer(&self, case: &[u8], out: Out) -> io::Result<Told> {
        let (words, records) = parts(case);
        let Some((group, calls)) = read(&words) else {
            return Ok(Told::apart("no such words, nothing printed,", 0));
        };
        match asked(records, group) {
            Ok(asked) => {
                out.write_all(lines(asked.start(), &calls).as_bytes())?;
                Ok(Told::apart(kind(records, group), 0))
            }
            Err(number) => {
                writeln!(out, "refused {number}")?;
                Ok(Told::apart(kind(records, group), number))
            }
        }
    }

    fn run<'a>(&self, case: &'a [u8]) -> (Vec<String>, &'a [u8]) {
        let (words, records) = parts(case);
        (words::asked("holds", &words), records)
    }

    fn calls(&self, case: &[u8]) -> Vec<Told> {
        let (words, records) = parts(case);
        let Some((group, calls)) = read(&words) else { return Vec::new() };
        let Ok(asked) = asked(records, group) else { return Vec::new() };
        let mut state = asked.start();
        let mut told = |call: &Call| Told::apart(call.name(), call.make(&mut state).err().unwrap_or(0));
        calls.iter().map(&mut told).collect()
    }

    fn traits(&self, case: &[u8]) -> Vec<(&'static str, String)> {
        let (words, records) = parts(case);
        let (Some(q), Some((group, calls))) = (Request::parse(records), read(&words)) else { return Vec::new() };
        let (Some(g), Ok(asked)) = (step(&q).1, asked(records, group)) else { return Vec::new() };
        let mut state = asked.start();
        let held = calls.iter().map(|call| (call.make(&mut state).is_ok(), state.held.len()).1).max().unwrap_or(0);
        let given = [op::AGSIZE, op::AGCOUNT].map(|code| q.options[code].is_some());
        vec![
            ("block size", g.blocksize.to_string()),
            ("sector size", g.sectsize.to_string()),
            ("logical and physical sector", format!("{} {}", q.logical, q.physical)),
            ("inode size", g.inodesize.to_string()),
            ("features", super::geometry::feature_bits(&g.features).to_string()),
            ("sizing", format!("{:?}", q.sizing())),
            ("agsize and agcount given", format!("{given:?}")),
            ("groups, in bits", (64 - g.agcount.leading_zeros()).to_string()),
            ("free records of the plan", asked.start().free().len().to_string()),
            ("most runs held", held.to_string()),
            ("calls", format!("{} or more", calls.len() / 8 * 8)),
        ]
    }

    fn show_case(&self, case: &[u8]) -> String {
        let (words, records) = parts(case);
        format!("{words} {} {:?}", super::hex(records), Request::parse(records))
    }

    fn show_answer(&self, answer: &[u8]) -> String {
        String::from_utf8_lossy(answer).into_owned()
    }
}
