//! Runs both sides on the same cases, counts, and reports the first difference.

use std::collections::BTreeMap;
use std::fs;
use std::io::{self, BufReader, BufWriter, Read, Write};
use std::path::Path;
use std::process::{Child, Command, Stdio};

use crate::frames;
use crate::modes::{Mode, Told};
use crate::random::Random;

/// The counts of a run.
#[derive(Default)]
struct Counts(BTreeMap<Told, u64>);

impl Counts {
    fn add(&mut self, told: Told) {
        *self.0.entry(told).or_default() += 1;
    }

    fn print(&self) {
        for (told, n) in &self.0 {
            let how = if told.asked { "compared" } else { "apart (the Rust is not asked)" };
            let space = if told.kind.is_empty() { "" } else { " " };
            println!("  {}{space}number {}: {n} {how}", told.kind, told.number);
        }
    }
}

/// A longer text is cut in a report.
fn cut(text: String) -> String {
    const MOST: usize = 2000;
    if text.len() <= MOST {
        return text;
    }
    let end = (0..=MOST).rev().find(|&i| text.is_char_boundary(i)).unwrap_or(0);
    format!("{} .. ({} more)", &text[..end], text.len() - end)
}

fn report(mode: &dyn Mode, i: u64, case: &[u8], rust: &[u8], ours: &[u8]) {
    let at = rust.iter().zip(ours).take_while(|(a, b)| a == b).count();
    println!("DIFFERENCE at case {i}, from byte {at} of the answer{}", mode.show_place(rust, at));
    println!("  case: {}", cut(mode.show_case(case)));
    println!("  Rust: {}", cut(mode.show_answer(rust)));
    println!("  ours: {}", cut(mode.show_answer(ours)));
}

/// The loop of every comparison; `ours` answers a case.
fn compared(
    mode: &dyn Mode,
    cases: u64,
    seed: u64,
    mut ours: impl FnMut(&[u8]) -> io::Result<Vec<u8>>,
) -> io::Result<bool> {
    let mut r = Random::new(seed);
    let mut counts = Counts::default();
    let mut rust = Vec::new();
    for i in 0..cases {
        let case = mode.case(&mut r);
        rust.clear();
        counts.add(mode.answer(&case, &mut rust)?);
        mode.calls(&case).into_iter().for_each(|told| counts.add(told));
        let port = ours(&case)?;
        if port != rust {
            counts.print();
            report(mode, i, &case, &rust, &port);
            return Ok(false);
        }
    }
    counts.print();
    println!("{cases} cases from seed {seed}: no difference");
    Ok(true)
}

/// The Rust's side alone.
pub fn count(mode: &dyn Mode, cases: u64, seed: u64) -> io::Result<()> {
    let mut r = Random::new(seed);
    let mut counts = Counts::default();
    let mut traits: BTreeMap<&str, BTreeMap<String, u64>> = BTreeMap::new();
    for _ in 0..cases {
        let case = mode.case(&mut r);
        let told = mode.answer(&case, &mut io::sink())?;
        mode.calls(&case).into_iter().for_each(|told| counts.add(told));
        if told.number == 0 {
            for (name, value) in mode.traits(&case) {
                *traits.entry(name).or_default().entry(value).or_default() += 1;
            }
        }
        counts.add(told);
    }
    counts.print();
    for (name, values) in traits {
        let all: Vec<String> = values.iter().map(|(value, n)| format!("{value}: {n}")).collect();
        println!("  {name} ({} values): {}", all.len(), all.join("; "));
    }
    Ok(())
}

/// The port's own programs answer, through pipes.
pub fn with_port(mode: &dyn Mode, cases: u64, seed: u64) -> io::Result<bool> {
    let missing = || io::Error::other("the port has no answer: the mode has no program, or it doesn't run or ended");
    compared(mode, cases, seed, |case| mode.ours(case).ok_or_else(missing))
}

fn started(path: &str, words: &[String], said: Stdio) -> io::Result<Child> {
    Command::new(path).args(words).stdin(Stdio::piped()).stdout(Stdio::piped()).stderr(said).spawn()
}

/// The port's program reads a stream of cases and writes a stream of answers.
pub fn with_program(mode: &(dyn Mode + Sync), cases: u64, seed: u64, path: &str) -> io::Result<bool> {
    let mut child = started(path, &[], Stdio::inherit())?;
    let mut to = BufWriter::new(child.stdin.take().unwrap());
    let mut from = BufReader::new(child.stdout.take().unwrap());
    let same = std::thread::scope(|s| {
        // The cases are made a second time, so that neither side waits for the other.
        s.spawn(move || {
            let mut r = Random::new(seed);
            for _ in 0..cases {
                if frames::write(&mut to, &mode.case(&mut r)).is_err() {
                    return;
                }
            }
            let _ = to.flush();
        });
        let ended = || io::Error::other("the port's program ended before its last answer");
        let same = compared(mode, cases, seed, |_| frames::read(&mut from)?.ok_or_else(ended));
        drop(from);
        same
    });
    let _ = child.kill();
    child.wait()?;
    same
}

/// The port's program reads one case and writes one answer. What it says on standard error, such as a refusal's sentence, isn't shown.
pub fn with_each(mode: &dyn Mode, cases: u64, seed: u64, path: &str) -> io::Result<bool> {
    compared(mode, cases, seed, |case| {
        let (words, input) = mode.run(case);
        let mut child = started(path, &words, Stdio::null())?;
        let mut to = child.stdin.take().unwrap();
        let mut from = child.stdout.take().unwrap();
        // A case is shorter than a pipe holds. A program that stops reading early still answers.
        let _ = to.write_all(input);
        drop(to);
        let mut out = Vec::new();
        from.read_to_end(&mut out)?;
        child.wait()?;
        Ok(out)
    })
}

/// A case and the Rust's answer.
type Pair = (Vec<u8>, Vec<u8>);

/// Cases from a seed by kind and number, at most `cases` of each.
fn found(mode: &dyn Mode, cases: u64, seed: u64) -> io::Result<BTreeMap<Told, Vec<Pair>>> {
    let mut r = Random::new(seed);
    let mut found: BTreeMap<Told, Vec<Pair>> = BTreeMap::new();
    for _ in 0..cases * 200 {
        let case = mode.case(&mut r);
        let mut out = Vec::new();
        let told = mode.answer(&case, &mut out)?;
        let same = found.entry(told).or_default();
        if (same.len() as u64) < cases {
            same.push((case, out));
        }
    }
    Ok(found)
}

/// `cases` of them, as many of each kind and number as of the others where there are enough.
fn shared(found: &BTreeMap<Told, Vec<Pair>>, cases: u64) -> Vec<&Pair> {
    let rows = (0..cases as usize).flat_map(|row| found.values().filter_map(move |same| same.get(row)));
    rows.take(cases as usize).collect()
}

/// `cases` cases of all kinds and numbers with their answers, as a stream.
pub fn sample(mode: &dyn Mode, cases: u64, seed: u64) -> io::Result<()> {
    let mut output = BufWriter::new(io::stdout().lock());
    for (case, answer) in shared(&found(mode, cases, seed)?, cases) {
        frames::write(&mut output, case)?;
        frames::write(&mut output, answer)?;
    }
    output.flush()
}

/// What is put behind the files `stdin` and `stdout` of a program that replays the answers: half of the cases are accepted, the
/// others are shared among the refusals; or they are the first of the seed.
pub fn replay(mode: &dyn Mode, cases: u64, seed: u64, first: bool, folder: &str) -> io::Result<()> {
    let missing = || io::Error::other("no program of the port replays this mode");
    let answered = |case: Vec<u8>| {
        let mut answer = Vec::new();
        mode.answer(&case, &mut answer).map(|_| (case, answer))
    };
    let mut pairs: Vec<Pair> = mode.always().into_iter().map(answered).collect::<io::Result<_>>()?;
    if first {
        let mut r = Random::new(seed);
        for _ in 0..cases {
            pairs.push(answered(mode.case(&mut r))?);
        }
    } else {
        let (accepted, refused) = found(mode, cases / 2, seed)?.into_iter().partition(|(told, _)| told.number == 0);
        let chosen = shared(&accepted, cases / 2).into_iter().chain(shared(&refused, cases - cases / 2));
        pairs.extend(chosen.cloned());
    }
    let (mut cases_file, mut answers_file) = (Vec::new(), Vec::new());
    for (case, answer) in &pairs {
        cases_file.extend(mode.replayed(case).ok_or_else(missing)?);
        answers_file.extend(mode.replayed_answer(case, answer));
    }
    let add = |name, bytes: &[u8]| {
        let file = fs::OpenOptions::new().create(true).append(true).open(Path::new(folder).join(name));
        file.and_then(|mut file| file.write_all(bytes))
    };
    add("stdin", &cases_file)?;
    add("stdout", &answers_file)
}
