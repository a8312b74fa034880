//! The Rust's answers, and their comparison with the port's.
//!
//!     oracle MODE                                  one case on standard input, its answer on standard output
//!     oracle MODE --frames                         a stream of cases, a stream of answers (see frames.rs)
//!     oracle cases MODE --cases N --seed S         N cases as a stream
//!     oracle count MODE --cases N --seed S         how many of N cases have each number
//!     oracle sample MODE --cases N --seed S        N cases of all kinds with their answers, as a stream
//!     oracle replay MODE --cases N --seed S DIR    N cases with their answers, put behind DIR/stdin and DIR/stdout of the
//!         [--first]                                program that replays them; the first N of the seed, or of all kinds
//!     oracle compare MODE --cases N --seed S       both sides on N cases; the port's is the mode's program (port.rs),
//!         [--program PATH | --each PATH]           another program over streams, or one run for each case
//!
//! With --roomy the cases are crowded disks in roomy sizing (modes/roomy.rs), for the modes that have such.

use std::io::{self, BufReader, BufWriter, Read, Write};
use std::process::ExitCode;

use modes::Mode;
use random::Random;

mod cabinets;
mod compare;
mod crowded;
mod disk;
mod frames;
mod holds;
mod lengths;
mod model;
mod modes;
mod numbers;
mod port;
mod profile;
mod random;
mod ranges;
mod recorded;
mod request;
mod runs;
mod smallest;
mod spoilt;
mod wishes;
mod words;

/// The words of the command line after the mode's name.
struct Words {
    cases: u64,
    seed: u64,
    frames: bool,
    roomy: bool,
    first: bool,
    program: Option<String>,
    each: Option<String>,
    folder: Option<String>,
}

impl Words {
    fn read(words: &[String]) -> Option<Words> {
        let (program, each, folder) = (None, None, None);
        let mut w = Words { cases: 1000, seed: 1, frames: false, roomy: false, first: false, program, each, folder };
        let mut it = words.iter();
        while let Some(word) = it.next() {
            match word.as_str() {
                "--cases" => w.cases = it.next()?.parse().ok()?,
                "--seed" => w.seed = it.next()?.parse().ok()?,
                "--frames" => w.frames = true,
                "--roomy" => w.roomy = true,
                "--first" => w.first = true,
                "--program" => w.program = Some(it.next()?.clone()),
                "--each" => w.each = Some(it.next()?.clone()),
                _ if word.starts_with('-') || w.folder.is_some() => return None,
                _ => w.folder = Some(word.clone()),
            }
        }
        Some(w)
    }
}

type Chosen = Box<dyn Mode + Sync>;

/// Answers one case, or a stream of them.
fn answer(mode: &Chosen, w: &Words) -> io::Result<()> {
    let mut input = BufReader::new(io::stdin().lock());
    let mut output = BufWriter::with_capacity(1 << 16, io::stdout());
    if w.frames {
        while let Some(case) = frames::read(&mut input)? {
            let mut out = Vec::new();
            mode.answer(&case, &mut out)?;
            frames::write(&mut output, &out)?;
        }
    } else {
        let mut case = Vec::new();
        input.read_to_end(&mut case)?;
        mode.answer(&case, &mut output)?;
    }
    output.flush()
}

fn cases(mode: &Chosen, w: &Words) -> io::Result<()> {
    let mut output = BufWriter::new(io::stdout().lock());
    let mut r = Random::new(w.seed);
    for _ in 0..w.cases {
        frames::write(&mut output, &mode.case(&mut r))?;
    }
    output.flush()
}

fn run(words: &[String]) -> Option<io::Result<bool>> {
    let verb = match words.first()?.as_str() {
        v @ ("cases" | "count" | "sample" | "replay" | "compare") => v,
        _ => "answer",
    };
    let rest = if verb == "answer" { words } else { &words[1..] };
    let w = Words::read(&rest[1..])?;
    let mode = if w.roomy { modes::roomy::named } else { modes::named }(rest.first()?)?;
    if w.folder.is_some() != (verb == "replay") {
        return None;
    }
    Some(match verb {
        "cases" => cases(&mode, &w).map(|()| true),
        "count" => compare::count(&*mode, w.cases, w.seed).map(|()| true),
        "sample" => compare::sample(&*mode, w.cases, w.seed).map(|()| true),
        "replay" => compare::replay(&*mode, w.cases, w.seed, w.first, w.folder.as_ref()?).map(|()| true),
        "compare" => match (&w.program, &w.each) {
            (Some(path), _) => compare::with_program(&*mode, w.cases, w.seed, path),
            (None, Some(path)) => compare::with_each(&*mode, w.cases, w.seed, path),
            (None, None) => compare::with_port(&*mode, w.cases, w.seed),
        },
        _ => answer(&mode, &w).map(|()| true),
    })
}

fn main() -> ExitCode {
    // A panic of the Rust is an answer here, not a message.
    std::panic::set_hook(Box::new(|_| {}));
    let words: Vec<String> = std::env::args().skip(1).collect();
    match run(&words) {
        Some(Ok(true)) => ExitCode::SUCCESS,
        Some(Ok(false)) => ExitCode::FAILURE,
        Some(Err(e)) => {
            eprintln!("oracle: {e}");
            ExitCode::from(2)
        }
        None => {
            eprintln!("usage: oracle [cases | count | sample | replay | compare] MODE [--cases N] [--seed S] [--roomy] [--frames] [--first] [--program PATH | --each PATH] [DIR]");
            ExitCode::from(2)
        }
    }
}
