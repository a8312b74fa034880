//! The model (`../model.rs`) in plain sizing, in the port's place, against the Rust: its geometry step, and its written records.

use std::io;

use super::geometry::{line, Geometries};
use super::plans::accepted;
use super::writes::{Records, Writelist};
use super::{Mode, Out, Told};
use crate::crowded;
use crate::model::{self, Sizing};
use crate::random::Random;
use crate::request::{op, Request, MALFORMED};
use crate::wishes;

/// Most groups of a written list.
const GROUPS: u64 = 100;

/// The geometry step: cases and answers are those of `geometry`; half of the disks are crowded.
pub struct Step;

impl Mode for Step {
    fn case(&self, r: &mut Random) -> Vec<u8> {
        match r.below(2) {
            0 => Geometries.case(r),
            _ => crowded::request(r, 100_000).encode(),
        }
    }

    fn answer(&self, case: &[u8], out: Out) -> io::Result<Told> {
        Geometries.answer(case, out)
    }

    fn ours(&self, case: &[u8]) -> Option<Vec<u8>> {
        let answer = Request::parse(case).ok_or(MALFORMED).and_then(|q| model::step(&q, Sizing::Plain));
        Some(line(answer.as_ref().err().copied().unwrap_or(0), answer.as_ref().ok()).into_bytes())
    }

    fn show_case(&self, case: &[u8]) -> String {
        Geometries.show_case(case)
    }

    fn show_answer(&self, answer: &[u8]) -> String {
        Geometries.show_answer(answer)
    }
}

/// The run's number and the written records: cases and answers are those of `writelist`; half of the disks are crowded.
pub struct List;

impl Mode for List {
    fn case(&self, r: &mut Random) -> Vec<u8> {
        loop {
            let case = match r.below(2) {
                0 => Writelist.case(r),
                _ => {
                    let mut q = crowded::request(r, GROUPS);
                    wishes::with_run(r, &mut q);
                    q.options[op::SECONDS] = Some(r.below(1 << 31));
                    q.options[op::NANOSECONDS] = Some(r.below(1_000_000_000));
                    q.encode()
                }
            };
            if accepted(&case).1.is_none_or(|(q, g)| g.agcount <= GROUPS && q.sizing() == Sizing::Plain) {
                return case;
            }
        }
    }

    fn answer(&self, case: &[u8], out: Out) -> io::Result<Told> {
        Writelist.answer(case, out)
    }

    fn ours(&self, case: &[u8]) -> Option<Vec<u8>> {
        let mut out = Vec::new();
        let q = Request::parse(case);
        match q.as_ref().ok_or(MALFORMED).and_then(|q| model::run(q, Sizing::Plain)) {
            Ok(g) => drop(model::written(&q?, &g, Records(&mut out)).ok()?),
            Err(number) => out.extend(format!("refused {number}\n").bytes()),
        }
        Some(out)
    }

    fn show_case(&self, case: &[u8]) -> String {
        Writelist.show_case(case)
    }

    fn show_answer(&self, answer: &[u8]) -> String {
        Writelist.show_answer(answer)
    }

    fn show_place(&self, answer: &[u8], at: usize) -> String {
        Writelist.show_place(answer, at)
    }
}
