//! Roomy sizing: other modes on crowded disks with code 12. The answers are the model's (`../model.rs`), which the Rust isn't asked for;
//! where the code is absent or 0 they are the Rust's. Cases are counted by what plain sizing gives beside roomy's.

use std::io;

use super::damage::Damage;
use super::made::Made;
use super::plans::{accepted, Planlist, Plans};
use super::reader::{Reader, Tables};
use super::requests::Requests;
use super::writes::{Refusals, Writelist};
use super::{Mode, Out, Told};
use crate::crowded;
use crate::model::{planned, Sizing};
use crate::random::Random;
use crate::request::{op, Request};
use crate::wishes;

/// The most groups of a case of which each group is answered, and of one of which few are.
const GROUPS: u64 = 100;
const ANY_GROUPS: u64 = 100_000;

type Make = fn(&mut Random) -> Vec<u8>;

/// A mode with its own cases.
pub struct Roomy {
    mode: Box<dyn Mode + Sync>,
    make: Make,
    /// Where the input records begin in a case.
    from: usize,
}

/// The mode of this name on crowded disks, where there is one.
pub fn named(name: &str) -> Option<Box<dyn Mode + Sync>> {
    let boxed = |mode: Box<dyn Mode + Sync>, make: Make, from| -> Option<Box<dyn Mode + Sync>> {
        Some(Box::new(Roomy { mode, make, from }))
    };
    match name {
        "request" => boxed(Box::new(Requests), any_records, 0),
        "plans" => boxed(Box::new(Plans), with_choice, 8),
        "planlist" => boxed(Box::new(Planlist), few_groups, 0),
        "writelist" => boxed(Box::new(Writelist), few_groups, 0),
        "refusals" => boxed(Box::new(Refusals), refused, 0),
        "reader" => boxed(Box::new(Reader), run, 0),
        "tables" => boxed(Box::new(Tables), run, 0),
        "mkfs" => Some(Box::new(Made::roomy())),
        "damage" => Some(Box::new(Damage::roomy())),
        _ => None,
    }
}

fn any_records(r: &mut Random) -> Vec<u8> {
    let mut q = crowded::request(r, ANY_GROUPS);
    wishes::with_run(r, &mut q);
    crowded::records(r, &q)
}

fn with_choice(r: &mut Random) -> Vec<u8> {
    [&r.next().to_be_bytes()[..], &any_records(r)].concat()
}

/// Records of a run with UUID, seed and mostly a time in range. A refused one may ask for any number of groups.
fn few_groups(r: &mut Random) -> Vec<u8> {
    loop {
        let mut q = crowded::request(r, GROUPS);
        wishes::with_run(r, &mut q);
        if !r.one_in(8) {
            q.options[op::SECONDS] = Some(r.below(1 << 31));
            q.options[op::NANOSECONDS] = Some(r.below(1_000_000_000));
        }
        if r.one_in(8) {
            wishes::any_label(r, &mut q);
        }
        let case = crowded::records(r, &q);
        if accepted(&case).1.is_none_or(|(_, g)| g.agcount <= GROUPS) {
            return case;
        }
    }
}

fn refused(r: &mut Random) -> Vec<u8> {
    loop {
        let case = few_groups(r);
        if accepted(&case).1.is_none() {
            return case;
        }
    }
}

/// An accepted run in roomy sizing, of a device no longer than a file can be.
pub fn run(r: &mut Random) -> Vec<u8> {
    loop {
        let case = few_groups(r);
        let roomy = |q: Request| q.sizing() == Sizing::Roomy && i64::try_from(q.device).is_ok();
        if accepted(&case).1.is_some_and(|(q, _)| roomy(q)) {
            return case;
        }
    }
}

/// What the two sizings give to a request.
pub fn beside(q: &Request) -> &'static str {
    match (planned(q, Sizing::Plain), planned(q, Sizing::Roomy)) {
        (Ok(a), Ok(b)) if a == b => "the same log in both sizings,",
        (Ok(_), Ok(_)) => "different logs, both accepted,",
        (Err(25), Ok(_)) => "25 in plain sizing, accepted in roomy,",
        (Ok(_), Err(22)) => "accepted in plain sizing, 22 in roomy,",
        (Err(24), Err(22)) => "24 in plain sizing, 22 in roomy,",
        (Err(25), Err(22)) => "25 in plain sizing, 22 in roomy,",
        (Err(a), Err(b)) if a == b => "refused alike in both sizings,",
        _ => "OTHERWISE,",
    }
}

impl Mode for Roomy {
    fn case(&self, r: &mut Random) -> Vec<u8> {
        (self.make)(r)
    }

    fn answer(&self, case: &[u8], out: Out) -> io::Result<Told> {
        let told = self.mode.answer(case, out)?;
        let kind = match case.get(self.from..).and_then(Request::parse) {
            None => "malformed,",
            Some(q) if q.sizing() == Sizing::Plain => "plain sizing,",
            Some(q) => beside(&q),
        };
        Ok(Told { kind, ..told })
    }

    fn ours(&self, case: &[u8]) -> Option<Vec<u8>> {
        self.mode.ours(case)
    }

    fn traits(&self, case: &[u8]) -> Vec<(&'static str, String)> {
        self.mode.traits(case)
    }

    fn show_case(&self, case: &[u8]) -> String {
        self.mode.show_case(case)
    }

    fn show_answer(&self, answer: &[u8]) -> String {
        self.mode.show_answer(answer)
    }

    fn show_place(&self, answer: &[u8], at: usize) -> String {
        self.mode.show_place(answer, at)
    }
}
