//! Hold and release of a state handed in, spoilt or not, by the model (`../holds.rs`). A case is the change that was made
//! (1 byte), the call (1 byte: 0 start, 1 hold, 2 release), its two numbers (8 bytes each), the length (2 bytes) of the
//! state, the state, and the input records. An answer is a line: the number, group, counts and every slot of the state
//! left, zeros where the call is refused.

use std::io;

use super::geometry::step;
use super::holds::asked;
use super::{Mode, Out, Told};
use crate::frames::Fields;
use crate::holds::{Group, Slots, State, NO_STATE};
use crate::numbers::UNNUMBERED;
use crate::port::{self, Asked, Reply};
use crate::random::Random;
use crate::request::{Request, MALFORMED};
use crate::runs::{self, Call};
use crate::spoilt::{self, Place};

pub struct HoldStates;

/// A state of another length than the lent one needs.
const WRONG_LENGTH: u32 = 27;

const START: u8 = 0;
const HOLD: u8 = 1;
const RELEASE: u8 = 2;

/// The numbers of an answer.
const NUMBERS: u64 = 148;

struct Case<'a> {
    change: u8,
    call: u8,
    at: u64,
    length: u64,
    state: &'a [u8],
    records: &'a [u8],
}

impl<'a> Case<'a> {
    fn read(case: &'a [u8]) -> Case<'a> {
        let mut f = Fields(case);
        let (change, call, at, length) = (f.u8(), f.u8(), f.u64(), f.u64());
        let n = usize::from(f.u16());
        Case { change, call, at, length, state: f.bytes(n), records: f.rest() }
    }

    fn write(&self) -> Vec<u8> {
        [
            &[self.change, self.call][..],
            &self.at.to_be_bytes(),
            &self.length.to_be_bytes(),
            &(self.state.len() as u16).to_be_bytes(),
            self.state,
            self.records,
        ]
        .concat()
    }
}

/// The state that the slots are, if calls leave them; decided in both ways.
fn taken<'a>(slots: &Slots, group: &'a Group) -> Result<State<'a>, u32> {
    match (slots.state(group), slots.replayed(group)) {
        (Some(state), Some(tried)) if state.held == tried.held => Ok(state),
        (None, None) => Err(NO_STATE),
        _ => Err(UNNUMBERED),
    }
}

/// What is left, or the number of the refusal.
fn left(case: &Case) -> Result<Slots, u32> {
    if case.call == START {
        return Ok(asked(case.records, case.at)?.start().slots());
    }
    let geometry = Request::parse(case.records).ok_or(MALFORMED).and_then(|q| {
        let (told, geometry) = step(&q);
        geometry.ok_or(told.number)
    })?;
    if case.state.len() != Slots::BYTES {
        return Err(WRONG_LENGTH);
    }
    let slots = Slots::decode(case.state);
    // A group that there isn't, or that has no plan, has no start and so no state.
    let group = Group::of(&geometry, slots.group).map_err(|_| NO_STATE)?;
    let mut state = taken(&slots, &group)?;
    let run = (case.at, case.length);
    if case.call == HOLD { Call::Hold(run) } else { Call::Release(run) }.make(&mut state)?;
    Ok(taken(&state.slots(), &group)?.slots())
}

/// One number of an answer.
fn number(left: &Result<Slots, u32>, which: u64) -> u64 {
    let s = match left {
        Err(number) => return if which == 0 { u64::from(*number) } else { 0 },
        Ok(slots) => slots,
    };
    let free = s.free.slots.iter().flat_map(|&(start, blocks)| [start, blocks]);
    let held = s.held.slots.iter().flat_map(|&(start, blocks)| [start, blocks]);
    let head = [0, s.group, s.free.count, s.held.count].into_iter();
    head.chain(free.chain(held).map(u64::from)).nth(usize::try_from(which).unwrap_or(usize::MAX)).unwrap_or(0)
}

fn line(numbers: impl Iterator<Item = u64>) -> String {
    numbers.map(|n| n.to_string()).collect::<Vec<_>>().join(" ") + "\n"
}

/// A call of a state: of those that the model makes in sequences, or of a run that the slots list.
fn call(r: &mut Random, state: &State, slots: &Slots) -> (u8, u64, u64) {
    let lists = [&slots.free.slots[..], &slots.held.slots[..]];
    let listed = lists[r.below(2) as usize];
    if r.one_in(4) {
        let (at, length) = listed[r.below(8) as usize];
        return (HOLD + r.below(2) as u8, at.into(), length.into());
    }
    let taste = runs::taste(r);
    match runs::call(r, state, taste) {
        Call::Hold((at, length)) => (HOLD, at, length),
        Call::Release((at, length)) => (RELEASE, at, length),
    }
}

/// A state that some calls leave.
fn reached<'a>(r: &mut Random, group: &'a Group) -> State<'a> {
    let (mut state, taste) = (group.start(), runs::taste(r));
    for _ in 0..r.below(24) {
        let _ = runs::call(r, &state, taste).make(&mut state);
    }
    state
}

/// Records of a refused geometry, with any state.
fn refused(r: &mut Random, records: &[u8]) -> Vec<u8> {
    let n = if r.one_in(4) { r.below(700) as usize } else { Slots::BYTES };
    let call = r.below(3) as u8;
    let state = if call == START || r.one_in(2) { vec![0; Slots::BYTES] } else { r.bytes(n) };
    Case { change: spoilt::NONE, call, at: r.wide(), length: r.wide(), state: &state, records }.write()
}

/// A start, with any state beside it.
fn started(r: &mut Random, at: u64, records: &[u8]) -> Vec<u8> {
    let state = r.bytes(Slots::BYTES);
    Case { change: spoilt::NONE, call: START, at, length: r.wide(), state: &state, records }.write()
}

impl Mode for HoldStates {
    fn case(&self, r: &mut Random) -> Vec<u8> {
        let mut records = runs::records(r);
        let Some(geometry) = Request::parse(&records).and_then(|q| step(&q).1) else {
            return refused(r, &records);
        };
        let number = runs::group(r, &geometry);
        let group = match Group::of(&geometry, number) {
            Ok(group) if !r.one_in(16) => group,
            _ => return started(r, number, &records),
        };
        let state = reached(r, &group);
        let (change, slots) = spoilt::change(r, &Place { geometry: &geometry, state: &state });
        // From a good state the calls go by what it holds.
        let after = Group::of(&geometry, slots.group).ok();
        let good = after.as_ref().and_then(|group| slots.state(group));
        let (call, at, length) = call(r, good.as_ref().unwrap_or(&state), &slots);
        if change == spoilt::ANOTHER_DISK {
            records = runs::changed(r, &records);
        }
        let mut bytes = slots.encode();
        if r.one_in(64) {
            bytes.resize(r.pick(&[0, 8, 599, 601, 608, 1200]), 0);
        }
        Case { change, call, at, length, state: &bytes, records: &records }.write()
    }

    fn answer(&self, case: &[u8], out: Out) -> io::Result<Told> {
        let case = Case::read(case);
        let left = left(&case);
        out.write_all(line((0..NUMBERS).map(|which| number(&left, which))).as_bytes())?;
        let kind = match (case.call, case.state.len()) {
            (START, _) => "start,",
            (_, Slots::BYTES) => spoilt::name(case.change),
            _ => "another length,",
        };
        Ok(Told::apart(kind, left.err().unwrap_or(0)))
    }

    fn calls(&self, case: &[u8]) -> Vec<Told> {
        let case = Case::read(case);
        let name = ["call start,", "call hold,", "call release,"][usize::from(case.call).min(2)];
        vec![Told::apart(name, left(&case).err().unwrap_or(0))]
    }

    fn asked(&self, case: &[u8]) -> Option<Asked> {
        let c = Case::read(case);
        let params = [&port::row(&[c.call.into(), c.at, c.length])[..], c.state].concat();
        Some(Asked { program: port::PLANS, function: port::plan::HOLDS, params, body: c.records.to_vec() })
    }

    fn replied(&self, _case: &[u8], reply: Reply) -> Vec<u8> {
        line(reply.numbers().into_iter()).into_bytes()
    }

    fn replayed_answer(&self, case: &[u8], _answer: &[u8]) -> Vec<u8> {
        let left = left(&Case::read(case));
        let numbers: Vec<u64> = (0..NUMBERS).map(|which| number(&left, which)).collect();
        port::line(left.err().unwrap_or(0), 0, &port::row(&numbers))
    }

    fn show_case(&self, case: &[u8]) -> String {
        let c = Case::read(case);
        let (name, slots) = (spoilt::name(c.change), Slots::decode(c.state));
        let lists = (slots.group, slots.free.count, &slots.free.slots[..12], &slots.held);
        let length = c.state.len();
        format!(
            "{name} call {} of {} {}, {length} bytes {lists:?} {:?}",
            c.call,
            c.at,
            c.length,
            Request::parse(c.records)
        )
    }

    fn show_answer(&self, answer: &[u8]) -> String {
        String::from_utf8_lossy(answer).into_owned()
    }
}
