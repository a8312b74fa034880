//! A plain model of runs held back and given back, over sets of blocks.
//!
//! The blocks of a group are those below its length. Head, log, free list and chunk lie where the Rust's plan puts them;
//! every other block is plan-free. A state is the set of the runs that are held; everything else follows from it.

use std::collections::BTreeSet;

use mkfs_xfs::geometry::Geometry;

use crate::frames::Fields;
use crate::modes::plans::plan;
use crate::numbers::UNNUMBERED;

/// The most runs held at a time, and the most free records that a state has a slot for.
pub const MOST_HELD: usize = 8;
pub const MOST_FREE: usize = 64;

/// The scope's numbers.
pub const NO_GROUP: u32 = 29;
pub const NO_STATE: u32 = 31;
pub const TOO_MANY: u32 = 34;
pub const NOT_FREE: u32 = 42;
pub const NOT_HELD: u32 = 43;

/// A run of blocks: its first block and how many they are.
pub type Run = (u64, u64);

/// The block after a run's last one; it may pass 64 bits.
fn end(run: Run) -> u128 {
    u128::from(run.0) + u128::from(run.1)
}

/// Whether two runs have a block in common.
fn meet(a: Run, b: Run) -> bool {
    a.1 != 0 && b.1 != 0 && u128::from(a.0) < end(b) && u128::from(b.0) < end(a)
}

fn refuse(number: u32, condition: bool) -> Result<(), u32> {
    if condition {
        Err(number)
    } else {
        Ok(())
    }
}

/// A group with what its plan takes of it.
#[derive(Clone, Debug)]
pub struct Group {
    pub number: u64,
    pub length: u64,
    /// Head, log, chunk and every block of the free list.
    pub taken: Vec<Run>,
}

impl Group {
    /// A group of a geometry, if there is one of this number and its plan is accepted.
    pub fn of(g: &Geometry, number: u64) -> Result<Group, u32> {
        refuse(NO_GROUP, number >= g.agcount)?;
        let p = plan(g, number)?;
        let head = (0, g.prealloc_blocks());
        let log = (number == g.logagno).then_some((g.log_agbno, g.logblocks));
        let chunk = p.chunk.map(|at| (at, g.chunk_blocks()));
        let list = p.agfl.iter().map(|&block| (block.into(), 1));
        let taken = [head].into_iter().chain(log).chain(chunk).chain(list).collect();
        let group = Group { number, length: p.length, taken };
        // The plan's own free records must be the same blocks, as maximal runs.
        let planned: Vec<Run> = p.free.iter().map(|r| (r.start.into(), r.count.into())).collect();
        refuse(UNNUMBERED, group.start().free() != planned)?;
        Ok(group)
    }

    /// The state before any call.
    pub fn start(&self) -> State<'_> {
        State { group: self, held: BTreeSet::new() }
    }

    /// Whether every block of the run is one of the group's that its plan leaves free.
    fn plan_free(&self, run: Run) -> bool {
        end(run) <= self.length.into() && !self.taken.iter().any(|&other| meet(run, other))
    }
}

/// The runs that were held and not given back.
#[derive(Clone, Debug)]
pub struct State<'a> {
    pub group: &'a Group,
    pub held: BTreeSet<Run>,
}

impl State<'_> {
    pub fn hold(&mut self, run: Run) -> Result<(), u32> {
        let free = self.group.plan_free(run) && !self.held.iter().any(|&other| meet(run, other));
        refuse(NOT_FREE, run.1 == 0 || !free)?;
        refuse(TOO_MANY, self.held.len() == MOST_HELD)?;
        self.held.insert(run);
        Ok(())
    }

    pub fn release(&mut self, run: Run) -> Result<(), u32> {
        refuse(NOT_HELD, !self.held.remove(&run))
    }

    /// The maximal runs of the plan-free blocks that aren't held, rising.
    pub fn free(&self) -> Vec<Run> {
        let length = self.group.length;
        let used: Vec<Run> = self.group.taken.iter().chain(&self.held).copied().collect();
        // From one of these blocks to the next all blocks are alike.
        let ends = used.iter().flat_map(|&(start, blocks)| [start, start + blocks]);
        let edges: BTreeSet<u64> = ends.chain([0, length]).filter(|&block| block <= length).collect();
        let edges: Vec<u64> = edges.into_iter().collect();
        let mut found: Vec<Run> = Vec::new();
        for pair in edges.windows(2) {
            let alike = (pair[0], pair[1] - pair[0]);
            if used.iter().any(|&run| meet(alike, run)) {
                continue;
            }
            match found.last_mut() {
                Some(last) if last.0 + last.1 == alike.0 => last.1 += alike.1,
                _ => found.push(alike),
            }
        }
        found
    }

    /// Free and held blocks together, which no call changes.
    pub fn blocks(&self) -> u64 {
        self.free().iter().chain(&self.held).map(|run| run.1).sum()
    }

    /// The state as it is handed in and left.
    pub fn slots(&self) -> Slots {
        let held: Vec<Run> = self.held.iter().copied().collect();
        Slots { group: self.group.number, free: List::of(&self.free()), held: List::of(&held) }
    }
}

/// A list of at most N records of start and length, in N slots.
#[derive(Clone, Debug, PartialEq, Eq, Hash)]
pub struct List<const N: usize> {
    pub count: u64,
    pub slots: [(u32, u32); N],
}

impl<const N: usize> List<N> {
    /// The runs in the first slots, zeros in the others.
    pub fn of(runs: &[Run]) -> Self {
        let mut slots = [(0, 0); N];
        for (slot, &(start, blocks)) in slots.iter_mut().zip(runs) {
            *slot = (start as u32, blocks as u32);
        }
        List { count: runs.len() as u64, slots }
    }

    /// The runs that the count says are there, if there are so many slots and those past the count are zero.
    fn runs(&self) -> Option<Vec<Run>> {
        let count = usize::try_from(self.count).ok().filter(|&n| n <= N)?;
        let (used, rest) = self.slots.split_at(count);
        let zero = rest.iter().all(|&slot| slot == (0, 0));
        zero.then(|| used.iter().map(|&(start, blocks)| (start.into(), blocks.into())).collect())
    }

    fn decode(from: &mut Fields) -> Self {
        let count = from.u64();
        List { count, slots: std::array::from_fn(|_| (from.u32(), from.u32())) }
    }

    fn encode(&self) -> Vec<u8> {
        let numbers = self.slots.iter().flat_map(|&(start, blocks)| [start, blocks]);
        self.count.to_be_bytes().into_iter().chain(numbers.flat_map(u32::to_be_bytes)).collect()
    }
}

/// A state as the service keeps it, good or not.
#[derive(Clone, Debug, PartialEq, Eq, Hash)]
pub struct Slots {
    pub group: u64,
    pub free: List<MOST_FREE>,
    pub held: List<MOST_HELD>,
}

impl Slots {
    /// The bytes of the two lists with their counts, and of the group before them.
    pub const BYTES: usize = 8 + 8 + 8 * MOST_FREE + 8 + 8 * MOST_HELD;

    pub fn decode(bytes: &[u8]) -> Slots {
        let mut from = Fields(bytes);
        Slots { group: from.u64(), free: List::decode(&mut from), held: List::decode(&mut from) }
    }

    pub fn encode(&self) -> Vec<u8> {
        [&self.group.to_be_bytes()[..], &self.free.encode(), &self.held.encode()].concat()
    }

    /// The state of the group that this is, if some calls from its start leave it.
    pub fn state<'a>(&self, group: &'a Group) -> Option<State<'a>> {
        let (free, held) = (self.free.runs()?, self.held.runs()?);
        let apart = held.windows(2).all(|pair| end(pair[0]) <= pair[1].0.into());
        let plan_free = held.iter().all(|&run| run.1 != 0 && group.plan_free(run));
        if self.group != group.number || !apart || !plan_free {
            return None;
        }
        let state = State { group, held: held.into_iter().collect() };
        (free == state.free()).then_some(state)
    }

    /// The same, tried: the calls that hold the listed runs one after the other.
    pub fn replayed<'a>(&self, group: &'a Group) -> Option<State<'a>> {
        let mut state = group.start();
        let count = usize::try_from(self.held.count).ok()?;
        for &(start, blocks) in self.held.slots.get(..count)? {
            state.hold((start.into(), blocks.into())).ok()?;
        }
        (state.slots() == *self).then_some(state)
    }
}

#[cfg(test)]
mod tests {
    use super::*;
    use std::collections::HashSet;

    /// Two places with free blocks, ten in all, so that a ninth run can be asked for.
    fn group() -> Group {
        Group { number: 3, length: 14, taken: vec![(0, 2), (5, 1), (6, 1)] }
    }

    /// Every state that some calls leave, found by making all calls from all states.
    fn reachable(group: &Group) -> HashSet<Slots> {
        let mut found = HashSet::from([group.start().slots()]);
        let mut next = vec![group.start()];
        while let Some(state) = next.pop() {
            for run in (0..16).flat_map(|at| (0..16).map(move |n| (at, n))) {
                for call in [State::hold, State::release] {
                    let mut after = state.clone();
                    if call(&mut after, run).is_ok() && found.insert(after.slots()) {
                        next.push(after);
                    }
                }
            }
        }
        found
    }

    /// Every slot that is used, the one after, and the counts, each one more and one less; neighbours exchanged.
    fn changed<const N: usize>(list: &List<N>) -> Vec<List<N>> {
        let mut out = Vec::new();
        for by in [1, u32::MAX] {
            out.push(List { count: list.count.wrapping_add_signed((by as i32).into()), ..list.clone() });
            for k in 0..N.min(list.count as usize + 1) {
                let mut other = [list.clone(), list.clone(), list.clone(), list.clone()];
                other[0].slots[k].0 = other[0].slots[k].0.wrapping_add(by);
                other[1].slots[k].1 = other[1].slots[k].1.wrapping_add(by);
                other[2].slots.swap(k, (k + 1) % N);
                other[3].slots[k].0 = other[3].slots[k].0.wrapping_add(by);
                other[3].slots[k].1 = other[3].slots[k].1.wrapping_sub(by);
                out.extend(other);
            }
        }
        out
    }

    #[test]
    fn a_state_is_taken_where_some_calls_leave_it() {
        let group = group();
        let all = reachable(&group);
        // 13 and 610 ways to hold runs of three and of seven blocks, less those with more than eight runs.
        assert_eq!(all.len(), 13 * 610 - 19);
        let tried = |slots: Slots| {
            assert_eq!(slots.state(&group).is_some(), all.contains(&slots), "{slots:?}");
            assert_eq!(slots.replayed(&group).is_some(), all.contains(&slots), "{slots:?}");
        };
        for slots in &all {
            tried(slots.clone());
            tried(Slots { group: 4, ..slots.clone() });
            for free in changed(&slots.free) {
                tried(Slots { free, ..slots.clone() });
            }
            for held in changed(&slots.held) {
                tried(Slots { held: held.clone(), ..slots.clone() });
                for free in changed(&slots.free).into_iter().step_by(5) {
                    tried(Slots { free, held: held.clone(), ..*slots });
                }
            }
        }
    }
}
