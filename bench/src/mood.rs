//! The temper of a random walk: who moves, and what a process likes to do.

use crate::choice::Choice;
use crate::place::{CollectorPlace, MarkStage, MutatorPlace, RoundStage};
use crate::random::Random;
use crate::state::{bit, members, set_of, Collector, Mutator, State};

/// Chances are in percent, the operations' weights are any numbers.
#[derive(Clone, Debug)]
pub struct Mood {
    /// The chance that the collector moves.
    collector: u32,
    /// Each process's chance to commit rather than go on.
    commits: [u32; 5],
    /// The chance that a mutator at top answers a raised flag.
    answer: u32,
    /// The weights of operations 0 to 4.
    operations: [u32; 5],
    /// The stage of a mark at which a process seldom moves.
    linger: Option<MarkStage>,
}

impl Mood {
    /// A mood that brings collections about.
    pub fn random(random: &mut Random) -> Mood {
        let commits = [(); 5].map(|()| random.pick(&[3, 15, 40, 70]));
        let allocate = random.pick(&[1, 4, 12]);
        let forget = random.pick(&[0, 1, 1, 3, 9]);
        let load = random.pick(&[1, 4, 12]);
        Mood {
            collector: random.pick(&[15, 35, 60, 85]),
            commits,
            answer: random.pick(&[10, 50, 90]),
            operations: [allocate, forget, load, 10, 1],
            linger: random.percent(30).then(|| random.pick(&MarkStage::ALL)),
        }
    }

    /// A mood that fills buffers: nearly all stores, nearly no commits.
    pub fn hoarding(random: &mut Random) -> Mood {
        let mutators = random.pick(&[1, 2, 4]);
        Mood {
            collector: random.pick(&[1, 10, 40]),
            commits: [40, mutators, mutators, mutators, mutators],
            answer: random.pick(&[0, 10, 30]),
            operations: [1, 0, 2, 30, 0],
            linger: None,
        }
    }

    /// A mood that brings races for a mark: whoever is about to take the lock
    /// mostly waits, so that others come to mark the same cell.
    pub fn racing(random: &mut Random) -> Mood {
        Mood {
            collector: random.pick(&[15, 35]),
            commits: [40; 5],
            answer: 90,
            operations: [2, 0, 10, 10, 0],
            linger: Some(MarkStage::Lock),
        }
    }

    /// A mood that goes through a collection in few steps.
    pub fn brisk() -> Mood {
        Mood {
            collector: 70,
            commits: [60; 5],
            answer: 90,
            operations: [1, 0, 2, 1, 0],
            linger: None,
        }
    }

    /// A choice for this state. It may be refused.
    pub fn propose(&self, state: &State, random: &mut Random) -> Choice {
        let p = self.mover(state, random);
        if !state.own(p).buffer.is_empty() && random.percent(self.commit_chance(state, p)) {
            return Choice::commit(p);
        }
        self.own_step(state, p, random)
    }

    /// Who moves. One that lingers mostly lets another draw decide.
    fn mover(&self, state: &State, random: &mut Random) -> u8 {
        let p = if random.percent(self.collector) {
            0
        } else {
            random.within(1, u32::from(state.m)) as u8
        };
        let lingers = self.linger.is_some() && state.mark_stage(p) == self.linger;
        if lingers && random.percent(95) {
            return random.within(0, u32::from(state.m)) as u8;
        }
        p
    }

    /// Where nothing but a commit helps, a commit is likely.
    fn commit_chance(&self, state: &State, p: u8) -> u32 {
        let at_fence = match p {
            0 => state.collector.place.round_stage() == Some(RoundStage::Fence),
            _ => matches!(
                state.mutator(p).place,
                MutatorPlace::NoOpFence | MutatorPlace::RootsFence | MutatorPlace::WorkFence
            ),
        };
        let stuck = at_fence || state.mark_stage(p) == Some(MarkStage::Unlock);
        let chance = self.commits[usize::from(p)];
        if stuck {
            chance.max(50)
        } else {
            chance
        }
    }

    /// An own step of process p with arguments its place offers.
    pub fn own_step(&self, state: &State, p: u8, random: &mut Random) -> Choice {
        if p == 0 {
            return self.collector_step(state, random);
        }
        let mutator = state.mutator(p);
        match mutator.place {
            MutatorPlace::Top => self.operation(state, p, random),
            MutatorPlace::RootsMark(MarkStage::Look) => {
                Choice::naming(p, random.member(mutator.unmarked))
            }
            _ => Choice::own(p),
        }
    }

    fn collector_step(&self, state: &State, random: &mut Random) -> Choice {
        let collector = &state.collector;
        let left = match collector.place {
            CollectorPlace::Row7FirstRead => return first_read(collector, random),
            CollectorPlace::Row7NextRead => return next_read(collector),
            CollectorPlace::Row10Look => collector.unswept,
            place => match place.round_stage() {
                Some(RoundStage::Raise) => u64::from(collector.awaited),
                Some(RoundStage::Poll) => return self.poll(state, random),
                _ => 0,
            },
        };
        Choice::naming(0, random.member(left))
    }

    /// A poll, mostly of a mutator that has answered. If none has, mostly a
    /// mutator's step instead.
    fn poll(&self, state: &State, random: &mut Random) -> Choice {
        let awaited = u64::from(state.collector.awaited);
        let answered = members(awaited)
            .filter(|&p| !state.mutator(p).flag)
            .fold(0, |set, p| set | bit(p));
        if answered != 0 && random.percent(90) {
            return Choice::naming(0, random.member(answered));
        }
        let p = random.member(awaited);
        if random.percent(95) && p != 0 {
            return self.own_step(state, p, random);
        }
        Choice::naming(0, p)
    }

    /// An operation of a mutator at top.
    fn operation(&self, state: &State, p: u8, random: &mut Random) -> Choice {
        let mutator = state.mutator(p);
        if mutator.flag && random.percent(self.answer) {
            return Choice::operation(p, 5, 0, 0, 0);
        }
        let operation = match mutator.roots {
            0 if random.percent(80) => 0,
            _ => self.weighted_operation(random),
        };
        let x = match operation {
            0 => random.member(free_cells(state)),
            4 => 0,
            _ => random.member(mutator.roots),
        };
        let f = match operation {
            2 | 3 => random.below(2) as u8,
            _ => 0,
        };
        let y = match operation {
            3 => stored(mutator, random),
            _ => 0,
        };
        Choice::operation(p, operation, x, f, y)
    }

    fn weighted_operation(&self, random: &mut Random) -> u8 {
        let mut drawn = random.below(self.operations.iter().sum());
        for (operation, &weight) in (0..).zip(&self.operations) {
            if drawn < weight {
                return operation;
            }
            drawn -= weight;
        }
        4
    }
}

/// The first read of a cell: either field of any cell on the list.
fn first_read(collector: &Collector, random: &mut Random) -> Choice {
    let x = random.member(collector.own.list);
    Choice::field_read(x, random.below(2) as u8)
}

/// The next read: the field that is left.
fn next_read(collector: &Collector) -> Choice {
    Choice::field_read(0, collector.unscanned.trailing_zeros() as u8)
}

/// The y of a store: mostly a root, else null.
fn stored(mutator: &Mutator, random: &mut Random) -> u8 {
    if random.percent(25) {
        0
    } else {
        random.member(mutator.roots)
    }
}

fn free_cells(state: &State) -> u64 {
    members(set_of(state.n))
        .filter(|&r| !state.cell(r).occupied)
        .fold(0, |set, r| set | bit(r))
}
