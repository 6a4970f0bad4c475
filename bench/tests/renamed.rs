//! R-3 of document 02: "Demands 2 and 3 read with the larger limit." A state of
//! three cells, said over again with other cells of more: each step is then
//! the same step, and the verdict the same verdict.

mod common;

use claysaucer_bench::number::TAKEN;
use claysaucer_bench::{
    bit, malformed, members, set_of, step, verdict, Cell, Choice, CollectorPlace, Process, Random,
    State, Store,
};
use common::{likely_choice, random_state};

/// N, and what cells 1 to 3 are called instead. The order is kept.
#[derive(Clone, Copy, Debug)]
struct Names {
    n: u8,
    cells: [u8; 3],
}

const NAMES: [Names; 4] = [
    Names {
        n: 64,
        cells: [1, 33, 64],
    },
    Names {
        n: 64,
        cells: [62, 63, 64],
    },
    Names {
        n: 63,
        cells: [32, 33, 63],
    },
    Names {
        n: 33,
        cells: [31, 32, 33],
    },
];

impl Names {
    /// A cell; null stays null, and what is above N stays above N.
    fn cell(self, r: u8) -> u8 {
        match r {
            0 => 0,
            1..=3 => self.cells[usize::from(r) - 1],
            _ => self.n.saturating_add(r - 3),
        }
    }

    fn set(self, set: u64) -> u64 {
        members(set).fold(0, |set, r| set | bit(self.cell(r)))
    }

    fn store(self, store: Store) -> Store {
        match store {
            Store::Mark { cell, mark } => Store::Mark {
                cell: self.cell(cell),
                mark,
            },
            Store::Field { cell, field, value } => Store::Field {
                cell: self.cell(cell),
                field,
                value: self.cell(value),
            },
            other => other,
        }
    }

    fn process(self, own: &mut Process) {
        own.list = self.set(own.list);
        own.greying = self.cell(own.greying);
        for store in &mut own.buffer {
            *store = self.store(*store);
        }
    }

    fn state(self, state: &State) -> State {
        let mut named = state.clone();
        named.n = self.n;
        named.cells[..3].fill(Cell::default());
        for r in 1..=3 {
            let mut cell = *state.cell(r);
            cell.fields = cell.fields.map(|field| self.cell(field));
            *named.cell_mut(self.cell(r)) = cell;
        }
        named.system.list = self.set(state.system.list);
        self.process(&mut named.collector.own);
        let collector = &mut named.collector;
        collector.scanned = self.cell(collector.scanned);
        collector.child = self.cell(collector.child);
        collector.doomed = self.cell(collector.doomed);
        collector.unswept = self.set(collector.unswept);
        for mutator in &mut named.mutators {
            self.process(&mut mutator.own);
            mutator.roots = self.set(mutator.roots);
            mutator.unmarked = self.set(mutator.unmarked);
            for note in [
                &mut mutator.honorary,
                &mut mutator.target,
                &mut mutator.value,
                &mut mutator.root,
            ] {
                *note = self.cell(*note);
            }
        }
        named
    }

    /// The choice on this state. In a round the collector's x is a mutator.
    fn choice(self, state: &State, choice: Choice) -> Choice {
        let in_round = state.collector.place.round_stage().is_some();
        let x = match choice.process {
            0 if in_round => choice.x,
            _ => self.cell(choice.x),
        };
        Choice {
            x,
            y: self.cell(choice.y),
            ..choice
        }
    }

    /// The state after a step. Row 10 begins with every cell number.
    fn after(self, before: &State, choice: Choice, after: &State) -> State {
        let mut named = self.state(after);
        let own_step = (choice.process, choice.kind) == (0, 0);
        if own_step && before.collector.place == CollectorPlace::Row9WriteSweep {
            named.collector.unswept = set_of(self.n);
        }
        named
    }

    /// The verdict's number is a cell's in verdicts 1 and 2.
    fn verdict(self, (given, number): (u8, u8)) -> (u8, u8) {
        match given {
            1 | 2 => (given, self.cell(number)),
            _ => (given, number),
        }
    }
}

fn same_answers(names: Names, state: &State, random: &mut Random) -> u8 {
    let named = names.state(state);
    assert!(!malformed(&named), "{named:?}");
    assert_eq!(verdict(&named), names.verdict(verdict(state)));
    let choice = likely_choice(state, random);
    let (number, after) = step(state, choice);
    let expected = match number {
        TAKEN => names.after(state, choice, &after),
        _ => named.clone(),
    };
    let answer = step(&named, names.choice(state, choice));
    assert_eq!(answer, (number, expected), "{names:?}, {choice:?}");
    number
}

#[test]
fn other_names_give_the_same_answers() {
    let mut random = Random::new(17);
    let mut seen = [0u32; 12];
    for _ in 0..100_000 {
        let state = random_state(&mut random);
        for names in NAMES {
            let number = same_answers(names, &state, &mut random);
            seen[usize::from(number)] += 1;
        }
    }
    let unseen: Vec<_> = (0..12).filter(|&number| seen[number] < 50).collect();
    assert_eq!(unseen, [1], "{seen:?}");
}
