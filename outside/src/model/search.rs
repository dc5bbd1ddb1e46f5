//! The least path by survivors, written for speed. Its memory is one row of cells before the first symbol and one for
//! each symbol, `2^v` cells a row, and tables of a fixed size beside them.
//!
//! One symbol costs two passes:
//! 1. The best of the labels that the parity check does not tell apart, for each value of `z0` to `zc`. The label bits
//!    that do not turn are walked in Gray order, so that each step flips one row's pattern; for each pattern the scores
//!    of all turning numbers are added up in one pass over the places. The score rows are held twice in a row, so that
//!    the sum of a turning number and a pattern needs no remainder. No phase of a label is stored.
//! 2. A row: for each state the least of its `2^c` branches, tried from the lower label up.
use super::code::Code;
use super::front::Scores;
use super::receiver::{Engine, Least};

/// The survivor of a state: its worth, its last label, and whether no other path to the state has its worth.
#[derive(Clone, Copy, Debug, Default)]
struct Cell {
    worth: u32,
    label: u16,
    sole: bool,
}

/// The branches of a row into one half of the states: which of the best labels it takes, and their syndrome.
#[derive(Clone, Copy, Debug, Default)]
struct Branch {
    group: usize,
    syndrome: usize,
}

/// What follows from a code.
#[derive(Clone, Copy, Debug)]
struct Tables {
    places: usize,
    phases: usize,
    memory: u8,
    /// `2^c`, the branches into a state.
    branches: usize,
    /// The label bits that do not turn, and the patterns of their rows.
    bits: [u16; 16],
    patterns: [[u8; 4]; 16],
    count: usize,
    /// The label of each turning number, and its part of the group.
    turned: [u16; 16],
    syndromes: [u16; 16],
    /// The branches into the states below `2^(v-1)`, and into those from there on.
    into: [[Branch; 8]; 2],
}

impl Tables {
    fn new(code: &Code) -> Tables {
        let numbers = code.numbers();
        let checked = usize::from(numbers.checked);
        let mut tables = Tables {
            places: numbers.places.into(),
            phases: numbers.phases.into(),
            memory: numbers.memory,
            branches: 1 << checked,
            bits: [0; 16],
            patterns: [[0; 4]; 16],
            count: 0,
            turned: [0; 16],
            syndromes: [0; 16],
            into: [[Branch::default(); 8]; 2],
        };
        for bit in 0..code.width() {
            if code.turning(bit) {
                // The turning rows turn by 1, 2, 4, ..
                for number in 0..tables.phases {
                    if number & usize::from(code.row(bit)[0]) != 0 {
                        tables.turned[number] |= 1 << bit;
                    }
                }
            } else {
                tables.bits[tables.count] = 1 << bit;
                tables.patterns[tables.count] = code.row(bit);
                tables.count += 1;
            }
        }
        let mut found = [0; 2];
        for group in 0..2 << checked {
            let picked = (0..=checked).filter(|j| group >> j & 1 == 1);
            let syndrome = picked.fold(0, |sum, j| sum ^ numbers.h[j]);
            tables.syndromes[group] = syndrome;
            // 2e xor the syndrome is a state exactly where both or neither have bit v.
            let half = usize::from(syndrome >> numbers.memory);
            tables.into[half][found[half]] = Branch { group, syndrome: syndrome.into() };
            found[half] += 1;
        }
        tables
    }
}

/// Rows of survivors over the caller's cells.
pub struct Search {
    cells: Vec<Cell>,
    tables: Option<Tables>,
    taken: usize,
}

impl Search {
    fn tables(&self) -> &Tables {
        self.tables.as_ref().expect("an open block")
    }

    fn row(&self, number: usize) -> &[Cell] {
        let states = 1 << self.tables().memory;
        &self.cells[number * states..(number + 1) * states]
    }

    /// The state at which the least path ends, and whether the path is sole.
    fn end(&self) -> (usize, bool) {
        let row = self.row(self.taken);
        let mut end = 0;
        let mut sole = row[0].sole;
        for (state, cell) in row.iter().enumerate().skip(1) {
            if cell.worth < row[end].worth {
                end = state;
                sole = cell.sole;
            } else if cell.worth == row[end].worth {
                sole = false;
            }
        }
        (end, sole)
    }
}

/// Lets one label into its group.
#[inline]
fn join(best: &mut Cell, worth: u32, label: u16) {
    if worth < best.worth {
        *best = Cell { worth, label, sole: true };
    } else if worth == best.worth {
        best.label = best.label.min(label);
        best.sole = false;
    }
}

/// The best label of each group over a symbol's scores.
fn best_labels<const PLACES: usize>(tables: &Tables, scores: &Scores) -> [Cell; 16] {
    let phases = tables.phases;
    let mut twice = [[0; 32]; PLACES];
    for (twice, scores) in twice.iter_mut().zip(scores) {
        twice[..phases].copy_from_slice(&scores[..phases]);
        twice[phases..2 * phases].copy_from_slice(&scores[..phases]);
    }
    let mut best = [Cell { worth: u32::MAX, label: 0, sole: false }; 16];
    let groups = 2 * tables.branches - 1;
    let mut label = 0;
    let mut pattern = [0u8; 4];
    let mut step = 0usize;
    loop {
        let mut sums = [0; 16];
        for (twice, &at) in twice.iter().zip(&pattern) {
            let shifted = &twice[usize::from(at & 15)..][..16];
            for (sum, score) in sums.iter_mut().zip(shifted) {
                *sum += score;
            }
        }
        for (&sum, &turned) in sums[..phases].iter().zip(&tables.turned) {
            let label = label | turned;
            let best = &mut best[usize::from(label) & groups & 15];
            if sum <= best.worth {
                join(best, sum, label);
            }
        }
        step += 1;
        let flipped = step.trailing_zeros() as usize;
        if flipped >= tables.count {
            return best;
        }
        label ^= tables.bits[flipped];
        for (entry, row) in pattern.iter_mut().zip(tables.patterns[flipped]) {
            *entry ^= row;
        }
    }
}

/// The row after a symbol, from the row before it and the best label of each group.
fn fill<const BRANCHES: usize>(tables: &Tables, best: &[Cell; 16], before: &[Cell], after: &mut [Cell]) {
    let states = before.len();
    for (half, after) in after.chunks_exact_mut(states / 2).enumerate() {
        let mut ways = [(0, Cell::default()); BRANCHES];
        for (way, branch) in ways.iter_mut().zip(&tables.into[half]) {
            *way = (branch.syndrome, best[branch.group]);
        }
        // The lower label first, so that the first of equal worths is the one that counts.
        ways.sort_unstable_by_key(|(_, best)| best.label);
        for (e, cell) in after.iter_mut().enumerate() {
            let mut least = Cell { worth: u32::MAX, label: 0, sole: false };
            for (syndrome, best) in ways {
                let from = before[((2 * e) ^ syndrome) & (states - 1)];
                let worth = from.worth + best.worth;
                let less = worth < least.worth;
                let equal = worth == least.worth;
                least.label = if less { best.label } else { least.label };
                least.sole = if less { from.sole & best.sole } else { least.sole & !equal };
                least.worth = worth.min(least.worth);
            }
            *cell = least;
        }
    }
}

impl Engine for Search {
    fn made(cells: usize) -> Search {
        Search { cells: vec![Cell::default(); cells], tables: None, taken: 0 }
    }

    fn open(&mut self, code: Code) {
        self.tables = Some(Tables::new(&code));
        self.taken = 0;
        self.cells[..1 << code.numbers().memory].fill(Cell { worth: 0, label: 0, sole: true });
    }

    fn add(&mut self, scores: &Scores) {
        let tables = self.tables.as_ref().expect("an open block");
        let best = match tables.places {
            1 => best_labels::<1>(tables, scores),
            2 => best_labels::<2>(tables, scores),
            _ => best_labels::<4>(tables, scores),
        };
        let states = 1 << tables.memory;
        let (before, after) = self.cells[self.taken * states..(self.taken + 2) * states].split_at_mut(states);
        match tables.branches {
            2 => fill::<2>(tables, &best, before, after),
            4 => fill::<4>(tables, &best, before, after),
            _ => fill::<8>(tables, &best, before, after),
        }
        self.taken += 1;
    }

    fn least(&self) -> (u64, bool) {
        let (end, sole) = self.end();
        (self.row(self.taken)[end].worth.into(), sole)
    }

    fn path(&self) -> Option<Least> {
        let tables = self.tables();
        let (mut state, sole) = self.end();
        let worth = self.row(self.taken)[state].worth.into();
        let mut labels = vec![0; self.taken];
        for number in (1..=self.taken).rev() {
            let label = self.row(number)[state].label;
            labels[number - 1] = label;
            let group = usize::from(label) & (2 * tables.branches - 1);
            state = (2 * state) ^ usize::from(tables.syndromes[group]);
        }
        Some(Least { worth, sole, labels })
    }
}
