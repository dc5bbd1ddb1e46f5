//! Codes: their limits, the signal set, the mapper and the step.

/// A code as numbers, within its limits or not. An absent polynomial is 0.
#[derive(Clone, Copy, Debug, Default, PartialEq, Eq)]
pub struct Numbers {
    pub places: u8,
    pub phases: u8,
    pub offset: u8,
    pub checked: u8,
    pub memory: u8,
    pub h: [u16; 4],
}

/// Why numbers are no code: 3, 4 or 5, and the column it concerns.
#[derive(Clone, Copy, Debug, PartialEq, Eq)]
pub struct Flaw {
    pub number: u8,
    pub column: u8,
}

/// The phases of one symbol; those from `places` on are 0.
#[derive(Clone, Copy, Debug, PartialEq, Eq)]
pub struct Symbol {
    pub places: u8,
    pub phases: [u8; 4],
}

/// A row of a signal set.
pub type Row = [u8; 4];

/// A code within its limits, with what follows from its numbers.
#[derive(Clone, Copy, Debug)]
pub struct Code {
    numbers: Numbers,
    /// `n`, the bits of a label.
    width: usize,
    /// Row `i` is picked by label bit `zi`.
    rows: [Row; 16],
    /// Whether row `i` has all entries equal.
    turns: [bool; 16],
    /// The label bits that pick the differential rows, the lowest first, and how many there are.
    differential: [usize; 4],
    differentials: usize,
    step: u8,
}

/// `I`, the bits of a phase, where there may be so many phases.
fn phase_bits(phases: u8) -> Option<usize> {
    match phases {
        4 => Some(2),
        8 => Some(3),
        16 => Some(4),
        _ => None,
    }
}

/// All rows of a signal set, and how many there are.
pub fn signal_set(places: usize, bits: usize) -> ([Row; 16], usize) {
    let mut rows = [[0; 4]; 16];
    let mut count = 0;
    let mut add = |times: u8, row: Row| {
        rows[count] = row.map(|entry| times * entry);
        count += 1;
    };
    match places {
        1 => (0..bits).for_each(|p| add(1 << p, [1, 0, 0, 0])),
        2 => {
            for p in 0..bits {
                add(1 << p, [0, 1, 0, 0]);
                add(1 << p, [1, 1, 0, 0]);
            }
        }
        _ => {
            add(1, [0, 0, 0, 1]);
            add(1, [0, 0, 1, 1]);
            add(1, [0, 1, 0, 1]);
            for i in 0..bits - 1 {
                add(2 << i, [0, 0, 0, 1]);
                add(1 << i, [1, 1, 1, 1]);
                add(2 << i, [0, 0, 1, 1]);
                add(2 << i, [0, 1, 0, 1]);
            }
            add(1 << (bits - 1), [1, 1, 1, 1]);
        }
    }
    (rows, count)
}

impl Code {
    /// A code of these numbers, or the first flaw: limits from the left, polynomials from the left, the parity bit.
    pub fn new(numbers: Numbers) -> Result<Code, Flaw> {
        let limit = |column| Err(Flaw { number: 3, column });
        if ![1, 2, 4].contains(&numbers.places) {
            return limit(1);
        }
        let Some(bits) = phase_bits(numbers.phases) else {
            return limit(2);
        };
        if numbers.offset >= numbers.places {
            return limit(3);
        }
        let places = numbers.places as usize;
        let width = bits * places - numbers.offset as usize;
        let checked = numbers.checked as usize;
        if !(1..=3).contains(&checked) || checked > width - 1 {
            return limit(4);
        }
        if numbers.memory < 1 || numbers.memory > 8 {
            return limit(5);
        }
        for (j, h) in numbers.h.into_iter().enumerate() {
            let top = 1 << numbers.memory;
            let good = if j == 0 {
                h % 2 == 1 && top <= h && h < 2 * top
            } else if j <= checked {
                0 < h && h < 2 * top
            } else {
                h == 0
            };
            if !good {
                return Err(Flaw { number: 4, column: 6 + j as u8 });
            }
        }

        let offset = numbers.offset as usize;
        let (all, _) = signal_set(places, bits);
        let mut rows = [[0; 4]; 16];
        let mut turns = [false; 16];
        let mut turning = [0; 4];
        let mut found = 0;
        for i in 0..width {
            rows[i] = all[i + offset];
            turns[i] = rows[i][..places].iter().all(|&entry| entry == rows[i][0]);
            if turns[i] {
                turning[found] = i;
                found += 1;
            }
        }
        // The greatest checked turning bit decides the exponent of the step.
        let mut exponent = 0;
        for (j, &bit) in turning[..bits].iter().enumerate() {
            if bit <= checked {
                exponent = j + numbers.h[bit].count_ones() as usize % 2;
            }
        }
        let mut differential = [0; 4];
        differential[..bits - exponent].copy_from_slice(&turning[exponent..bits]);
        if exponent < bits && differential[0] == 0 {
            return Err(Flaw { number: 5, column: 0 });
        }
        Ok(Code { numbers, width, rows, turns, differential, differentials: bits - exponent, step: 1 << exponent })
    }

    pub fn numbers(&self) -> Numbers {
        self.numbers
    }

    /// `n`, the bits of a label.
    pub fn width(&self) -> usize {
        self.width
    }

    pub fn step(&self) -> u8 {
        self.step
    }

    /// The label bits of the differential rows, the lowest first.
    pub fn differential(&self) -> &[usize] {
        &self.differential[..self.differentials]
    }

    /// Whether label bit `i` turns every place alike.
    pub fn turning(&self, i: usize) -> bool {
        self.turns[i]
    }

    /// The row that label bit `i` picks.
    pub fn row(&self, i: usize) -> Row {
        self.rows[i]
    }

    /// The phases of a label. The picked turning rows are added as numbers. The others are added modulo 2 in each
    /// level; an entry of level `i` is 0 or `2^i`, so that one exclusive or of the entries does it for all levels.
    pub fn symbol(&self, label: u16) -> Symbol {
        let mut turn = 0;
        let mut levels = [0; 4];
        for i in 0..self.width {
            if label >> i & 1 == 0 {
                continue;
            }
            if self.turns[i] {
                turn += self.rows[i][0];
            } else {
                for (level, entry) in levels.iter_mut().zip(self.rows[i]) {
                    *level ^= entry;
                }
            }
        }
        let mut phases = [0; 4];
        for p in 0..self.numbers.places as usize {
            phases[p] = (turn + levels[p]) & (self.numbers.phases - 1);
        }
        Symbol { places: self.numbers.places, phases }
    }
}
