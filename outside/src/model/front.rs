//! Fronts: from the reading of one place to a worth of each phase. The model holds a score by its worth alone.

/// The kind of score that a front gives and a receiver adds up.
#[derive(Clone, Copy, Debug, PartialEq, Eq)]
pub enum Kind {
    Plain,
    Strike,
}

/// A front; `Lost` puts one word before the reading of any front, another layer too.
#[derive(Clone, Debug, PartialEq, Eq)]
pub enum Front {
    Table,
    Strike,
    Lost(Box<Front>),
}

/// The worth of one strike.
pub const STRIKE: u32 = 65_536;

impl Front {
    pub fn lost(below: Front) -> Front {
        Front::Lost(Box::new(below))
    }

    /// The front of a number of include/kamzhules.h.
    pub fn numbered(number: u8) -> Option<Front> {
        match number {
            0 => Some(Front::Table),
            1 => Some(Front::Strike),
            2 => Some(Front::lost(Front::Table)),
            3 => Some(Front::lost(Front::Strike)),
            _ => None,
        }
    }

    pub fn kind(&self) -> Kind {
        match self {
            Front::Table => Kind::Plain,
            Front::Strike => Kind::Strike,
            Front::Lost(below) => below.kind(),
        }
    }

    /// `W`, the words of a reading.
    pub fn width(&self, phases: usize) -> usize {
        match self {
            Front::Table => phases,
            Front::Strike => 1,
            Front::Lost(below) => 1 + below.width(phases),
        }
    }

    pub fn fit(&self, phases: usize, reading: &[u16]) -> bool {
        if reading.len() != self.width(phases) {
            return false;
        }
        match self {
            Front::Table => true,
            Front::Strike => usize::from(reading[0]) < phases,
            Front::Lost(below) => match reading[0] {
                0 => below.fit(phases, &reading[1..]),
                first => first == 1,
            },
        }
    }

    /// The worth of a phase; 0 for an unfit reading and for a phase that is none.
    pub fn worth(&self, phases: usize, reading: &[u16], phase: usize) -> u32 {
        if phase >= phases || !self.fit(phases, reading) {
            return 0;
        }
        match self {
            Front::Table => u32::from(reading[phase]),
            Front::Strike => {
                let apart = usize::from(reading[0]).abs_diff(phase);
                let distance = apart.min(phases - apart) as u32;
                if distance >= 2 {
                    STRIKE + distance
                } else {
                    distance
                }
            }
            Front::Lost(_) if reading[0] == 1 => 0,
            Front::Lost(below) => below.worth(phases, &reading[1..], phase),
        }
    }

    /// The worths of all phases by a fit reading, in one pass.
    pub fn scores(&self, reading: &[u16], scores: &mut [u32]) {
        match self {
            Front::Table => {
                for (score, &word) in scores.iter_mut().zip(reading) {
                    *score = word.into();
                }
            }
            Front::Strike => {
                let phases = scores.len();
                let from = usize::from(reading[0]);
                for apart in 0..phases {
                    let distance = apart.min(phases - apart) as u32;
                    let strikes = u32::from(distance >= 2);
                    scores[(from + apart) % phases] = strikes * STRIKE + distance;
                }
            }
            Front::Lost(_) if reading[0] == 1 => scores.fill(0),
            Front::Lost(below) => below.scores(&reading[1..], scores),
        }
    }

    /// Turns a reading by one phase; an unfit one stays.
    pub fn turn(&self, phases: usize, reading: &mut [u16]) {
        if !self.fit(phases, reading) {
            return;
        }
        match self {
            Front::Table if reading.is_empty() => (),
            Front::Table => reading.rotate_right(1),
            Front::Strike => reading[0] = ((usize::from(reading[0]) + 1) % phases) as u16,
            Front::Lost(_) if reading[0] == 1 => (),
            Front::Lost(below) => below.turn(phases, &mut reading[1..]),
        }
    }

    /// The clean reading of a phase, if it is one.
    pub fn clean(&self, phases: usize, phase: usize) -> Option<Vec<u16>> {
        if phase >= phases {
            return None;
        }
        Some(match self {
            Front::Table => (0..phases).map(|m| u16::from(m != phase)).collect(),
            Front::Strike => vec![phase as u16],
            Front::Lost(below) => {
                let mut reading = vec![0];
                reading.extend(below.clean(phases, phase)?);
                reading
            }
        })
    }
}

/// The worths of one symbol: of each place and phase.
pub type Scores = [[u32; 16]; 4];

/// Turns the reading of a symbol place by place, by one phase `times` times. One of another length stays as it is.
pub fn turn_symbol(front: &Front, places: usize, phases: usize, times: usize, reading: &mut [u16]) {
    let width = front.width(phases);
    if reading.len() != places * width {
        return;
    }
    for place in reading.chunks_exact_mut(width) {
        for _ in 0..times {
            front.turn(phases, place);
        }
    }
}
