//! Lists of calls on a receiver: random ones, what a turning makes of them, what they answer, and their text for `rig`.
use crate::cases::{book_of, good_numbers, paste};
use outside::model::front::turn_symbol;
use outside::model::{Code, Engine, Front, Kind, Numbers, Receiver};
use outside::random::Random;

#[derive(Clone, Debug, PartialEq, Eq)]
pub enum Call {
    Open(Numbers),
    /// A front by its number, and a reading.
    Take(u8, Vec<u16>),
    Tell,
    /// A buffer of so many words.
    Deliver(usize),
}

#[derive(Clone, Debug, PartialEq, Eq)]
pub enum Answer {
    Refused(u8),
    Opened(u16),
    Taken,
    Told {
        count: u16,
        worth: u64,
        sole: bool,
    },
    /// The answer and the whole buffer after it.
    Delivered {
        count: u16,
        sole: bool,
        words: Vec<u16>,
    },
}

/// What a buffer holds before `deliver`.
pub const UNTOUCHED: u16 = 0xa5a5;

/// A receiver that can be called.
pub trait Side {
    fn call(&mut self, call: &Call) -> Answer;
}

impl<E: Engine> Side for Receiver<E> {
    fn call(&mut self, call: &Call) -> Answer {
        let answer = match call {
            Call::Open(numbers) => self.open(*numbers).map(Answer::Opened),
            Call::Take(front, reading) => self.take(*front, reading).map(|()| Answer::Taken),
            Call::Tell => {
                self.tell().map(|told| Answer::Told { count: told.count, worth: told.worth, sole: told.sole })
            }
            Call::Deliver(length) => {
                let mut words = vec![UNTOUCHED; *length];
                let answer = self.deliver(&mut words);
                assert!(answer.is_ok() || words.iter().all(|&word| word == UNTOUCHED));
                answer.map(|said| Answer::Delivered { count: said.count, sole: said.sole, words })
            }
        };
        answer.unwrap_or_else(Answer::Refused)
    }
}

pub const PLAIN: [u8; 2] = [0, 2];
pub const STRIKE: [u8; 2] = [1, 3];

pub fn fronts_of(kind: Kind) -> [u8; 2] {
    match kind {
        Kind::Plain => PLAIN,
        Kind::Strike => STRIKE,
    }
}

/// The name that `rig` has for a front.
fn front_name(front: u8) -> &'static str {
    ["table", "strike", "lost-table", "lost-strike"].get(usize::from(front)).copied().unwrap_or("none")
}

/// The most cells that `rig` makes: 257 rows of 256, more than which serve no code.
const RIG_CELLS: usize = 65_792;

/// What to paste into `rig`: the receiver and the calls. A code that is none cannot be in a book, and a front that is
/// none has no name; such calls change nothing and are left out, and the text says so.
pub fn rig_text(kind: Kind, cells: usize, calls: &[Call]) -> String {
    let name = match kind {
        Kind::Plain => "plain",
        Kind::Strike => "strike",
    };
    let mut codes: Vec<Numbers> = Vec::new();
    let mut lines = vec![format!("cells {name} {}", cells.min(RIG_CELLS))];
    let mut left_out = Vec::new();
    for call in calls {
        match call {
            Call::Open(numbers) if Code::new(*numbers).is_err() => left_out.push(format!("{call:?}")),
            Call::Take(front, _) if *front > 3 => left_out.push(format!("{call:?}")),
            Call::Open(numbers) => {
                let entry = codes.iter().position(|code| code == numbers).unwrap_or_else(|| {
                    codes.push(*numbers);
                    codes.len() - 1
                });
                lines.push(format!("open {entry}"));
            }
            Call::Take(front, reading) => {
                let words: String = reading.iter().map(|word| format!(" {word}")).collect();
                lines.push(format!("take {}{words}", front_name(*front)));
            }
            Call::Tell => lines.push("tell".to_string()),
            Call::Deliver(length) => lines.push(format!("deliver {length}")),
        }
    }
    let mut text = paste(&book_of(&codes), &lines);
    if !left_out.is_empty() {
        text += &format!("\nleft out, since rig has no text for it: {}", left_out.join("; "));
    }
    text
}

/// The call as it comes with its reading turned by so many phases: place by place, if a block of this code is open and
/// the reading has its length. Which number names no front turns nothing.
pub fn turned(call: &Call, open: Option<&Code>, turning: usize) -> Call {
    let mut call = call.clone();
    if let (Call::Take(front, reading), Some(code)) = (&mut call, open) {
        if let Some(front) = Front::numbered(*front) {
            let numbers = code.numbers();
            turn_symbol(&front, numbers.places.into(), numbers.phases.into(), turning, reading);
        }
    }
    call
}

/// Whether two answers agree as those of equal turnings have to: all but the words of a path that is not sole.
pub fn agree(one: &Answer, other: &Answer) -> bool {
    match (one, other) {
        (
            Answer::Delivered { count, sole: false, words },
            Answer::Delivered { count: other_count, sole: other_sole, words: other_words },
        ) => {
            let beyond = usize::from(*count);
            count == other_count && !other_sole && words[beyond..] == other_words[beyond..]
        }
        _ => one == other,
    }
}

/// A code of at most so many label bits and of at most so much memory.
pub fn any_code(random: &mut Random, most_bits: usize, most_memory: usize) -> Numbers {
    loop {
        let places: u8 = random.pick(&[1, 2, 4]);
        let phases: u8 = random.pick(&[4, 8, 16]);
        let offset = random.below(places.into()) as u8;
        let bits = phases.trailing_zeros() as usize * usize::from(places) - usize::from(offset);
        let checked = random.between(1, (bits - 1).min(3)) as u8;
        let memory = random.between(1, most_memory) as u8;
        if bits <= most_bits {
            if let Some(numbers) = good_numbers(random, places, phases, offset, checked, memory) {
                return numbers;
            }
        }
    }
}

/// A number of cells around what the codes want: too few for some, just enough, or room for many symbols.
pub fn any_cells(random: &mut Random, codes: &[Numbers]) -> usize {
    let wanted = random.pick(codes);
    let least = (usize::from(wanted.memory) + 2) << wanted.memory;
    match random.below(16) {
        0 => random.below(least),
        1 => least - 1,
        2 => least,
        3 => least + random.below(1 << wanted.memory),
        _ => least * random.between(1, 4) + random.below(9),
    }
}

/// How readings are made.
#[derive(Clone, Copy, Debug)]
pub enum Noise {
    /// Clean readings of a path's labels.
    Clean,
    /// The same with errors.
    Errors,
    /// Anything fit, of few values, so that many paths tie.
    Ties,
    /// Anything fit.
    Wild,
}

pub fn any_noise(random: &mut Random) -> Noise {
    random.pick(&[Noise::Clean, Noise::Errors, Noise::Errors, Noise::Ties, Noise::Ties, Noise::Wild])
}

/// A path of a code, label by label, from any state.
pub struct Walk {
    state: u16,
}

impl Walk {
    pub fn new(random: &mut Random, code: &Code) -> Walk {
        Walk { state: random.below(1 << code.numbers().memory) as u16 }
    }

    pub fn next(&mut self, random: &mut Random, code: &Code) -> u16 {
        let mut label = (random.below(1 << (code.width() - 1)) << 1) as u16;
        let numbers = code.numbers();
        for j in 1..=usize::from(numbers.checked) {
            if label >> j & 1 == 1 {
                self.state ^= numbers.h[j];
            }
        }
        if self.state % 2 == 1 {
            label += 1;
            self.state ^= numbers.h[0];
        }
        self.state /= 2;
        label
    }
}

/// A fit reading of one place.
fn place_reading(random: &mut Random, front: &Front, phases: usize, phase: usize, noise: Noise) -> Vec<u16> {
    match (front, noise) {
        (Front::Lost(below), _) => {
            let lost = match noise {
                Noise::Clean => false,
                _ => random.once_in(4),
            };
            let mut reading = vec![u16::from(lost)];
            if lost && random.once_in(2) {
                reading.extend((0..below.width(phases)).map(|_| random.short()));
            } else {
                reading.extend(place_reading(random, below, phases, phase, noise));
            }
            reading
        }
        (_, Noise::Clean) => front.clean(phases, phase).expect("a phase"),
        (Front::Table, Noise::Errors) => {
            let mut reading: Vec<u16> = (0..phases)
                .map(|m| m.abs_diff(phase).min(phases - m.abs_diff(phase)) as u16 * random.below(40) as u16)
                .collect();
            if random.once_in(4) {
                let at = random.below(phases);
                reading[at] = 0;
            }
            reading
        }
        (Front::Table, Noise::Ties) => (0..phases).map(|_| random.below(3) as u16).collect(),
        (Front::Table, Noise::Wild) => (0..phases).map(|_| random.short() >> random.below(16)).collect(),
        (Front::Strike, Noise::Errors) => vec![((phase + phases + random.below(3) - 1) % phases) as u16],
        (Front::Strike, _) => vec![random.below(phases) as u16],
    }
}

/// A fit reading of a symbol with these phases.
pub fn symbol_reading(random: &mut Random, front: &Front, code: &Code, label: u16, noise: Noise) -> Vec<u16> {
    let symbol = code.symbol(label);
    let phases = usize::from(code.numbers().phases);
    let sent = symbol.phases[..usize::from(symbol.places)].iter();
    sent.flat_map(|&phase| place_reading(random, front, phases, phase.into(), noise)).collect()
}

/// A reading of another length, or an unfit one if the front has any.
pub fn spoil(random: &mut Random, front: &Front, phases: usize, reading: &mut Vec<u16>) {
    match random.below(6) {
        0 => reading.push(random.below(4) as u16),
        1 => {
            reading.pop();
        }
        2 => reading.clear(),
        _ => {
            let width = front.width(phases);
            let at = random.below(reading.len() / width) * width;
            let mut front = front;
            let mut depth = 0;
            while let Front::Lost(below) = front {
                if reading[at + depth] == 1 || random.once_in(2) {
                    reading[at + depth] = random.between(2, 65_535) as u16;
                    return;
                }
                front = below;
                depth += 1;
            }
            if *front == Front::Strike {
                reading[at + depth] = random.pick(&[phases as u16, phases as u16 + 1, u16::MAX]);
            } else {
                reading.push(0);
            }
        }
    }
}

/// A random list of calls on a receiver of so many cells: mostly sensible, with every misuse now and then.
pub fn any_list(random: &mut Random, kind: Kind, cells: usize, codes: &[Numbers], length: usize) -> Vec<Call> {
    struct Open {
        code: Code,
        walk: Walk,
        noise: Noise,
        taken: usize,
    }
    let mut open: Option<Open> = None;
    let mut calls = Vec::new();
    while calls.len() < length {
        let closed = open.is_none() && !random.once_in(4);
        let call = match if closed { 0 } else { random.below(20) } {
            0 => {
                let mut numbers = random.pick(codes);
                if random.once_in(8) {
                    match random.below(3) {
                        0 => numbers.memory = random.pick(&[0, 9]),
                        1 => numbers.h[0] ^= 1,
                        _ => {
                            (numbers.places, numbers.phases, numbers.offset, numbers.checked, numbers.memory) =
                                (2, 4, 1, 1, 2);
                            numbers.h = [5, 2, 0, 0];
                        }
                    }
                }
                if let Ok(code) = Code::new(numbers) {
                    if cells >= (usize::from(numbers.memory) + 2) << numbers.memory {
                        let (walk, noise) = (Walk::new(random, &code), any_noise(random));
                        open = Some(Open { code, walk, noise, taken: 0 });
                    }
                }
                Call::Open(numbers)
            }
            1..=13 => {
                let number = match random.below(24) {
                    0 => random.below(4) as u8,
                    1 => random.pick(&[4, 5, 127, 128, 255]),
                    _ => random.pick(&fronts_of(kind)),
                };
                let reading = match (&mut open, Front::numbered(number)) {
                    (Some(open), Some(front)) => {
                        let label = open.walk.next(random, &open.code);
                        let mut reading = symbol_reading(random, &front, &open.code, label, open.noise);
                        if random.once_in(12) {
                            spoil(random, &front, open.code.numbers().phases.into(), &mut reading);
                        } else {
                            open.taken += 1;
                        }
                        reading
                    }
                    _ => (0..random.below(9)).map(|_| random.below(9) as u16).collect(),
                };
                Call::Take(number, reading)
            }
            14..=16 => Call::Tell,
            _ => {
                let taken = open.as_ref().map_or(0, |open| open.taken);
                Call::Deliver(match random.below(8) {
                    0 => taken.saturating_sub(2),
                    1 => 0,
                    2..=4 => taken.saturating_sub(1),
                    _ => taken + random.below(4),
                })
            }
        };
        calls.push(call);
    }
    calls
}
