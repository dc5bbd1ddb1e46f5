//! The receiver of the static library beside the model, call by call, and two library receivers whose readings are turned.
//! Every random case follows from the seed that its test prints; where two sides differ, the test says what to paste into
//! `rig`.
#[allow(dead_code)]
mod cases;
#[allow(dead_code)]
mod lists;

use cases::{any_numbers, Guarded};
use lists::{agree, any_cells, any_code, any_list, fronts_of, rig_text, turned, Answer, Call, Side, Walk, UNTOUCHED};
use outside::ffi;
use outside::ffi::receiver::{plain, strike, Delivered, PlainCell, StrikeCell, Told, NO_BLOCK};
use outside::model::receiver::{capacity, MOST};
use outside::model::{Code, Front, Kind, Numbers, Receiver, Search};
use outside::random::Random;

const RANDOM_LISTS: usize = 100_000;
/// Cells, words of readings and words of buffers that lie on either side and must stay as they are.
const EDGE: usize = 8;

/// The calls of one kind of receiver.
trait Cells: Copy + PartialEq + std::fmt::Debug {
    const KIND: Kind;
    fn any(random: &mut Random) -> Self;
    fn edge() -> Self;
    fn open(r: &mut ffi::receiver::Receiver, cells: &mut [Self], code: ffi::Code, symbols: &mut u16) -> u8;
    fn take(r: &mut ffi::receiver::Receiver, cells: &mut [Self], front: u8, reading: &[u16]) -> u8;
    fn tell(r: &ffi::receiver::Receiver, cells: &[Self], told: &mut Told) -> u8;
    fn deliver(r: &ffi::receiver::Receiver, cells: &[Self], buffer: &mut [u16], delivered: &mut Delivered) -> u8;
}

macro_rules! cells {
    ($cell:ident, $kind:ident, $variant:ident, $any:expr, $edge:expr) => {
        impl Cells for $cell {
            const KIND: Kind = Kind::$variant;

            fn any(random: &mut Random) -> $cell {
                let any: fn(&mut Random) -> $cell = $any;
                any(random)
            }

            fn edge() -> $cell {
                $edge
            }

            fn open(r: &mut ffi::receiver::Receiver, cells: &mut [$cell], code: ffi::Code, symbols: &mut u16) -> u8 {
                $kind::open(r, cells, code, symbols)
            }

            fn take(r: &mut ffi::receiver::Receiver, cells: &mut [$cell], front: u8, reading: &[u16]) -> u8 {
                $kind::take(r, cells, front, reading)
            }

            fn tell(r: &ffi::receiver::Receiver, cells: &[$cell], told: &mut Told) -> u8 {
                $kind::tell(r, cells, told)
            }

            fn deliver(r: &ffi::receiver::Receiver, cells: &[$cell], buffer: &mut [u16], said: &mut Delivered) -> u8 {
                $kind::deliver(r, cells, buffer, said)
            }
        }
    };
}

fn any_u32(random: &mut Random) -> u32 {
    let wide = (u32::from(random.short()) << 16) | u32::from(random.short());
    wide >> random.below(32)
}

cells!(
    PlainCell,
    plain,
    Plain,
    |random| PlainCell { score: any_u32(random), label: random.short(), sole: random.byte() },
    PlainCell { score: 0xa5a5_a5a5, label: 0xa5a5, sole: 0xa5 }
);
cells!(
    StrikeCell,
    strike,
    Strike,
    |random| StrikeCell {
        distance: any_u32(random),
        strikes: random.short(),
        label: random.short(),
        sole: random.byte()
    },
    StrikeCell { distance: 0xa5a5_a5a5, strikes: 0xa5a5, label: 0xa5a5, sole: 0xa5 }
);

/// A receiver of the library with its cells, and memory on both sides of each that no call may write.
struct Library<C: Cells> {
    receiver: Guarded<ffi::receiver::Receiver>,
    cells: Vec<C>,
}

const NOT_TOLD: Told = Told { worth: 0xa5a5_a5a5_a5a5_a5a5, count: 0xa5a5, sole: 0xa5 };
const NOT_DELIVERED: Delivered = Delivered { count: 0xa5a5, sole: 0xa5 };

impl<C: Cells> Library<C> {
    fn new(random: &mut Random, cells: usize) -> Library<C> {
        // What a receiver's cells hold before its first open is nobody's business.
        let mut memory = vec![C::edge(); EDGE];
        memory.extend((0..cells).map(|_| C::any(random)));
        memory.extend([C::edge(); EDGE]);
        Library { receiver: Guarded::new(NO_BLOCK), cells: memory }
    }

    fn check(&self) {
        self.receiver.check();
        let inner = EDGE..self.cells.len() - EDGE;
        let untouched = |cells: &[C]| cells.iter().all(|&cell| cell == C::edge());
        assert!(untouched(&self.cells[..inner.start]) && untouched(&self.cells[inner.end..]), "beside the cells");
    }

    fn open(&mut self, code: ffi::Code) -> (u8, u16) {
        let mut symbols = Guarded::new(UNTOUCHED);
        let inner = EDGE..self.cells.len() - EDGE;
        let number = C::open(&mut self.receiver.value, &mut self.cells[inner], code, &mut symbols.value);
        symbols.check();
        self.check();
        (number, symbols.value)
    }

    fn take(&mut self, front: u8, reading: &[u16]) -> u8 {
        let mut memory = vec![UNTOUCHED; EDGE];
        memory.extend(reading);
        memory.extend([UNTOUCHED; EDGE]);
        let before = memory.clone();
        let inner = EDGE..self.cells.len() - EDGE;
        let handed = &memory[EDGE..EDGE + reading.len()];
        let number = C::take(&mut self.receiver.value, &mut self.cells[inner], front, handed);
        assert_eq!(memory, before, "the reading was written");
        self.check();
        number
    }

    fn tell(&self) -> (u8, Told) {
        let mut told = Guarded::new(NOT_TOLD);
        let (receiver, cells) = (self.receiver.value, self.cells.clone());
        let number = C::tell(&self.receiver.value, &self.cells[EDGE..self.cells.len() - EDGE], &mut told.value);
        told.check();
        self.check();
        assert!(self.receiver.value == receiver && self.cells == cells, "tell changed the receiver");
        (number, told.value)
    }

    fn deliver(&self, length: usize) -> (u8, Delivered, Vec<u16>) {
        let mut said = Guarded::new(NOT_DELIVERED);
        let mut memory = vec![UNTOUCHED; EDGE + length + EDGE];
        let (receiver, cells) = (self.receiver.value, self.cells.clone());
        let number = C::deliver(
            &self.receiver.value,
            &self.cells[EDGE..self.cells.len() - EDGE],
            &mut memory[EDGE..EDGE + length],
            &mut said.value,
        );
        said.check();
        self.check();
        assert!(self.receiver.value == receiver && self.cells == cells, "deliver changed the receiver");
        let beside = memory[..EDGE].iter().chain(&memory[EDGE + length..]);
        assert!(beside.copied().all(|word| word == UNTOUCHED), "beside the buffer");
        (number, said.value, memory[EDGE..EDGE + length].to_vec())
    }
}

/// A mark, which is 0 or 1.
fn mark(byte: u8) -> bool {
    assert!(byte <= 1, "a mark of {byte}");
    byte == 1
}

impl<C: Cells> Side for Library<C> {
    /// Makes the call, and sees that the struct is what the answer says and that a refused call wrote nothing.
    fn call(&mut self, call: &Call) -> Answer {
        let mut due = self.receiver.value;
        let answer = match call {
            Call::Open(numbers) => match self.open((*numbers).into()) {
                (0, symbols) => {
                    due = ffi::receiver::Receiver { code: (*numbers).into(), count: 0, open: 1 };
                    Answer::Opened(symbols)
                }
                (number, symbols) => {
                    assert_eq!(symbols, UNTOUCHED);
                    Answer::Refused(number)
                }
            },
            Call::Take(front, reading) => match self.take(*front, reading) {
                0 => {
                    due.count += 1;
                    Answer::Taken
                }
                number => Answer::Refused(number),
            },
            Call::Tell => match self.tell() {
                (0, told) => Answer::Told { count: told.count, worth: told.worth, sole: mark(told.sole) },
                (number, told) => {
                    assert_eq!(told, NOT_TOLD);
                    Answer::Refused(number)
                }
            },
            Call::Deliver(length) => match self.deliver(*length) {
                (0, said, words) => Answer::Delivered { count: said.count, sole: mark(said.sole), words },
                (number, said, words) => {
                    assert!(said == NOT_DELIVERED && words.iter().all(|&word| word == UNTOUCHED));
                    Answer::Refused(number)
                }
            },
        };
        assert_eq!(self.receiver.value, due, "the struct after {call:?}");
        answer
    }
}

#[test]
fn structs_have_the_sizes_of_the_header() {
    use std::mem::{align_of, size_of};
    assert_eq!((size_of::<PlainCell>(), align_of::<PlainCell>()), (8, 4));
    assert_eq!((size_of::<StrikeCell>(), align_of::<StrikeCell>()), (12, 4));
    assert_eq!((size_of::<ffi::receiver::Receiver>(), align_of::<ffi::receiver::Receiver>()), (18, 2));
    assert_eq!((size_of::<Told>(), align_of::<Told>()), (16, 8));
    assert_eq!((size_of::<Delivered>(), align_of::<Delivered>()), (4, 2));
}

/// What came up in the lists, so that a test can see that it tried everything.
struct Seen {
    refused: [usize; 256],
    told: [usize; 2],
    delivered: [usize; 2],
    taken: usize,
}

impl Seen {
    fn new() -> Seen {
        Seen { refused: [0; 256], told: [0; 2], delivered: [0; 2], taken: 0 }
    }

    fn note(&mut self, answer: &Answer) {
        match answer {
            Answer::Refused(number) => self.refused[usize::from(*number)] += 1,
            Answer::Opened(_) => (),
            Answer::Taken => self.taken += 1,
            Answer::Told { sole, .. } => self.told[usize::from(*sole)] += 1,
            Answer::Delivered { sole, .. } => self.delivered[usize::from(*sole)] += 1,
        }
    }

    fn print(&self) {
        println!(
            "{} symbols taken; told not sole and sole {:?}, delivered {:?}",
            self.taken, self.told, self.delivered
        );
        let refused = self.refused.iter().enumerate().filter(|(_, &count)| count > 0);
        println!("refused, by number: {:?}", refused.collect::<Vec<_>>());
    }
}

fn compare_list<C: Cells>(random: &mut Random, cells: usize, calls: &[Call], about: &str, seen: &mut Seen) {
    let mut library: Library<C> = Library::new(random, cells);
    let mut model: Receiver<Search> = Receiver::new(C::KIND, cells);
    for (i, call) in calls.iter().enumerate() {
        let (said, due) = (library.call(call), model.call(call));
        if said != due {
            let text = rig_text(C::KIND, cells, &calls[..=i]);
            panic!("{about}, {call:?}: the library answers {said:?}, the model {due:?}\n{text}");
        }
        seen.note(&said);
    }
}

#[test]
fn random_call_lists() {
    let seed = 21;
    println!("seed {seed}: {RANDOM_LISTS} lists");
    let mut random = Random::new(seed);
    let mut seen = Seen::new();
    for case in 0..RANDOM_LISTS {
        let (bits, memory) = match case % 200 {
            0 => (16, 8),
            1..=10 => (8, 8),
            _ => (6, 3),
        };
        let codes: Vec<Numbers> = (0..random.between(1, 3)).map(|_| any_code(&mut random, bits, memory)).collect();
        let cells = any_cells(&mut random, &codes);
        let kind = random.pick(&[Kind::Plain, Kind::Strike]);
        let length = random.between(3, 24);
        let calls = any_list(&mut random, kind, cells, &codes, length);
        let about = format!("seed {seed}, case {case}");
        match kind {
            Kind::Plain => compare_list::<PlainCell>(&mut random, cells, &calls, &about, &mut seen),
            Kind::Strike => compare_list::<StrikeCell>(&mut random, cells, &calls, &about, &mut seen),
        }
    }
    seen.print();
    for number in [3, 4, 5, 8, 9, 10, 20, 21, 22, 23, 253] {
        assert!(seen.refused[number] > 1_000, "{number} was hardly tried");
    }
    assert_eq!(seen.refused[24], 0);
    assert!(seen.taken > RANDOM_LISTS && seen.delivered[0] > 1_000 && seen.delivered[1] > 1_000);
}

/// Blocks of 256 symbols: the next is refused, and more cells hold no more.
#[test]
fn full_blocks() {
    let seed = 22;
    println!("seed {seed}");
    let mut random = Random::new(seed);
    let mut seen = Seen::new();
    for case in 0..60 {
        let numbers = any_code(&mut random, 6, if case % 10 == 0 { 8 } else { 4 });
        let code = Code::new(numbers).expect("a code");
        let cells = ((MOST + 1) << numbers.memory) + random.pick(&[0, 1, 4_000]);
        assert_eq!(capacity(cells, numbers.memory), 256);
        for kind in [Kind::Plain, Kind::Strike] {
            let noise = lists::any_noise(&mut random);
            let mut walk = Walk::new(&mut random, &code);
            let mut calls = vec![Call::Open(numbers)];
            for _ in 0..257 {
                let number = random.pick(&fronts_of(kind));
                let front = Front::numbered(number).expect("a front");
                let label = walk.next(&mut random, &code);
                calls.push(Call::Take(number, lists::symbol_reading(&mut random, &front, &code, label, noise)));
            }
            calls.extend([Call::Tell, Call::Deliver(254), Call::Deliver(255), Call::Deliver(300)]);
            let about = format!("seed {seed}, case {case}");
            match kind {
                Kind::Plain => compare_list::<PlainCell>(&mut random, cells, &calls, &about, &mut seen),
                Kind::Strike => compare_list::<StrikeCell>(&mut random, cells, &calls, &about, &mut seen),
            }
        }
    }
    seen.print();
    assert_eq!((seen.taken, seen.refused[22], seen.refused[10]), (60 * 2 * 256, 120, 120));
}

/// The greatest place scores over a whole block of four places: 1,024 of them add up exactly.
#[test]
fn the_greatest_sums_are_exact() {
    let mut random = Random::new(23);
    let numbers = Numbers { places: 4, phases: 4, offset: 3, checked: 3, memory: 3, h: [0o11, 0o3, 0o4, 0o2] };
    let mut library: Library<PlainCell> = Library::new(&mut random, 257 << 3);
    assert_eq!(library.call(&Call::Open(numbers)), Answer::Opened(256));
    for _ in 0..256 {
        assert_eq!(library.call(&Call::Take(0, vec![65_535; 16])), Answer::Taken);
    }
    let due = Answer::Told { count: 256, worth: 1_024 * 65_535, sole: false };
    assert_eq!(library.call(&Call::Tell), due);
}

/// A reading turned by the library, place by place.
fn turned_by_library(call: &Call, open: Option<&Code>, turning: usize) -> Call {
    let mut call = call.clone();
    if let (Call::Take(number, reading), Some(code)) = (&mut call, open) {
        let numbers = code.numbers();
        let Some(front) = Front::numbered(*number) else { return call };
        let width = front.width(numbers.phases.into());
        if reading.len() == width * usize::from(numbers.places) {
            for place in reading.chunks_exact_mut(width) {
                for _ in 0..turning {
                    assert_eq!(ffi::receiver::turn(*number, numbers.phases, place), 0);
                }
            }
        }
    }
    call
}

/// The code of the open block in a library receiver.
fn open_code<C: Cells>(library: &Library<C>) -> Option<Code> {
    let receiver = library.receiver.value;
    let c = receiver.code;
    let numbers = Numbers {
        places: c.places,
        phases: c.phases,
        offset: c.offset,
        checked: c.checked,
        memory: c.memory,
        h: [c.h0, c.h1, c.h2, c.h3],
    };
    (receiver.open == 1).then(|| Code::new(numbers).expect("a code was opened"))
}

fn play_turned<C: Cells>(
    random: &mut Random,
    cells: usize,
    calls: &[Call],
    t: usize,
    u: usize,
) -> Vec<(Answer, Answer)> {
    let mut one: Library<C> = Library::new(random, cells);
    let mut other: Library<C> = Library::new(random, cells);
    let answers = calls.iter().map(|call| {
        let first = one.call(&turned_by_library(call, open_code(&one).as_ref(), t));
        let second = other.call(&turned_by_library(call, open_code(&other).as_ref(), u));
        (first, second)
    });
    answers.collect()
}

/// Two receivers whose readings are turned agree wherever the step of each opened code divides the difference.
#[test]
fn equal_turnings_are_not_noticed() {
    let seed = 24;
    let mut random = Random::new(seed);
    let mut seen = Seen::new();
    for case in 0..20_000 {
        let kind = random.pick(&[Kind::Plain, Kind::Strike]);
        let codes: Vec<Numbers> = (0..random.between(1, 3)).map(|_| any_code(&mut random, 8, 4)).collect();
        let step = codes.iter().map(|&code| usize::from(Code::new(code).expect("a code").step())).max().expect("one");
        let t = random.below(16);
        let u = (t % step + step * random.below(16 / step)) % 16;
        let cells = any_cells(&mut random, &codes);
        let length = random.between(4, 24);
        let calls = any_list(&mut random, kind, cells, &codes, length);
        let answers = match kind {
            Kind::Plain => play_turned::<PlainCell>(&mut random, cells, &calls, t, u),
            Kind::Strike => play_turned::<StrikeCell>(&mut random, cells, &calls, t, u),
        };
        for (i, (first, second)) in answers.iter().enumerate() {
            if !agree(first, second) {
                let text = rig_text(kind, cells, &calls[..=i]);
                panic!("seed {seed}, case {case}: turned by {t} {first:?}, by {u} {second:?}\nunturned, {text}");
            }
            seen.note(first);
        }
    }
    println!("seed {seed}");
    seen.print();
    assert!(seen.delivered[1] > 1_000);
}

/// Where the step does not divide it, v + 1 clean symbols tell the receivers apart.
#[test]
fn unequal_turnings_are_noticed() {
    let seed = 25;
    let mut random = Random::new(seed);
    let mut told_apart = 0;
    for case in 0..3_000 {
        let numbers = any_code(&mut random, 8, if case % 8 == 0 { 8 } else { 4 });
        let code = Code::new(numbers).expect("a code");
        let (t, u) = (random.below(16), random.below(16));
        if t % usize::from(code.step()) == u % usize::from(code.step()) {
            continue;
        }
        let kind = random.pick(&[Kind::Plain, Kind::Strike]);
        let number = random.pick(&fronts_of(kind));
        let front = Front::numbered(number).expect("a front");
        let cells = (usize::from(numbers.memory) + 2) << numbers.memory;
        let found = (0..64).any(|_| {
            let mut walk = Walk::new(&mut random, &code);
            let mut calls = vec![Call::Open(numbers)];
            for _ in 0..=numbers.memory {
                let label = walk.next(&mut random, &code);
                let clean = lists::symbol_reading(&mut random, &front, &code, label, lists::Noise::Clean);
                // Turned back by t, so that the first receiver reads a path.
                calls.push(turned(&Call::Take(number, clean), Some(&code), 16 * usize::from(numbers.phases) - t));
            }
            calls.push(Call::Tell);
            let answers = match kind {
                Kind::Plain => play_turned::<PlainCell>(&mut random, cells, &calls, t, u),
                Kind::Strike => play_turned::<StrikeCell>(&mut random, cells, &calls, t, u),
            };
            let (Answer::Told { worth: first, .. }, Answer::Told { worth: second, .. }) = answers[answers.len() - 1]
            else {
                panic!("seed {seed}, case {case}: {answers:?}\n{}", rig_text(kind, cells, &calls));
            };
            assert_eq!(first, 0, "seed {seed}, case {case}, turned by {t}\n{}", rig_text(kind, cells, &calls));
            second != 0
        });
        assert!(found, "seed {seed}, case {case}: {numbers:?}, {front:?}, turned by {t} and {u}");
        told_apart += 1;
    }
    println!("seed {seed}: {told_apart} pairs of turnings told apart");
    assert!(told_apart > 1_000);
}

/// Turned and clean readings at every number of phases and every number of a front.
#[test]
fn turned_and_clean_readings() {
    let seed = 26;
    println!("seed {seed}: {RANDOM_LISTS} readings");
    let mut random = Random::new(seed);
    let mut seen = [0; 3];
    for case in 0..RANDOM_LISTS {
        let number = if random.once_in(16) { random.byte() } else { random.below(4) as u8 };
        let phases = if random.once_in(4) { random.byte() } else { random.pick(&[4, 8, 16]) };
        let front = Front::numbered(number);
        let width = front.as_ref().map_or(3, |front| front.width(phases.into()));
        let length = if random.once_in(8) { random.below(2 * width + 2) } else { width };
        let mut memory = vec![UNTOUCHED; EDGE];
        memory.extend((0..length).map(|_| random.short() >> random.pick(&[0, 8, 12, 13, 14, 15])));
        memory.extend([UNTOUCHED; EDGE]);
        let about =
            format!("seed {seed}, case {case}: front {number}, {phases} phases, {:?}", &memory[EDGE..][..length]);

        let (mut turned, mut due) = (memory.clone(), memory.clone());
        let said = ffi::receiver::turn(number, phases, &mut turned[EDGE..EDGE + length]);
        if let Some(front) = &front {
            front.turn(phases.into(), &mut due[EDGE..EDGE + length]);
        }
        assert_eq!((said, turned), (if front.is_some() { 0 } else { 253 }, due), "turn, {about}");

        let phase = if random.once_in(4) { random.byte() } else { random.below(usize::from(phases) + 1) as u8 };
        let (mut clean, mut due) = (memory.clone(), memory);
        let said = ffi::receiver::clean(number, phases, phase, &mut clean[EDGE..EDGE + length]);
        let words = front.as_ref().map(|front| front.clean(phases.into(), phase.into()));
        let number = match words {
            None => 253,
            Some(Some(words)) if words.len() == length => {
                due[EDGE..EDGE + length].copy_from_slice(&words);
                0
            }
            Some(_) => 255,
        };
        assert_eq!((said, clean), (number, due), "clean, phase {phase}, {about}");
        seen[match number {
            0 => 0,
            253 => 1,
            _ => 2,
        }] += 1;
    }
    println!("clean, no front, nowhere: {seen:?}");
    assert!(seen.iter().all(|&count| count > 1_000));
}

fn any_bytes<C: Cells>(random: &mut Random, about: &str) -> [usize; 3] {
    let numbers = if random.once_in(3) { any_numbers(random) } else { any_code(random, 8, 8) };
    let cells = match random.below(8) {
        0 => random.below(8),
        1 => (usize::from(numbers.memory % 9) + 2) << (numbers.memory % 9),
        _ => random.below(600),
    };
    let mut library: Library<C> = Library::new(random, cells);
    let rows = cells >> (numbers.memory % 9);
    library.receiver.value = ffi::receiver::Receiver {
        code: numbers.into(),
        count: match random.below(4) {
            0 => random.short(),
            1 => random.below(rows + 3) as u16,
            _ => random.below(12) as u16,
        },
        open: if random.once_in(8) { random.byte() } else { 1 },
    };
    let judged = Code::new(numbers);
    let mut ends = [0; 3];
    for _ in 0..random.between(1, 8) {
        let before = library.receiver.value;
        let wants = match &judged {
            _ if before.open != 1 => Some(21),
            Err(flaw) => Some(flaw.number),
            Ok(_) => None,
        };
        let (number, known): (u8, &[u8]) = match random.below(3) {
            0 => {
                let number = random.pick(&fronts_of(C::KIND));
                let front = Front::numbered(number).expect("a front");
                let reading = match &judged {
                    Ok(code) if !random.once_in(8) => {
                        let noise = lists::any_noise(random);
                        lists::symbol_reading(random, &front, code, 0, noise)
                    }
                    _ => (0..random.below(70)).map(|_| random.below(9) as u16).collect(),
                };
                let other = if number < 2 { number ^ 1 } else { 4 };
                let kept = library.receiver.value;
                assert_eq!((library.take(other, &reading), library.receiver.value), (253, kept), "{about}");
                (library.take(number, &reading), &[0, 3, 4, 5, 8, 9, 21, 22])
            }
            1 => {
                let (number, told) = library.tell();
                assert!(number == 0 || told == NOT_TOLD, "{about}");
                (number, &[0, 3, 4, 5, 21])
            }
            _ => {
                let (number, said, words) = library.deliver(random.below(300));
                let untouched = said == NOT_DELIVERED && words.iter().all(|&word| word == UNTOUCHED);
                assert!(number == 0 || untouched, "{about}");
                (number, &[0, 3, 4, 5, 10, 21, 23, 24])
            }
        };
        assert!(known.contains(&number), "{about}: {number}");
        assert!(wants.is_none_or(|due| due == number), "{about}: {number}, but {wants:?} is due");
        assert!(number == 0 || library.receiver.value == before, "{about}: a refused call changed the struct");
        ends[match number {
            0 => 0,
            3..=5 | 21 => 1,
            _ => 2,
        }] += 1;
    }
    // Whatever it held, an open makes a good receiver of it.
    let numbers = any_code(random, 6, 3);
    let (mut model, call) = (Receiver::<Search>::new(C::KIND, cells), Call::Open(numbers));
    let due = model.call(&call);
    assert_eq!(library.call(&call), due, "{about}");
    if matches!(due, Answer::Opened(_)) {
        assert_eq!(library.call(&Call::Tell), model.call(&Call::Tell), "{about}");
    }
    ends
}

/// Receivers and cells with any bytes in them: each call ends, answers a number of its list, and writes nothing elsewhere;
/// the struct's own faults are told.
#[test]
fn receivers_with_any_bytes() {
    let seed = 27;
    println!("seed {seed}: {RANDOM_LISTS} receivers");
    let mut random = Random::new(seed);
    let mut ends = [0; 3];
    for case in 0..RANDOM_LISTS {
        let about = format!("seed {seed}, case {case}");
        let some = if case % 2 == 0 {
            any_bytes::<PlainCell>(&mut random, &about)
        } else {
            any_bytes::<StrikeCell>(&mut random, &about)
        };
        for (sum, count) in ends.iter_mut().zip(some) {
            *sum += count;
        }
    }
    println!("done, no block or no code, another refusal: {ends:?}");
    assert!(ends.iter().all(|&count| count > RANDOM_LISTS / 10));
}

/// Lists of no length may have no address either.
#[test]
fn no_buffer_at_all() {
    use ffi::receiver::raw;
    use std::ptr::{null, null_mut};
    let numbers = Numbers { places: 1, phases: 8, offset: 0, checked: 1, memory: 2, h: [5, 2, 0, 0] };
    let mut cells = [PlainCell::default(); 16];
    let (mut symbols, mut told, mut said) = (0, NOT_TOLD, NOT_DELIVERED);
    let mut receiver = NO_BLOCK;
    unsafe {
        assert_eq!(raw::kz_plain_open(&mut receiver, null_mut(), 0, numbers.into(), &mut symbols), 20);
        assert_eq!(raw::kz_plain_tell(&receiver, null(), 0, &mut told), 21);
        assert_eq!(raw::kz_plain_take(&mut receiver, null_mut(), 0, 0, null(), 0), 21);
        assert_eq!(raw::kz_plain_open(&mut receiver, cells.as_mut_ptr(), 16, numbers.into(), &mut symbols), 0);
        assert_eq!(raw::kz_plain_take(&mut receiver, cells.as_mut_ptr(), 16, 0, null(), 0), 8);
        assert_eq!(raw::kz_plain_deliver(&receiver, cells.as_ptr(), 16, null_mut(), 0, &mut said), 23);
        assert_eq!(raw::kz_turn(0, 8, null_mut(), 0), 0);
        assert_eq!(raw::kz_clean(0, 8, 1, null_mut(), 0), 255);
    }
    assert_eq!((symbols, told, said), (3, NOT_TOLD, NOT_DELIVERED));
}

/// The worked examples of docs/RECEIVER.md.
#[test]
fn the_worked_examples() {
    let mut random = Random::new(28);
    let code = Numbers { places: 1, phases: 8, offset: 0, checked: 1, memory: 2, h: [5, 2, 0, 0] };
    let clean = |phase: usize| Call::Take(0, (0..8).map(|m| u16::from(m != phase)).collect());
    let mut library: Library<PlainCell> = Library::new(&mut random, 20);
    assert_eq!(library.call(&Call::Open(code)), Answer::Opened(4));
    for phase in [4, 2, 3, 5] {
        assert_eq!(library.call(&clean(phase)), Answer::Taken);
    }
    let words = vec![3, 1, 2, UNTOUCHED];
    assert_eq!(library.call(&Call::Deliver(4)), Answer::Delivered { count: 3, sole: true, words });
    assert_eq!(library.call(&Call::Tell), Answer::Told { count: 4, worth: 0, sole: true });
    assert_eq!(library.call(&Call::Open(code)), Answer::Opened(4));
    for phase in [2, 0, 1, 3] {
        assert_eq!(library.call(&clean(phase)), Answer::Taken);
    }
    assert!(matches!(library.call(&Call::Tell), Answer::Told { worth, .. } if worth > 0));
    let mut few: Library<StrikeCell> = Library::new(&mut random, 15);
    assert_eq!(few.call(&Call::Open(code)), Answer::Refused(20));
    let mut enough: Library<StrikeCell> = Library::new(&mut random, 16);
    assert_eq!(enough.call(&Call::Open(code)), Answer::Opened(3));
}

/// The number of a definition: the last word of the line that begins with these words.
fn defined(text: &str, what: &str) -> u8 {
    let line = text.lines().find(|line| line.starts_with(&format!("{what} ="))).expect(what);
    line.split_whitespace().last().and_then(|word| word.parse().ok()).expect(what)
}

/// What the fronts' clean readings of phase 1 of 4 are, by the number of the front.
const CLEAN: [(&str, &[u16]); 4] = [
    ("KZ_TABLE", &[1, 0, 1, 1]),
    ("KZ_STRIKE", &[1]),
    ("KZ_LOST_TABLE", &[0, 1, 0, 1, 1]),
    ("KZ_LOST_STRIKE", &[0, 1]),
];

/// Every number that the header names for the receiver, beside the number of the definitions and what the library answers
/// to a call that provokes it. No call provokes 24.
#[test]
fn the_numbers_of_the_header() {
    let header = include_str!("../../include/kamzhules.h");
    let refusals = include_str!("../../crates/receiver/specs/Refusal.antt");
    let flaws = include_str!("../../crates/code/specs/Flaw.antt");
    let fronts = include_str!("../../crates/kamzhules/specs/Fronts.antt");
    let refusal = |name: &str| defined(refusals, &format!("refusal_number {name}"));
    let code = Numbers { places: 1, phases: 8, offset: 0, checked: 1, memory: 2, h: [5, 2, 0, 0] };
    let mut random = Random::new(29);
    let mut few: Library<PlainCell> = Library::new(&mut random, 15);
    let mut open: Library<PlainCell> = Library::new(&mut random, 16);
    assert_eq!(open.call(&Call::Open(code)), Answer::Opened(3));
    let mut full: Library<PlainCell> = Library::new(&mut random, 16);
    assert_eq!(full.call(&Call::Open(code)), Answer::Opened(3));
    for _ in 0..3 {
        assert_eq!(full.call(&Call::Take(0, vec![0; 8])), Answer::Taken);
    }
    // What open answers to a code that is none, and the other calls where it stands in the struct.
    let mut flawed = |bad: Numbers| -> Vec<u8> {
        let mut tampered: Library<StrikeCell> = Library::new(&mut random, 16);
        let opened = tampered.open(bad.into()).0;
        tampered.receiver.value.code = bad.into();
        tampered.receiver.value.open = 1;
        vec![opened, tampered.take(1, &[0]), tampered.tell().0, tampered.deliver(9).0]
    };
    let mut tried = 0;
    for line in header.lines() {
        let mut words = line.split_whitespace();
        if words.next() != Some("#define") {
            continue;
        }
        let (Some(name), Some(value)) = (words.next(), words.next()) else { continue };
        let refused = |answer: Answer| match answer {
            Answer::Refused(number) => number,
            other => panic!("{name}: {other:?}"),
        };
        let (due, answers): (u8, Vec<u8>) = match name {
            "KZ_OK" => (defined(fronts, "turn_number (Some f)"), vec![full.tell().0, full.deliver(2).0]),
            "KZ_LIMIT" => (defined(flaws, "flaw_number (Limit column)"), flawed(Numbers { places: 3, ..code })),
            "KZ_POLYNOMIAL" => {
                (defined(flaws, "flaw_number (Polynomial column)"), flawed(Numbers { h: [4, 2, 0, 0], ..code }))
            }
            "KZ_PARITY" => {
                (defined(flaws, "flaw_number Parity"), flawed(Numbers { places: 2, phases: 4, offset: 1, ..code }))
            }
            "KZ_LENGTH" => (refusal("Length"), vec![refused(open.call(&Call::Take(0, vec![0; 7])))]),
            "KZ_UNFIT" => (refusal("Unfit"), vec![refused(open.call(&Call::Take(2, vec![7; 9])))]),
            "KZ_ROOM" => (refusal("Short"), vec![refused(full.call(&Call::Deliver(1)))]),
            "KZ_CELLS" => (refusal("Cells"), vec![refused(few.call(&Call::Open(code)))]),
            "KZ_CLOSED" => {
                let calls = [Call::Take(0, vec![]), Call::Tell, Call::Deliver(0)];
                (refusal("Closed"), calls.iter().map(|call| refused(few.call(call))).collect())
            }
            "KZ_BLOCK_FULL" => (refusal("Full"), vec![refused(full.call(&Call::Take(0, vec![0; 8])))]),
            "KZ_SHORT" => (refusal("Few"), vec![refused(open.call(&Call::Deliver(9)))]),
            "KZ_NO_PATH" => (refusal("NoPath"), vec![]),
            "KZ_NO_FRONT" => (
                defined(fronts, "turn_number None"),
                vec![
                    refused(few.call(&Call::Take(1, vec![0]))),
                    refused(full.call(&Call::Take(4, vec![]))),
                    ffi::receiver::turn(4, 8, &mut [0; 8]),
                    ffi::receiver::clean(4, 8, 0, &mut [0; 8]),
                ],
            ),
            "KZ_NOTHING" => {
                let (past, short) =
                    (ffi::receiver::clean(0, 8, 8, &mut [0; 8]), ffi::receiver::clean(0, 8, 0, &mut [0; 7]));
                (defined(fronts, "clean_number (Some f) phases phase ws"), vec![past, short])
            }
            front if CLEAN.iter().any(|&(name, _)| name == front) => {
                let number: u8 = value.parse().expect("a number");
                let words = CLEAN[usize::from(number)].1;
                let mut reading = vec![UNTOUCHED; words.len()];
                assert_eq!(ffi::receiver::clean(number, 4, 1, &mut reading), 0, "{name}");
                assert_eq!((CLEAN[usize::from(number)].0, &reading[..]), (front, words));
                (number, vec![])
            }
            _ => continue,
        };
        assert_eq!(Ok(due), value.parse(), "{name}");
        for answer in answers {
            assert_eq!(answer, due, "{name}");
        }
        tried += 1;
    }
    assert_eq!(tried, 18);
}
