//! Random codes and texts, memory with guards around it, and the text of a failing case.
use outside::ffi;
use outside::model::{book, Code, Numbers};
use outside::random::Random;

/// What memory holds before a call that may write it.
pub const FILL: u8 = 0xa5;
const GUARD: [u8; 32] = [0x5a; 32];

/// A value with memory on both sides that no call may write.
#[repr(C)]
pub struct Guarded<T> {
    before: [u8; 32],
    pub value: T,
    after: [u8; 32],
}

impl<T> Guarded<T> {
    pub fn new(value: T) -> Guarded<T> {
        Guarded { before: GUARD, value, after: GUARD }
    }

    pub fn check(&self) {
        assert!(self.before == GUARD && self.after == GUARD, "memory beside the struct was written");
    }
}

impl Guarded<ffi::Sender> {
    /// Puts a random byte into the gap between `memory` and `h0`.
    pub fn dirty_gap(&mut self, random: &mut Random) {
        let start = std::ptr::addr_of_mut!(self.value).cast::<u8>();
        unsafe { start.add(5).write(random.byte()) }
    }
}

/// A code with these five numbers and random polynomials, if there is one.
pub fn good_numbers(
    random: &mut Random,
    places: u8,
    phases: u8,
    offset: u8,
    checked: u8,
    memory: u8,
) -> Option<Numbers> {
    let top = 1usize << memory;
    // The parity bit refuses half of some sets' codes; so many tries miss only what is not there.
    (0..64).find_map(|_| {
        let mut h = [0; 4];
        h[0] = ((top + random.below(top)) | 1) as u16;
        for h in h.iter_mut().skip(1).take(checked as usize) {
            *h = random.between(1, 2 * top - 1) as u16;
        }
        let numbers = Numbers { places, phases, offset, checked, memory, h };
        Code::new(numbers).ok().map(|_| numbers)
    })
}

/// Numbers most of which are a code: good ones, good ones with one number changed, and anything at all.
pub fn any_numbers(random: &mut Random) -> Numbers {
    if random.once_in(10) {
        return Numbers {
            places: random.byte(),
            phases: random.byte(),
            offset: random.byte(),
            checked: random.byte(),
            memory: random.byte(),
            h: [random.short(), random.short(), random.short(), random.short()],
        };
    }
    let mut numbers = near_numbers(random);
    if random.once_in(4) {
        let changed = if random.once_in(2) { random.below(20) as u8 } else { random.byte() };
        match random.below(9) {
            0 => numbers.places = changed,
            1 => numbers.phases = changed,
            2 => numbers.offset = changed,
            3 => numbers.checked = changed,
            4 => numbers.memory = changed,
            column => numbers.h[column - 5] = random.short() >> random.below(16),
        }
    }
    numbers
}

/// Numbers within their limits, the parity bit aside; one in sixteen breaks a rule of two numbers.
fn near_numbers(random: &mut Random) -> Numbers {
    let places: u8 = random.pick(&[1, 2, 4]);
    let phases: u8 = random.pick(&[4, 8, 16]);
    let offset = random.below(places as usize) as u8;
    let bits = phases.trailing_zeros() as u8;
    let most = if random.once_in(16) { 3 } else { (bits * places - offset - 1).min(3) };
    let checked = random.between(1, most as usize) as u8;
    let memory = random.between(1, 8) as u8;
    let top = 1usize << memory;
    let mut h = [0; 4];
    h[0] = ((top + random.below(top)) | 1) as u16;
    for h in h.iter_mut().skip(1).take(checked as usize) {
        *h = random.between(1, 2 * top - 1) as u16;
    }
    Numbers { places, phases, offset, checked, memory, h }
}

/// A line of a book, some columns with leading zeros; a good one, or one that may be spoiled.
fn any_line(random: &mut Random, spoil: bool) -> String {
    let numbers = loop {
        let mut numbers = near_numbers(random);
        if spoil && random.once_in(4) {
            // The only shape in which the parity bit can be a differential bit.
            (numbers.places, numbers.offset, numbers.checked) = (2, 1, 1);
            (numbers.h[2], numbers.h[3]) = (0, 0);
        }
        if spoil || Code::new(numbers).is_ok() {
            break numbers;
        }
    };
    let mut columns: Vec<String> = book::line(&numbers).split(' ').map(str::to_string).collect();
    for (i, column) in columns.iter_mut().enumerate() {
        let most = if i < 5 { 2 } else { 3 };
        while column != "-" && column.len() < most && random.once_in(4) {
            column.insert(0, '0');
        }
    }
    if spoil && !random.once_in(3) {
        let i = random.below(9);
        columns[i] = match random.below(6) {
            0 => "-".to_string(),
            1 => "0".to_string(),
            2 if i < 5 => random.below(100).to_string(),
            3 if i < 5 => random.below(10).to_string(),
            _ if i < 5 => random.below(5).to_string(),
            _ => format!("{:o}", random.below(512) >> random.below(9)),
        };
    }
    columns.join(" ") + "\n"
}

fn any_book(random: &mut Random) -> Vec<u8> {
    let lines = match random.below(16) {
        0..=8 => random.below(6),
        9..=12 => random.below(33),
        13 => 31,
        14 => 32,
        _ => 33,
    };
    let spoiled = if random.once_in(3) { random.below(lines + 1) } else { usize::MAX };
    let mut text = book::NAMES.to_vec();
    for i in 0..lines {
        text.extend(any_line(random, i == spoiled).bytes());
    }
    text
}

fn any_byte(random: &mut Random) -> u8 {
    if random.once_in(8) {
        random.byte()
    } else {
        random.pick(b"0123456789 -\n  --\n\r\tx+lh")
    }
}

fn damage(random: &mut Random, text: &mut Vec<u8>) {
    // Most of the damage falls behind the names line.
    let start = if random.once_in(8) { 0 } else { text.len().min(book::NAMES.len()) };
    let at = random.between(start, text.len());
    match random.below(8) {
        0..=2 if at < text.len() => text[at] = any_byte(random),
        3..=4 => text.insert(at, any_byte(random)),
        5 if at < text.len() => {
            text.remove(at);
        }
        6 => text.truncate(at),
        7 => {
            let end = random.between(at, text.len().min(at + 24));
            let copy = text[at..end].to_vec();
            text.splice(at..at, copy);
        }
        _ => text.push(any_byte(random)),
    }
}

/// A text for the reader: books, damaged books, random bytes, and texts around 4,096 bytes.
pub fn any_text(random: &mut Random) -> Vec<u8> {
    match random.below(32) {
        0 => (0..random.below(64)).map(|_| random.byte()).collect(),
        1 => {
            let mut text = book::NAMES.to_vec();
            text.extend((0..random.below(40)).map(|_| any_byte(random)).collect::<Vec<u8>>());
            text
        }
        2 => {
            let size = random.pick(&[4094, 4095, 4096, 4097, 4098, 5000, 8192]);
            let mut text = match random.below(4) {
                0 => Vec::new(),
                1 => book::NAMES.to_vec(),
                _ => any_book(random),
            };
            let lines = random.once_in(2);
            while text.len() < size {
                if lines {
                    text.extend(any_line(random, false).bytes());
                } else {
                    text.push(random.pick(b"1x\n "));
                }
            }
            text.truncate(size);
            text
        }
        3..=14 => any_book(random),
        _ => {
            let mut text = any_book(random);
            for _ in 0..random.between(1, 3) {
                damage(random, &mut text);
            }
            text
        }
    }
}

/// The book of these codes.
pub fn book_of(codes: &[Numbers]) -> Vec<u8> {
    let mut text = book::NAMES.to_vec();
    for numbers in codes {
        text.extend(book::line(numbers).bytes());
        text.push(b'\n');
    }
    text
}

/// A failing case as text: for `rig` with calls, for `steps` without. A text with other bytes than letters, and one
/// that is not a whole number of lines, is given as a command.
pub fn paste(book: &[u8], calls: &[String]) -> String {
    let mut text = book.to_vec();
    if !calls.is_empty() {
        text.push(b'\n');
        text.extend(calls.join("\n").bytes());
        text.push(b'\n');
    }
    let program = if calls.is_empty() { "steps" } else { "rig" };
    let plain = text.iter().all(|&b| b == b'\n' || (b' '..=b'~').contains(&b)) && text.ends_with(b"\n");
    if plain {
        let text = String::from_utf8_lossy(&text);
        return format!("paste into {program}, between the marks:\n-----8<-----\n{text}----->8-----");
    }
    let mut quoted = String::new();
    for &byte in &text {
        match byte {
            b'\n' => quoted += "\\n",
            b'\\' | b'\'' | b'%' => quoted += &format!("\\{byte:03o}"),
            b' '..=b'~' => quoted.push(byte as char),
            _ => quoted += &format!("\\{byte:03o}"),
        }
    }
    let quoted = quoted.replace("\\045", "%%");
    format!("give {program} what this prints:\nprintf '{quoted}'")
}
