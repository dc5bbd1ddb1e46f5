//! The static library beside the model, call by call. Every random case follows from the seed that its test prints;
//! where the two differ, the test says what to paste into `rig` or `steps`.
mod cases;

use cases::{any_numbers, any_text, book_of, good_numbers, paste, Guarded, FILL};
use outside::ffi;
use outside::model::{book, calls, Code, Numbers};
use outside::random::Random;

const RANDOM_CODES: usize = 100_000;
const RANDOM_TEXTS: usize = 100_000;

/// What `kz_map`, `kz_begin` and `kz_send` leave: the number they answer, and the symbol, untouched if refused.
fn symbol_of(call: impl FnOnce(&mut ffi::Symbol) -> u8) -> (u8, ffi::Symbol) {
    let untouched = ffi::Symbol { places: FILL, phases: [FILL; 4] };
    let mut symbol = Guarded::new(untouched);
    let number = call(&mut symbol.value);
    symbol.check();
    (number, symbol.value)
}

/// The same, as the model answers it.
fn due(answer: Result<outside::model::Symbol, u8>) -> (u8, ffi::Symbol) {
    match answer {
        Ok(symbol) => (0, symbol.into()),
        Err(number) => (number, ffi::Symbol { places: FILL, phases: [FILL; 4] }),
    }
}

/// A burst on both sides: every call goes to both, the answers and the senders are compared.
struct Pair {
    library: Guarded<ffi::Sender>,
    model: calls::Sender,
    /// The code that `rig` would begin, and the calls so far in its words; no code where `rig` cannot play the case.
    code: Option<Numbers>,
    calls: Vec<String>,
    about: String,
}

impl Pair {
    fn new(model: calls::Sender, code: Option<Numbers>, about: String) -> Pair {
        Pair { library: Guarded::new(model.into()), model, code, calls: Vec::new(), about }
    }

    fn same<T: PartialEq + std::fmt::Debug>(&self, library: T, model: T) {
        self.library.check();
        let senders_agree = self.library.value == self.model.into();
        if library == model && senders_agree {
            return;
        }
        let text = match self.code {
            Some(code) => paste(&book_of(&[code]), &self.calls),
            None => format!("rig cannot play this; the calls: {}", self.calls.join(", ")),
        };
        panic!(
            "{}: the library answers {library:?}, the model {model:?}\nsenders after it: {:?}\n{:?}\n{text}",
            self.about,
            self.library.value,
            ffi::Sender::from(self.model),
        );
    }

    fn begin(&mut self, numbers: Numbers) {
        // `rig` says `busy` within a burst, where the library just begins anew.
        if self.model.sending == 1 {
            self.calls.push("end".to_string());
        }
        self.calls.push("begin 0".to_string());
        let library = symbol_of(|symbol| ffi::begin(&mut self.library.value, numbers.into(), symbol));
        let model = due(calls::begin(&mut self.model, numbers));
        self.same(library, model);
    }

    fn send(&mut self, word: u16) -> u8 {
        self.calls.push(format!("send {word}"));
        let library = symbol_of(|symbol| ffi::send(&mut self.library.value, word, symbol));
        let model = due(calls::send(&mut self.model, word));
        self.same(library, model);
        library.0
    }

    fn end(&mut self) -> u8 {
        self.calls.push("end".to_string());
        let mut sent = Guarded::new(FILL);
        let number = ffi::end(&mut self.library.value, &mut sent.value);
        sent.check();
        let model = match calls::end(&mut self.model) {
            Ok(sent) => (0, sent),
            Err(number) => (number, FILL),
        };
        self.same((number, sent.value), model);
        number
    }
}

#[test]
fn structs_have_the_sizes_of_the_header() {
    use std::mem::{align_of, size_of};
    assert_eq!((size_of::<ffi::Code>(), align_of::<ffi::Code>()), (14, 2));
    assert_eq!((size_of::<ffi::Fault>(), align_of::<ffi::Fault>()), (3, 1));
    assert_eq!((size_of::<ffi::Symbol>(), align_of::<ffi::Symbol>()), (5, 1));
    assert_eq!((size_of::<ffi::Sender>(), align_of::<ffi::Sender>()), (18, 2));
}

fn compare_labels(numbers: Numbers, labels: impl Iterator<Item = u16>) {
    let code = Code::new(numbers).expect("a code");
    for label in labels {
        let library = symbol_of(|symbol| ffi::map(numbers.into(), label, symbol));
        let model = (0, code.symbol(label).into());
        if library != model {
            // From state 0 this word has the label, or the one that differs from it in z0.
            let word = (u32::from(label) % (1 << code.width())) >> 1;
            let calls = ["begin 0".to_string(), format!("send {word}")];
            panic!(
                "label {label} of `{}`: the library answers {library:?}, the model {model:?}\n{}",
                book::line(&numbers),
                paste(&book_of(&[numbers]), &calls)
            );
        }
    }
}

/// Each of the 21 signal sets with every count of checked bits and every memory, all labels; and, for one code of each
/// set, all 65,536 numbers, since bits beyond a label pick nothing.
#[test]
fn all_labels_of_every_signal_set() {
    let seed = 1;
    let mut random = Random::new(seed);
    let mut sets = 0;
    let mut codes = 0;
    for places in [1, 2, 4] {
        for phases in [4, 8, 16] {
            for offset in 0..places {
                let mut whole = true;
                for checked in 1..=3 {
                    for memory in 1..=8 {
                        let Some(numbers) = good_numbers(&mut random, places, phases, offset, checked, memory) else {
                            continue;
                        };
                        let width = Code::new(numbers).expect("a code").width();
                        let last = if whole { u16::MAX } else { ((1u32 << width) - 1) as u16 };
                        compare_labels(numbers, 0..=last);
                        whole = false;
                        codes += 1;
                    }
                }
                assert!(!whole);
                sets += 1;
            }
        }
    }
    println!("seed {seed}: {sets} signal sets, {codes} codes");
    assert_eq!(sets, 21);
}

/// The published codes: whether each is a code, its step, the printed angle, and books made of them.
#[test]
fn all_codes_of_the_tables() {
    let table = include_str!("../../crates/tables/stdin");
    let mut rows = table.lines().filter(|line| !line.starts_with('#'));
    assert_eq!(rows.next(), Some("l m q c v h0 h1 h2 h3 degrees free"));
    let mut accepted = Vec::new();
    let mut refused = 0;
    for row in rows {
        let cells: Vec<&str> = row.split(' ').collect();
        let small = |i: usize| cells[i].parse::<u8>().expect(row);
        let octal = |i: usize| if cells[i] == "-" { 0 } else { u16::from_str_radix(cells[i], 8).expect(row) };
        let numbers = Numbers {
            places: small(0),
            phases: small(1),
            offset: small(2),
            checked: small(3),
            memory: small(4),
            h: [octal(5), octal(6), octal(7), octal(8)],
        };
        compare_code(numbers, row);
        let line = cells[..9].join(" ");
        compare_text(format!("l m q c v h0 h1 h2 h3\n{line}\n").as_bytes(), &[0, 1], row);
        let step = ffi::step(numbers.into());
        if step == 0 {
            assert_eq!(ffi::check(numbers.into()), ffi::Fault { number: 5, line: 0, column: 0 }, "{row}");
            refused += 1;
            continue;
        }
        let degrees: f64 = cells[9].parse().expect(row);
        assert_eq!(f64::from(step) * 360.0 / f64::from(numbers.phases), degrees, "{row}");
        let last = ((1u32 << Code::new(numbers).expect(row).width()) - 1) as u16;
        compare_labels(numbers, 0..=last.min(4095));
        accepted.push(line);
    }
    for (i, lines) in accepted.chunks(32).enumerate() {
        let text = format!("l m q c v h0 h1 h2 h3\n{}\n", lines.join("\n"));
        let entries: Vec<usize> = (0..33).collect();
        compare_text(text.as_bytes(), &entries, &format!("book {i} of the tables"));
    }
    println!("{} codes of the tables accepted, {refused} refused", accepted.len());
    assert!(accepted.len() >= 100 && refused > 0);
}

fn compare_code(numbers: Numbers, about: &str) {
    let said = (ffi::check(numbers.into()), ffi::step(numbers.into()));
    let due = (calls::check(numbers).into(), calls::step(numbers));
    if said != due {
        panic!(
            "{about}, {numbers:?}: check and step of the library {said:?}, of the model {due:?}\n{}",
            paste(&book_of(&[numbers]), &[])
        );
    }
}

#[test]
fn random_codes_and_bursts() {
    let seed = 2;
    println!("seed {seed}: {RANDOM_CODES} codes");
    let mut random = Random::new(seed);
    let (mut accepted, mut words, mut full) = (0, 0, 0);
    for case in 0..RANDOM_CODES {
        let about = format!("seed {seed}, case {case}");
        let numbers = any_numbers(&mut random);
        compare_code(numbers, &about);
        let label = random.short();
        if Code::new(numbers).is_ok() {
            compare_labels(numbers, std::iter::once(label));
        } else {
            let library = symbol_of(|symbol| ffi::map(numbers.into(), label, symbol));
            assert_eq!(library, due(calls::map(numbers, label)), "{about}, map {label} of {numbers:?}");
        }

        // A quiet sender, then a burst of the code; a refused code leaves the sender as it was, quiet.
        let mut pair = Pair::new(calls::Sender::default(), Some(numbers), about);
        assert_eq!(pair.send(random.short()), 254);
        assert_eq!(pair.end(), 254);
        pair.begin(numbers);
        let Ok(code) = Code::new(numbers) else {
            assert_eq!(pair.send(random.short()), 254);
            continue;
        };
        accepted += 1;
        let wide = 1u32 << (code.width() - 1);
        let count = if random.once_in(8) { 255 } else { random.below(255) };
        for _ in 0..count {
            if random.once_in(32) {
                let word = random.between(wide as usize, usize::from(u16::MAX)) as u16;
                assert_eq!(pair.send(word), 7);
            }
            assert_eq!(pair.send(random.below(wide as usize) as u16), 0);
            words += 1;
        }
        if count == 255 {
            assert_eq!(pair.send(0), 25);
            assert_eq!(pair.send(u16::MAX), 25);
            full += 1;
        } else {
            assert_eq!(pair.send(wide as u16), 7);
        }
        if random.once_in(4) {
            pair.begin(numbers);
            assert_eq!(pair.send((wide - 1) as u16), 0);
        }
        assert_eq!(pair.end(), 0);
        assert_eq!(pair.send(0), 254);
        assert_eq!(pair.end(), 254);
    }
    println!("{accepted} accepted, {words} words, {full} full bursts");
    assert!(accepted > RANDOM_CODES / 3 && accepted < RANDOM_CODES && full > 1000);
}

/// Senders with any bytes in them, also in the gap between the fields of the code.
#[test]
fn senders_with_any_bytes() {
    let seed = 3;
    println!("seed {seed}: {RANDOM_CODES} senders");
    let mut random = Random::new(seed);
    let mut sent = 0;
    for case in 0..RANDOM_CODES {
        let numbers = any_numbers(&mut random);
        let sender = calls::Sender {
            numbers,
            state: random.byte(),
            differential: random.byte(),
            sent: if random.once_in(4) { random.pick(&[0, 1, 253, 254, 255]) } else { random.byte() },
            sending: if random.once_in(8) { random.byte() } else { 1 },
        };
        let about = format!("seed {seed}, case {case}, from {sender:?}");
        let mut pair = Pair::new(sender, None, about);
        pair.library.dirty_gap(&mut random);
        for _ in 0..random.between(1, 6) {
            let word = match Code::new(numbers) {
                Ok(code) if !random.once_in(8) => random.below(1 << (code.width() - 1)) as u16,
                _ => random.short(),
            };
            sent += usize::from(pair.send(word) == 0);
        }
        if random.once_in(2) {
            pair.end();
            pair.end();
        } else {
            let other = any_numbers(&mut random);
            pair.begin(other);
            pair.send(random.short());
        }
    }
    println!("{sent} words went through");
    assert!(sent > RANDOM_CODES / 2);
}

fn compare_text(text: &[u8], entries: &[usize], about: &str) {
    let differ = |library: &dyn std::fmt::Debug, model: &dyn std::fmt::Debug, call: String, rig: &[String]| -> ! {
        panic!("{about}, {call}: the library {library:?}, the model {model:?}\n{}", paste(text, rig))
    };
    let untouched = Numbers { places: FILL, phases: FILL, offset: FILL, checked: FILL, memory: FILL, h: [0xa5a5; 4] };
    for &entry in entries {
        let mut code = Guarded::new(ffi::Code::from(untouched));
        let fault = ffi::entry(text, entry, &mut code.value);
        code.check();
        let due = match calls::entry(text, entry) {
            Ok(numbers) => (ffi::Fault { number: 0, line: 0, column: 0 }, numbers.into()),
            Err(fault) => (fault.into(), untouched.into()),
        };
        if (fault, code.value) != due {
            // A text that is read has no empty line, which `rig` would take for the end of the book.
            let begin = [format!("begin {}", entry.min(65535))];
            let rig = if book::read(text).is_ok() { &begin[..] } else { &[] };
            differ(&(fault, code.value), &due, format!("entry {entry}"), rig);
        }
    }
    let listing = book::listing(text);
    let length = listing.len();
    const EDGE: usize = 16;
    for room in [length, length - 1, 0, length + 1 + text.len() % 50] {
        let mut memory = vec![FILL; EDGE + room + EDGE];
        let said = ffi::steps(text, &mut memory[EDGE..EDGE + room]);
        let mut due = vec![FILL; EDGE + room + EDGE];
        if length <= room {
            due[EDGE..EDGE + length].copy_from_slice(&listing);
        }
        if said != length || memory != due {
            let written = String::from_utf8_lossy(&memory).into_owned();
            differ(&(said, written), &(length, String::from_utf8_lossy(&due)), format!("steps, room {room}"), &[]);
        }
    }
}

#[test]
fn random_and_damaged_books() {
    let seed = 4;
    println!("seed {seed}: {RANDOM_TEXTS} texts");
    let mut random = Random::new(seed);
    let mut outcomes = [0; 7];
    for case in 0..RANDOM_TEXTS {
        let text = any_text(&mut random);
        let read = book::read(&text);
        let codes = read.as_ref().map_or(0, Vec::len);
        outcomes[read.map_or_else(|fault| fault.number as usize, |_| 0)] += 1;
        let entries = [random.below(codes + 1), random.below(40), random.pick(&[codes, 32, 33, 256, usize::MAX])];
        compare_text(&text, &entries, &format!("seed {seed}, case {case}"));
    }
    println!("read, then refused with 1 to 6: {outcomes:?}");
    assert!(outcomes.iter().all(|&count| count > 100));
}

/// `kz_code` with a name for the byte between `memory` and `h0`, which has none in the header.
#[repr(C)]
#[derive(Clone, Copy)]
struct Gapped {
    small: [u8; 5],
    gap: u8,
    h: [u16; 4],
}

/// The byte between the fields of a code that is handed over by value changes nothing.
#[test]
fn codes_with_any_gap() {
    use std::mem::transmute;
    type Asks<C, T> = unsafe extern "C" fn(C) -> T;
    // The two structs have the same size, and their fields the same places and kinds.
    let check: Asks<Gapped, ffi::Fault> = unsafe { transmute::<Asks<ffi::Code, ffi::Fault>, _>(ffi::raw::kz_check) };
    let step: Asks<Gapped, u8> = unsafe { transmute::<Asks<ffi::Code, u8>, _>(ffi::raw::kz_step) };
    let seed = 6;
    let mut random = Random::new(seed);
    println!("seed {seed}: {RANDOM_CODES} codes");
    for case in 0..RANDOM_CODES {
        let n = any_numbers(&mut random);
        let small = [n.places, n.phases, n.offset, n.checked, n.memory];
        let code = Gapped { small, gap: random.byte(), h: n.h };
        let said = unsafe { (check(code), step(code)) };
        assert_eq!(said, (calls::check(n).into(), calls::step(n)), "case {case}, gap {}, {n:?}", code.gap);
    }
}

/// A buffer of no length may have no address either.
#[test]
fn no_buffer_at_all() {
    let mut code = Guarded::new(ffi::Code::from(Numbers::default()));
    let length = book::listing(b"").len();
    let (fault, said) = unsafe {
        let fault = ffi::raw::kz_entry(std::ptr::null(), 0, 0, &mut code.value);
        (fault, ffi::raw::kz_steps(std::ptr::null(), 0, std::ptr::null_mut(), 0))
    };
    code.check();
    assert_eq!(fault, ffi::Fault { number: 2, line: 1, column: 0 });
    assert_eq!(code.value, Numbers::default().into());
    assert_eq!(said, length);
}

/// Every number that the header names, beside what the library answers to an input that provokes it.
#[test]
fn the_numbers_of_the_header() {
    let header = include_str!("../../include/kamzhules.h");
    let entry = |text: &str, entry: usize| {
        let mut code = ffi::Code::from(Numbers::default());
        ffi::entry(text.as_bytes(), entry, &mut code).number
    };
    let numbers = Numbers { places: 1, phases: 8, offset: 0, checked: 1, memory: 2, h: [5, 2, 0, 0] };
    let mut symbol = ffi::Symbol { places: 0, phases: [0; 4] };
    let mut quiet = ffi::Sender::from(calls::Sender::default());
    let mut open = quiet;
    assert_eq!(ffi::begin(&mut open, numbers.into(), &mut symbol), 0);
    let mut full = ffi::Sender { sent: 255, ..open };
    let names = "l m q c v h0 h1 h2 h3\n";
    let mut tried = Vec::new();
    for line in header.lines() {
        let mut words = line.split_whitespace();
        if words.next() != Some("#define") {
            continue;
        }
        let (Some(name), Some(value)) = (words.next(), words.next()) else { continue };
        let answers: Vec<u8> = match name {
            "KZ_OK" => vec![
                ffi::check(numbers.into()).number,
                ffi::map(numbers.into(), 1, &mut symbol),
                entry(&format!("{names}1 8 0 1 2 5 2 - -\n"), 0),
            ],
            "KZ_SHAPE" => vec![entry(&format!("{names}\n"), 0)],
            "KZ_NAMES" => vec![entry("", 0)],
            "KZ_LIMIT" => {
                let bad = Numbers { places: 3, ..numbers };
                vec![
                    ffi::check(bad.into()).number,
                    ffi::map(bad.into(), 1, &mut symbol),
                    ffi::begin(&mut quiet, bad.into(), &mut symbol),
                    entry(&format!("{names}3 8 0 1 2 5 2 - -\n"), 0),
                ]
            }
            "KZ_POLYNOMIAL" => {
                let bad = Numbers { h: [4, 2, 0, 0], ..numbers };
                vec![
                    ffi::check(bad.into()).number,
                    ffi::map(bad.into(), 1, &mut symbol),
                    ffi::begin(&mut quiet, bad.into(), &mut symbol),
                    entry(&format!("{names}1 8 0 1 2 4 2 - -\n"), 0),
                ]
            }
            "KZ_PARITY" => {
                let bad = Numbers { places: 2, phases: 4, offset: 1, ..numbers };
                vec![
                    ffi::check(bad.into()).number,
                    ffi::map(bad.into(), 1, &mut symbol),
                    ffi::begin(&mut quiet, bad.into(), &mut symbol),
                    entry(&format!("{names}2 4 1 1 2 5 2 - -\n"), 0),
                ]
            }
            "KZ_SIZE" => {
                vec![entry(&"x".repeat(4097), 0), entry(&format!("{names}{}", "1 8 0 1 2 5 2 - -\n".repeat(33)), 0)]
            }
            "KZ_WIDE" => vec![ffi::send(&mut open, 4, &mut symbol)],
            "KZ_FULL" => vec![ffi::send(&mut full, 0, &mut symbol), ffi::send(&mut full, 4, &mut symbol)],
            "KZ_QUIET" => {
                vec![ffi::send(&mut quiet, 0, &mut symbol), ffi::end(&mut quiet, &mut 0)]
            }
            "KZ_NOTHING" => vec![entry(names, 0)],
            // The receiver's numbers and fronts are tried in reception.rs and receiver.rs.
            "KZ_LENGTH" | "KZ_UNFIT" | "KZ_ROOM" | "KZ_CELLS" | "KZ_CLOSED" | "KZ_BLOCK_FULL" | "KZ_SHORT"
            | "KZ_NO_PATH" | "KZ_NO_FRONT" | "KZ_TABLE" | "KZ_STRIKE" | "KZ_LOST_TABLE" | "KZ_LOST_STRIKE" => continue,
            other if other.starts_with("KZ_") => panic!("{other} is not tried"),
            _ => continue,
        };
        for answer in answers {
            assert_eq!(Ok(answer), value.parse(), "{name}");
        }
        tried.push(name);
    }
    assert_eq!(tried.len(), 11, "{tried:?}");
}
