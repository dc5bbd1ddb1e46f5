//! Nanoseconds a label, a word and a take, library beside model; the size of the static library and of the structs.
//!
//! Every call of the library takes a code as numbers and checks it. The model is timed twice: in the same way, with
//! numbers that it checks at each call, and with a code that was made once before.
mod receiver;

use outside::ffi;
use outside::model::{book, calls, Burst, Code, Numbers};
use outside::random::Random;
use std::hint::black_box;
use std::mem::size_of;
use std::process::Command;
use std::time::Instant;

const ROUNDS: usize = 61;
/// The words of a full burst.
const BURST: usize = 255;
/// Labels of one round, and words: 80 full bursts, all random, so that no branch can be learnt by heart.
const PIECES: usize = 80 * BURST;

fn numbers(values: [u8; 5], h: [u16; 4]) -> Numbers {
    let [places, phases, offset, checked, memory] = values;
    Numbers { places, phases, offset, checked, memory, h }
}

/// Nanoseconds a piece of work of so many pieces.
fn time(pieces: usize, work: impl FnOnce()) -> f64 {
    let start = Instant::now();
    work();
    start.elapsed().as_nanos() as f64 / pieces as f64
}

fn median(mut times: Vec<f64>) -> f64 {
    times.sort_by(f64::total_cmp);
    times[times.len() / 2]
}

/// Library, model that checks at each call, model with a code made before: the medians of all rounds. The three take
/// turns within each round, so that a slow moment of the machine falls on all.
fn medians(mut round: impl FnMut() -> [f64; 3]) -> [f64; 3] {
    round();
    let rounds: Vec<[f64; 3]> = (0..ROUNDS).map(|_| round()).collect();
    [0, 1, 2].map(|i| median(rounds.iter().map(|times| times[i]).collect()))
}

fn mapper(numbers: Numbers, labels: &[u16]) -> [f64; 3] {
    let code = Code::new(numbers).expect("a code");
    let plain = ffi::Code::from(numbers);
    medians(|| {
        let library = time(labels.len(), || {
            let mut symbol = ffi::Symbol { places: 0, phases: [0; 4] };
            for &label in labels {
                black_box(ffi::map(black_box(plain), black_box(label), &mut symbol));
                black_box(&symbol);
            }
        });
        let checked = time(labels.len(), || {
            for &label in labels {
                let _ = black_box(calls::map(black_box(numbers), black_box(label)));
            }
        });
        let made = time(labels.len(), || {
            for &label in labels {
                black_box(black_box(&code).symbol(black_box(label)));
            }
        });
        [library, checked, made]
    })
}

fn sender(numbers: Numbers, words: &[u16]) -> [f64; 3] {
    let code = Code::new(numbers).expect("a code");
    let plain = ffi::Code::from(numbers);
    medians(|| {
        let library = time(words.len(), || {
            let mut sender = ffi::Sender::from(calls::Sender::default());
            let mut symbol = ffi::Symbol { places: 0, phases: [0; 4] };
            for burst in words.chunks(BURST) {
                black_box(ffi::begin(&mut sender, black_box(plain), &mut symbol));
                for &word in burst {
                    black_box(ffi::send(black_box(&mut sender), black_box(word), &mut symbol));
                    black_box(&symbol);
                }
            }
        });
        let checked = time(words.len(), || {
            let mut sender = calls::Sender::default();
            for burst in words.chunks(BURST) {
                let _ = black_box(calls::begin(&mut sender, black_box(numbers)));
                for &word in burst {
                    let _ = black_box(calls::send(black_box(&mut sender), black_box(word)));
                }
            }
        });
        let made = time(words.len(), || {
            for burst in words.chunks(BURST) {
                let (mut open, reference) = Burst::begin(*black_box(&code));
                black_box(reference);
                for &word in burst {
                    let _ = black_box(black_box(&mut open).send(black_box(word)));
                }
            }
        });
        [library, checked, made]
    })
}

fn print_row(what: &str, numbers: Numbers, [library, checked, made]: [f64; 3]) {
    println!(
        "{what:<6} | {:<22} | {library:>7.1} | {checked:>13.1} | {:>5.2} | {made:>14.1} | {:>5.2}",
        book::line(&numbers),
        library / checked,
        library / made
    );
}

/// The library's sections as binutils' `size` tells them, or why there are none: code, and the constants beside it.
fn library_size() -> String {
    let library = concat!(env!("CARGO_MANIFEST_DIR"), "/../crates/kamzhules/out/libkamzhules.a");
    let Ok(said) = Command::new("size").args(["-A", library]).output() else {
        return "`size` of binutils is not installed".to_string();
    };
    if !said.status.success() {
        return format!("`size -A` says: {}", String::from_utf8_lossy(&said.stderr));
    }
    let text = String::from_utf8_lossy(&said.stdout).into_owned();
    let sum = |prefix: &str| -> usize {
        let sizes = text
            .lines()
            .filter(|line| line.starts_with(prefix))
            .filter_map(|line| line.split_whitespace().nth(1).and_then(|size| size.parse::<usize>().ok()));
        sizes.sum()
    };
    format!(
        "static library, in bytes: text {}, constants {}, data {}, bss {}",
        sum(".text"),
        sum(".rodata"),
        sum(".data"),
        sum(".bss")
    )
}

fn main() {
    let seed = 5;
    let mut random = Random::new(seed);
    let codes = [
        numbers([1, 8, 0, 1, 2], [0o5, 0o2, 0, 0]),
        numbers([2, 8, 0, 1, 2], [0o5, 0o2, 0, 0]),
        numbers([4, 4, 3, 3, 3], [0o11, 0o3, 0o4, 0o2]),
        numbers([4, 16, 0, 3, 4], [0o21, 0o2, 0o4, 0o10]),
    ];
    println!("Nanoseconds a label (map) and a word (send), median of {ROUNDS} rounds, seed {seed}.");
    println!("checks: the model checks the numbers at each call, as the library does. made: its code was made before.");
    println!("what   | code                   | library | model, checks | ratio | model, made    | ratio");
    println!("-------|------------------------|---------|---------------|-------|----------------|------");
    for code in codes {
        let width = Code::new(code).expect("a code").width();
        let labels: Vec<u16> = (0..PIECES).map(|_| random.below(1 << width) as u16).collect();
        print_row("map", code, mapper(code, &labels));
    }
    for code in codes {
        let width = Code::new(code).expect("a code").width();
        let words: Vec<u16> = (0..PIECES).map(|_| random.below(1 << (width - 1)) as u16).collect();
        print_row("send", code, sender(code, &words));
    }
    println!();
    receiver::report(&mut random);
    println!();
    println!("{}", library_size());
    println!(
        "structs, in bytes: kz_code {}, kz_sender {}, kz_symbol {}, kz_fault {}",
        size_of::<ffi::Code>(),
        size_of::<ffi::Sender>(),
        size_of::<ffi::Symbol>(),
        size_of::<ffi::Fault>()
    );
    println!(
        "kz_receiver {}, kz_plain_cell {}, kz_strike_cell {}, kz_told {}, kz_delivered {}",
        size_of::<ffi::receiver::Receiver>(),
        size_of::<ffi::receiver::PlainCell>(),
        size_of::<ffi::receiver::StrikeCell>(),
        size_of::<ffi::receiver::Told>(),
        size_of::<ffi::receiver::Delivered>()
    );
}
