//! Nanoseconds a take, library beside model.
//!
//! The model is the search of outside/src/model/search.rs, whose first comment says what it does: one row of cells for
//! each symbol and one before them, as the library's cells, small tables of a fixed size, and no phase of a label stored.
//! Its code is made and its block opened before the clock starts; a take judges and scores the reading, finds the best
//! labels and fills a row. A library's take does the same and judges the code of its struct before. Both read the same
//! random tables of scores.
use super::{median, numbers, time, ROUNDS};
use outside::ffi::receiver::{plain, PlainCell, Told, NO_BLOCK};
use outside::model::receiver::MOST;
use outside::model::{book, Code, Kind, Numbers, Receiver, Search};
use outside::random::Random;
use std::hint::black_box;

/// Takes of one round: as many blocks of as many symbols.
struct Load {
    blocks: usize,
    symbols: usize,
}

/// One line of the report: what it is, the code, and the code with one less memory and the same number of checked bits.
struct Row {
    what: &'static str,
    code: Numbers,
    smaller: Numbers,
    load: Load,
}

fn rows() -> [Row; 6] {
    let small = || Load { blocks: 8, symbols: MOST };
    [
        Row {
            what: "1 place, 8 phases, v 2",
            code: numbers([1, 8, 0, 1, 2], [0o5, 0o2, 0, 0]),
            smaller: numbers([1, 8, 0, 1, 1], [0o3, 0o1, 0, 0]),
            load: small(),
        },
        Row {
            what: "1 place, 8 phases, v 4",
            code: numbers([1, 8, 0, 2, 4], [0o23, 0o6, 0o14, 0]),
            smaller: numbers([1, 8, 0, 2, 3], [0o11, 0o2, 0o4, 0]),
            load: small(),
        },
        Row {
            what: "1 place, 8 phases, v 8",
            code: numbers([1, 8, 0, 2, 8], [0o573, 0o210, 0o146, 0]),
            smaller: numbers([1, 8, 0, 2, 7], [0o225, 0o52, 0o146, 0]),
            load: Load { blocks: 2, symbols: MOST },
        },
        Row {
            what: "2 places, 8 phases, v 6",
            code: numbers([2, 8, 0, 2, 6], [0o113, 0o30, 0o4, 0]),
            smaller: numbers([2, 8, 0, 2, 5], [0o41, 0o6, 0o10, 0]),
            load: Load { blocks: 4, symbols: MOST },
        },
        Row {
            what: "4 places, 4 phases, q 3, v 3",
            code: numbers([4, 4, 3, 3, 3], [0o11, 0o3, 0o4, 0o2]),
            smaller: numbers([4, 4, 3, 3, 2], [0o5, 0o3, 0o2, 0o1]),
            load: small(),
        },
        Row {
            what: "4 places, 16 phases, v 3",
            code: numbers([4, 16, 0, 2, 3], [0o11, 0o2, 0o4, 0]),
            smaller: numbers([4, 16, 0, 2, 2], [0o5, 0o1, 0o2, 0]),
            load: Load { blocks: 1, symbols: 16 },
        },
    ]
}

/// The readings of a round: random tables of scores.
fn readings(random: &mut Random, code: &Numbers, load: &Load) -> Vec<u16> {
    let words = usize::from(code.places) * usize::from(code.phases);
    (0..load.blocks * load.symbols * words).map(|_| random.short() >> random.below(4)).collect()
}

/// A round of the model: nanoseconds a take.
fn model_round(receiver: &mut Receiver<Search>, code: Code, load: &Load, readings: &[u16]) -> f64 {
    let block = readings.len() / load.blocks;
    let reading = block / load.symbols;
    let mut sum = 0.0;
    for block in readings.chunks_exact(block) {
        receiver.open_code(code).expect("enough cells");
        sum += time(load.symbols, || {
            for reading in block.chunks_exact(reading) {
                black_box(receiver.take(black_box(0), black_box(reading))).expect("a fit reading");
            }
        });
        black_box(receiver.tell()).expect("an open block");
    }
    sum / load.blocks as f64
}

/// A round of the library: nanoseconds a take.
fn library_round(cells: &mut [PlainCell], code: Numbers, load: &Load, readings: &[u16]) -> f64 {
    let block = readings.len() / load.blocks;
    let reading = block / load.symbols;
    let mut receiver = NO_BLOCK;
    let mut sum = 0.0;
    for block in readings.chunks_exact(block) {
        assert_eq!(plain::open(&mut receiver, cells, code.into(), &mut 0), 0);
        sum += time(load.symbols, || {
            for reading in block.chunks_exact(reading) {
                let number = plain::take(black_box(&mut receiver), cells, black_box(0), black_box(reading));
                assert_eq!(black_box(number), 0);
            }
        });
        let mut told = Told { worth: 0, count: 0, sole: 0 };
        assert_eq!(plain::tell(&receiver, cells, &mut told), 0);
        black_box(told);
    }
    sum / load.blocks as f64
}

/// Nanoseconds a take of library and model: medians of all rounds, in which the two take turns.
fn medians(random: &mut Random, code: Numbers, load: &Load) -> (f64, f64) {
    let readings = readings(random, &code, load);
    let made = Code::new(code).expect("a code");
    let cells = (load.symbols.max(usize::from(code.memory) + 1) + 1) << code.memory;
    let mut receiver: Receiver<Search> = Receiver::new(Kind::Plain, cells);
    let mut memory = vec![PlainCell::default(); cells];
    let (mut model, mut library) = (Vec::new(), Vec::new());
    // The first round is not counted.
    for _ in 0..=ROUNDS {
        model.push(model_round(&mut receiver, made, load, &readings));
        library.push(library_round(&mut memory, code, load, &readings));
    }
    let counted = |times: &[f64]| median(times[1..].to_vec());
    (counted(&library), counted(&model))
}

pub fn report(random: &mut Random) {
    println!("Nanoseconds a take, median of {ROUNDS} rounds. growth: how many times that of the memory one less.");
    println!("what                         | code                   | library | growth | model   | growth | ratio");
    println!("-----------------------------|------------------------|---------|--------|---------|--------|------");
    for row in rows() {
        let (library, model) = medians(random, row.code, &row.load);
        let (library_smaller, model_smaller) = medians(random, row.smaller, &row.load);
        println!(
            "{:<28} | {:<22} | {library:>7.1} | {:>6.2} | {model:>7.1} | {:>6.2} | {:>5.2}",
            row.what,
            book::line(&row.code),
            library / library_smaller,
            model / model_smaller,
            library / model,
        );
    }
}
