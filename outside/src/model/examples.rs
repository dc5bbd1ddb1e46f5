//! The worked numbers of docs/CODES.md and docs/BOOK.md, tried on the model.
use super::book::{line, listing, read};
use super::burst::{Burst, Place};
use super::code::{signal_set, Code, Numbers};
use std::collections::HashSet;

fn numbers(values: [u8; 5], h: [u16; 4]) -> Numbers {
    let [places, phases, offset, checked, memory] = values;
    Numbers { places, phases, offset, checked, memory, h }
}

fn code(values: [u8; 5], h: [u16; 4]) -> Code {
    Code::new(numbers(values, h)).expect("a code of the documents")
}

fn turning_rows(places: usize, bits: usize) -> Vec<usize> {
    let (rows, count) = signal_set(places, bits);
    assert_eq!(count, places * bits);
    (0..count).filter(|&i| rows[i][..places].iter().all(|&e| e == rows[i][0])).collect()
}

#[test]
fn turning_rows_are_those_of_the_table() {
    for (places, bits, rows) in [
        (1, 2, vec![0, 1]),
        (1, 3, vec![0, 1, 2]),
        (1, 4, vec![0, 1, 2, 3]),
        (2, 2, vec![1, 3]),
        (2, 3, vec![1, 3, 5]),
        (2, 4, vec![1, 3, 5, 7]),
        (4, 2, vec![4, 7]),
        (4, 3, vec![4, 8, 11]),
        (4, 4, vec![4, 8, 12, 15]),
    ] {
        assert_eq!(turning_rows(places, bits), rows);
    }
}

#[test]
fn the_worked_label() {
    let code = code([4, 8, 0, 1, 1], [3, 1, 0, 0]);
    assert_eq!(code.symbol(299).phases, [2, 2, 5, 2]);
}

#[test]
fn steps_and_differential_bits() {
    let table: [(Code, u8, &[usize]); 6] = [
        (code([1, 8, 0, 1, 2], [0o5, 0o2, 0, 0]), 4, &[2]),
        (code([1, 8, 0, 2, 3], [0o11, 0o2, 0o4, 0]), 8, &[]),
        (code([1, 8, 0, 2, 4], [0o23, 0o6, 0o14, 0]), 4, &[2]),
        (code([4, 4, 3, 3, 3], [0o11, 0o3, 0o4, 0o2]), 1, &[1, 4]),
        (code([2, 8, 0, 1, 2], [0o5, 0o2, 0, 0]), 2, &[3, 5]),
        (code([2, 4, 0, 3, 5], [0o41, 0o2, 0o30, 0o14]), 2, &[3]),
    ];
    for (code, step, differential) in table {
        assert_eq!((code.step(), code.differential()), (step, differential), "{:?}", code.numbers());
    }
    let refused = Code::new(numbers([2, 4, 1, 1, 2], [5, 2, 0, 0])).unwrap_err();
    assert_eq!((refused.number, refused.column), (5, 0));
}

#[test]
fn the_worked_bursts() {
    let (mut burst, reference) = Burst::begin(code([1, 8, 0, 1, 2], [5, 2, 0, 0]));
    assert_eq!(reference.phases, [0; 4]);
    let phases = [3, 1, 2].map(|word| burst.send(word).unwrap().phases[0]);
    assert_eq!(phases, [6, 7, 1]);
    assert_eq!(burst.send(4), Err(7));
    assert_eq!(burst.end(), 3);

    let four = code([4, 4, 3, 3, 3], [0o11, 0o3, 0o4, 0o2]);
    let (mut burst, _) = Burst::begin(four);
    assert_eq!(burst.send(9).unwrap().phases, [3, 3, 3, 1]);
    let mut other = burst;
    assert_eq!(burst.send(6).unwrap().phases, [3, 1, 1, 3]);
    assert_eq!(other.send(1).unwrap().phases, [0, 0, 0, 2]);

    let (label, place) = four.label(Place::default(), 9);
    assert_eq!((label, place), (19, Place { state: 5, differential: 3 }));
    assert_eq!(four.label(place, 6), (30, Place { state: 0, differential: 3 }));
    assert_eq!(four.label(place, 1).0, 1);
}

#[test]
fn a_burst_has_255_words() {
    let (mut burst, _) = Burst::begin(code([1, 8, 0, 1, 2], [5, 2, 0, 0]));
    for _ in 0..255 {
        burst.send(1).unwrap();
    }
    assert_eq!(burst.send(1), Err(25));
    assert_eq!(burst.send(4), Err(25));
    assert_eq!(burst.end(), 255);
}

/// Different labels have different phases, and a higher turning number turns every place.
#[test]
fn the_two_facts_of_the_mapper() {
    for places in [1, 2, 4u8] {
        for phases in [4, 8, 16] {
            for offset in 0..places {
                let code = code([places, phases, offset, 1, 2], [7, 2, 0, 0]);
                let bits: Vec<usize> = (0..code.width()).filter(|&i| code.turning(i)).collect();
                let mut seen = HashSet::new();
                for label in 0..1u32 << code.width() {
                    let label = label as u16;
                    assert!(seen.insert(code.symbol(label).phases));
                    let turn: u16 = bits.iter().enumerate().map(|(j, &b)| (label >> b & 1) << j).sum();
                    let mut next = label;
                    for (j, &b) in bits.iter().enumerate() {
                        next = next & !(1 << b) | ((turn + 1) >> j & 1) << b;
                    }
                    for p in 0..places as usize {
                        assert_eq!(code.symbol(next).phases[p], (code.symbol(label).phases[p] + 1) % phases);
                    }
                }
            }
        }
    }
}

/// Every row of a table of docs/BOOK.md that gives one whole line and its outcome.
#[test]
fn the_lines_of_the_book_page() {
    let page = include_str!("../../../docs/BOOK.md");
    let mut tried = 0;
    for row in page.lines() {
        let cells: Vec<&str> = row.split('|').map(str::trim).collect();
        let [_, text, outcome, ..] = cells[..] else { continue };
        let Some(code) = text.strip_prefix('`').and_then(|t| t.strip_suffix('`')) else { continue };
        let first = outcome.split(' ').next().unwrap_or("");
        if code.contains('`') || !first.bytes().all(|b| b.is_ascii_digit()) || first.is_empty() {
            continue;
        }
        let said = match read(format!("l m q c v h0 h1 h2 h3\n{code}\n").as_bytes()) {
            Ok(codes) => format!("{} code", codes.len()),
            Err(fault) => format!("{} {} {}", fault.number, fault.line, fault.column),
        };
        assert_eq!(said, outcome, "{row}");
        tried += 1;
    }
    assert!(tried >= 60, "only {tried} rows were found");
}

#[test]
fn sizes_names_and_counts() {
    let names = "l m q c v h0 h1 h2 h3\n";
    let good = "1 8 0 1 2 5 2 - -\n";
    let faults = |text: &str| read(text.as_bytes()).map(|codes| codes.len()).map_err(|f| [f.number, f.line, f.column]);
    assert_eq!(faults(""), Err([2, 1, 0]));
    assert_eq!(faults(names.trim_end()), Err([2, 1, 0]));
    assert_eq!(faults("l m q c v h0 h1 h2 h3\r\n"), Err([2, 1, 0]));
    assert_eq!(faults(names), Ok(0));
    let thirty_two = names.to_string() + &good.repeat(32);
    assert_eq!(faults(&thirty_two), Ok(32));
    assert_eq!(faults(&(thirty_two.clone() + good)), Err([6, 34, 0]));
    assert_eq!(faults(&(thirty_two.clone() + "\n")), Err([6, 34, 0]));
    assert_eq!(faults(&(thirty_two.clone() + "x")), Err([6, 34, 0]));
    assert_eq!(faults(thirty_two.trim_end()), Err([1, 33, 9]));
    let even = names.to_string() + &good.repeat(31) + "1 8 0 1 2 4 2 - -\n" + good;
    assert_eq!(faults(&even), Err([4, 33, 6]));
    assert_eq!(faults(&"x".repeat(4096)), Err([2, 1, 0]));
    assert_eq!(faults(&"x".repeat(4097)), Err([6, 0, 0]));
    let ones = |size: usize| names.to_string() + &"1".repeat(size - names.len());
    assert_eq!(faults(&ones(4096)), Err([1, 2, 1]));
    assert_eq!(faults(&ones(4097)), Err([6, 0, 0]));
    assert_eq!(faults(&(names.to_string() + "1 8 0")), Err([1, 2, 3]));
    assert_eq!(faults(&(names.to_string() + "1 8 0 ")), Err([1, 2, 4]));
    assert_eq!(faults(&(names.to_string() + good + "\n")), Err([1, 3, 1]));
    assert_eq!(faults(&(names.to_string() + good + "2 4 1 1 2 5 2 - -\nx\n")), Err([5, 3, 0]));
    assert_eq!(faults(&(names.to_string() + "1 8 0 1 9 5 2 - -\n\n")), Err([3, 2, 5]));
}

#[test]
fn what_steps_prints() {
    let book = "l m q c v h0 h1 h2 h3\n1 8 0 1 2 5 2 - -\n4 4 3 3 3 11 03 04 02\n";
    assert_eq!(listing(book.as_bytes()), b"l m q c v step\n1 8 0 1 2 4\n4 4 3 3 3 1\n");
    assert_eq!(listing(b"l m q c v h0 h1 h2 h3\n"), b"l m q c v step\n");
    assert_eq!(listing(b"l m q c v h0 h1 h2 h3\n1 8 0 1 2 4 2 - -\n"), b"line column number\n2 6 4\n");
    assert_eq!(line(&numbers([4, 4, 3, 3, 3], [9, 3, 4, 2])), "4 4 3 3 3 11 3 4 2");
    assert_eq!(line(&numbers([1, 8, 0, 1, 2], [5, 2, 0, 0])), "1 8 0 1 2 5 2 - -");
}
