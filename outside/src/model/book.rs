//! The book of codes: its text, its faults, and what `steps` prints for it.
use super::code::{Code, Numbers};

pub const NAMES: &[u8] = b"l m q c v h0 h1 h2 h3\n";
pub const MOST_BYTES: usize = 4096;
pub const MOST_CODES: usize = 32;

/// A refusal of a book.
#[derive(Clone, Copy, Debug, Default, PartialEq, Eq)]
pub struct Fault {
    pub number: u8,
    pub line: u8,
    pub column: u8,
}

/// The codes of a text, or its first fault.
pub fn read(text: &[u8]) -> Result<Vec<Code>, Fault> {
    if text.len() > MOST_BYTES {
        return Err(Fault { number: 6, line: 0, column: 0 });
    }
    let Some(mut rest) = text.strip_prefix(NAMES) else {
        return Err(Fault { number: 2, line: 1, column: 0 });
    };
    let mut codes = Vec::new();
    while !rest.is_empty() {
        let line = codes.len() as u8 + 2;
        if codes.len() == MOST_CODES {
            return Err(Fault { number: 6, line, column: 0 });
        }
        let (values, length) = shape(rest).map_err(|column| Fault { number: 1, line, column })?;
        let code = judge(values).map_err(|(number, column)| Fault { number, line, column })?;
        codes.push(code);
        rest = &rest[length..];
    }
    Ok(codes)
}

/// The nine values of the line that begins here, a dash being none, and the length of the line with its line feed;
/// or the column in which it leaves its shape.
fn shape(text: &[u8]) -> Result<([Option<u16>; 9], usize), u8> {
    let mut values = [None; 9];
    let mut at = 0;
    for column in 1..=9u8 {
        let (base, most) = if column <= 5 { (10, 2) } else { (8, 3) };
        if column >= 8 && text.get(at) == Some(&b'-') {
            at += 1;
        } else {
            let mut value = 0;
            let mut digits = 0;
            while digits < most {
                let Some(digit) = text.get(at).and_then(|&byte| (byte as char).to_digit(base)) else {
                    break;
                };
                value = value * base as u16 + digit as u16;
                digits += 1;
                at += 1;
            }
            if digits == 0 {
                return Err(column);
            }
            values[column as usize - 1] = Some(value);
        }
        let due = if column < 9 { b' ' } else { b'\n' };
        if text.get(at) != Some(&due) {
            return Err(column);
        }
        at += 1;
    }
    Ok((values, at))
}

/// The code of a line's values, or number and column of its first fault.
fn judge(values: [Option<u16>; 9]) -> Result<Code, (u8, u8)> {
    let small = |column: usize| values[column - 1].unwrap_or(0) as u8;
    let polynomial = |column: usize| values[column - 1].unwrap_or(0);
    let numbers = Numbers {
        places: small(1),
        phases: small(2),
        offset: small(3),
        checked: small(4),
        memory: small(5),
        h: [polynomial(6), polynomial(7), polynomial(8), polynomial(9)],
    };
    let judged = Code::new(numbers);
    // A 0 that is written is no dash: where none is due it is a fault, which the numbers alone do not show.
    let written = (8..=9).find(|&column| column - 6 > numbers.checked as usize && values[column - 1].is_some());
    match (judged, written) {
        (Err(flaw), _) if flaw.number == 3 => Err((3, flaw.column)),
        (Err(flaw), Some(column)) if flaw.number == 4 => Err((4, flaw.column.min(column as u8))),
        (_, Some(column)) => Err((4, column as u8)),
        (Err(flaw), None) => Err((flaw.number, flaw.column)),
        (Ok(code), None) => Ok(code),
    }
}

/// What `steps` prints for a text.
pub fn listing(text: &[u8]) -> Vec<u8> {
    match read(text) {
        Ok(codes) => {
            let mut lines = String::from("l m q c v step\n");
            for code in codes {
                let n = code.numbers();
                lines +=
                    &format!("{} {} {} {} {} {}\n", n.places, n.phases, n.offset, n.checked, n.memory, code.step());
            }
            lines.into_bytes()
        }
        Err(fault) => format!("line column number\n{} {} {}\n", fault.line, fault.column, fault.number).into_bytes(),
    }
}

/// Numbers as the line of a book, without its line feed. Numbers that no line can hold are written all the same.
pub fn line(numbers: &Numbers) -> String {
    let mut text = format!(
        "{} {} {} {} {} {:o} {:o}",
        numbers.places, numbers.phases, numbers.offset, numbers.checked, numbers.memory, numbers.h[0], numbers.h[1]
    );
    for j in 2..=3 {
        if numbers.h[j] == 0 && j > numbers.checked as usize {
            text += " -";
        } else {
            text += &format!(" {:o}", numbers.h[j]);
        }
    }
    text
}
