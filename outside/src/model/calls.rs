//! The calls of include/kamzhules.h as the model answers them: numbers in place of types, a sender that may hold
//! anything.
use super::book::{self, Fault};
use super::burst::Place;
use super::code::{Code, Numbers, Symbol};

pub const QUIET: u8 = 254;
pub const NOTHING: u8 = 255;

/// A sender as its owner holds it: sending if `sending` is 1, all else taken as it stands.
#[derive(Clone, Copy, Debug, Default, PartialEq, Eq)]
pub struct Sender {
    pub numbers: Numbers,
    pub state: u8,
    pub differential: u8,
    pub sent: u8,
    pub sending: u8,
}

pub fn entry(text: &[u8], entry: usize) -> Result<Numbers, Fault> {
    let codes = book::read(text)?;
    let code = codes.get(entry).ok_or(Fault { number: NOTHING, line: 0, column: 0 })?;
    Ok(code.numbers())
}

pub fn check(numbers: Numbers) -> Fault {
    match Code::new(numbers) {
        Ok(_) => Fault::default(),
        Err(flaw) => Fault { number: flaw.number, line: 0, column: flaw.column },
    }
}

pub fn step(numbers: Numbers) -> u8 {
    Code::new(numbers).map_or(0, |code| code.step())
}

pub fn map(numbers: Numbers, label: u16) -> Result<Symbol, u8> {
    Ok(Code::new(numbers).map_err(|flaw| flaw.number)?.symbol(label))
}

pub fn begin(sender: &mut Sender, numbers: Numbers) -> Result<Symbol, u8> {
    let code = Code::new(numbers).map_err(|flaw| flaw.number)?;
    *sender = Sender { numbers, state: 0, differential: 0, sent: 0, sending: 1 };
    Ok(code.symbol(0))
}

pub fn send(sender: &mut Sender, word: u16) -> Result<Symbol, u8> {
    if sender.sending != 1 {
        return Err(QUIET);
    }
    let code = Code::new(sender.numbers).map_err(|flaw| flaw.number)?;
    if sender.sent == 255 {
        return Err(25);
    }
    if code.too_wide(word) {
        return Err(7);
    }
    let place = Place { state: sender.state.into(), differential: sender.differential.into() };
    let (label, next) = code.label(place, word);
    sender.state = next.state as u8;
    sender.differential = next.differential as u8;
    sender.sent += 1;
    Ok(code.symbol(label))
}

pub fn end(sender: &mut Sender) -> Result<u8, u8> {
    if sender.sending != 1 {
        return Err(QUIET);
    }
    sender.sending = 0;
    Ok(sender.sent)
}
