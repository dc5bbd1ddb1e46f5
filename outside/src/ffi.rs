//! include/kamzhules.h: its structs, its functions, and the same functions with references and slices.
pub mod receiver;

use crate::model::calls;
use crate::model::{Fault as ModelFault, Numbers, Symbol as ModelSymbol};

#[repr(C)]
#[derive(Clone, Copy, Debug, PartialEq, Eq)]
pub struct Code {
    pub places: u8,
    pub phases: u8,
    pub offset: u8,
    pub checked: u8,
    pub memory: u8,
    pub h0: u16,
    pub h1: u16,
    pub h2: u16,
    pub h3: u16,
}

#[repr(C)]
#[derive(Clone, Copy, Debug, PartialEq, Eq)]
pub struct Fault {
    pub number: u8,
    pub line: u8,
    pub column: u8,
}

#[repr(C)]
#[derive(Clone, Copy, Debug, PartialEq, Eq)]
pub struct Symbol {
    pub places: u8,
    pub phases: [u8; 4],
}

#[repr(C)]
#[derive(Clone, Copy, Debug, PartialEq, Eq)]
pub struct Sender {
    pub code: Code,
    pub state: u8,
    pub differential: u8,
    pub sent: u8,
    pub sending: u8,
}

pub mod raw {
    use super::{Code, Fault, Sender, Symbol};
    extern "C" {
        pub fn kz_entry(text: *const u8, length: usize, entry: usize, code: *mut Code) -> Fault;
        pub fn kz_check(code: Code) -> Fault;
        pub fn kz_step(code: Code) -> u8;
        pub fn kz_map(code: Code, label: u16, symbol: *mut Symbol) -> u8;
        pub fn kz_begin(sender: *mut Sender, code: Code, symbol: *mut Symbol) -> u8;
        pub fn kz_send(sender: *mut Sender, word: u16, symbol: *mut Symbol) -> u8;
        pub fn kz_end(sender: *mut Sender, sent: *mut u8) -> u8;
        pub fn kz_steps(text: *const u8, length: usize, buffer: *mut u8, room: usize) -> usize;
    }
}

// Each call below hands over pointers made from references and slices with their own lengths, which live until it
// returns; every field is a plain number, so that no bytes in it are wrong.

pub fn entry(text: &[u8], entry: usize, code: &mut Code) -> Fault {
    unsafe { raw::kz_entry(text.as_ptr(), text.len(), entry, code) }
}

pub fn check(code: Code) -> Fault {
    unsafe { raw::kz_check(code) }
}

pub fn step(code: Code) -> u8 {
    unsafe { raw::kz_step(code) }
}

pub fn map(code: Code, label: u16, symbol: &mut Symbol) -> u8 {
    unsafe { raw::kz_map(code, label, symbol) }
}

pub fn begin(sender: &mut Sender, code: Code, symbol: &mut Symbol) -> u8 {
    unsafe { raw::kz_begin(sender, code, symbol) }
}

pub fn send(sender: &mut Sender, word: u16, symbol: &mut Symbol) -> u8 {
    unsafe { raw::kz_send(sender, word, symbol) }
}

pub fn end(sender: &mut Sender, sent: &mut u8) -> u8 {
    unsafe { raw::kz_end(sender, sent) }
}

pub fn steps(text: &[u8], buffer: &mut [u8]) -> usize {
    unsafe { raw::kz_steps(text.as_ptr(), text.len(), buffer.as_mut_ptr(), buffer.len()) }
}

impl From<Numbers> for Code {
    fn from(n: Numbers) -> Code {
        Code {
            places: n.places,
            phases: n.phases,
            offset: n.offset,
            checked: n.checked,
            memory: n.memory,
            h0: n.h[0],
            h1: n.h[1],
            h2: n.h[2],
            h3: n.h[3],
        }
    }
}

impl From<ModelFault> for Fault {
    fn from(f: ModelFault) -> Fault {
        Fault { number: f.number, line: f.line, column: f.column }
    }
}

impl From<ModelSymbol> for Symbol {
    fn from(s: ModelSymbol) -> Symbol {
        Symbol { places: s.places, phases: s.phases }
    }
}

impl From<calls::Sender> for Sender {
    fn from(s: calls::Sender) -> Sender {
        Sender {
            code: s.numbers.into(),
            state: s.state,
            differential: s.differential,
            sent: s.sent,
            sending: s.sending,
        }
    }
}
