//! The receiver's part of include/kamzhules.h: its structs, its functions, and the same with references and slices.
use super::Code;

#[repr(C)]
#[derive(Clone, Copy, Debug, Default, PartialEq, Eq)]
pub struct PlainCell {
    pub score: u32,
    pub label: u16,
    pub sole: u8,
}

#[repr(C)]
#[derive(Clone, Copy, Debug, Default, PartialEq, Eq)]
pub struct StrikeCell {
    pub distance: u32,
    pub strikes: u16,
    pub label: u16,
    pub sole: u8,
}

#[repr(C)]
#[derive(Clone, Copy, Debug, PartialEq, Eq)]
pub struct Receiver {
    pub code: Code,
    pub count: u16,
    pub open: u8,
}

/// A receiver with no block.
pub const NO_BLOCK: Receiver = Receiver {
    code: Code { places: 0, phases: 0, offset: 0, checked: 0, memory: 0, h0: 0, h1: 0, h2: 0, h3: 0 },
    count: 0,
    open: 0,
};

#[repr(C)]
#[derive(Clone, Copy, Debug, PartialEq, Eq)]
pub struct Told {
    pub worth: u64,
    pub count: u16,
    pub sole: u8,
}

#[repr(C)]
#[derive(Clone, Copy, Debug, PartialEq, Eq)]
pub struct Delivered {
    pub count: u16,
    pub sole: u8,
}

pub mod raw {
    use super::{Code, Delivered, PlainCell, Receiver, StrikeCell, Told};
    extern "C" {
        pub fn kz_plain_open(r: *mut Receiver, cells: *mut PlainCell, n: usize, code: Code, symbols: *mut u16) -> u8;
        pub fn kz_plain_take(
            r: *mut Receiver,
            cells: *mut PlainCell,
            n: usize,
            front: u8,
            reading: *const u16,
            words: usize,
        ) -> u8;
        pub fn kz_plain_tell(r: *const Receiver, cells: *const PlainCell, n: usize, told: *mut Told) -> u8;
        pub fn kz_plain_deliver(
            r: *const Receiver,
            cells: *const PlainCell,
            n: usize,
            buffer: *mut u16,
            length: usize,
            delivered: *mut Delivered,
        ) -> u8;
        pub fn kz_strike_open(r: *mut Receiver, cells: *mut StrikeCell, n: usize, code: Code, symbols: *mut u16) -> u8;
        pub fn kz_strike_take(
            r: *mut Receiver,
            cells: *mut StrikeCell,
            n: usize,
            front: u8,
            reading: *const u16,
            words: usize,
        ) -> u8;
        pub fn kz_strike_tell(r: *const Receiver, cells: *const StrikeCell, n: usize, told: *mut Told) -> u8;
        pub fn kz_strike_deliver(
            r: *const Receiver,
            cells: *const StrikeCell,
            n: usize,
            buffer: *mut u16,
            length: usize,
            delivered: *mut Delivered,
        ) -> u8;
        pub fn kz_turn(front: u8, phases: u8, reading: *mut u16, words: usize) -> u8;
        pub fn kz_clean(front: u8, phases: u8, phase: u8, reading: *mut u16, words: usize) -> u8;
    }
}

// Each call below hands over pointers made from references and slices with their own lengths, which live until it
// returns; every field is a plain number, so that no bytes in it are wrong.

macro_rules! kind {
    ($kind:ident, $cell:ident, $open:ident, $take:ident, $tell:ident, $deliver:ident) => {
        pub mod $kind {
            use super::{raw, $cell, Code, Delivered, Receiver, Told};

            pub fn open(r: &mut Receiver, cells: &mut [$cell], code: Code, symbols: &mut u16) -> u8 {
                unsafe { raw::$open(r, cells.as_mut_ptr(), cells.len(), code, symbols) }
            }

            pub fn take(r: &mut Receiver, cells: &mut [$cell], front: u8, reading: &[u16]) -> u8 {
                unsafe { raw::$take(r, cells.as_mut_ptr(), cells.len(), front, reading.as_ptr(), reading.len()) }
            }

            pub fn tell(r: &Receiver, cells: &[$cell], told: &mut Told) -> u8 {
                unsafe { raw::$tell(r, cells.as_ptr(), cells.len(), told) }
            }

            pub fn deliver(r: &Receiver, cells: &[$cell], buffer: &mut [u16], delivered: &mut Delivered) -> u8 {
                let (words, length) = (buffer.as_mut_ptr(), buffer.len());
                unsafe { raw::$deliver(r, cells.as_ptr(), cells.len(), words, length, delivered) }
            }
        }
    };
}

kind!(plain, PlainCell, kz_plain_open, kz_plain_take, kz_plain_tell, kz_plain_deliver);
kind!(strike, StrikeCell, kz_strike_open, kz_strike_take, kz_strike_tell, kz_strike_deliver);

pub fn turn(front: u8, phases: u8, reading: &mut [u16]) -> u8 {
    unsafe { raw::kz_turn(front, phases, reading.as_mut_ptr(), reading.len()) }
}

pub fn clean(front: u8, phases: u8, phase: u8, reading: &mut [u16]) -> u8 {
    unsafe { raw::kz_clean(front, phases, phase, reading.as_mut_ptr(), reading.len()) }
}
