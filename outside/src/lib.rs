//! Kamzhules from outside. `model` says the rules of docs/ once more in plain Rust, `ffi` calls the static library
//! through include/kamzhules.h, and tests/ compares the two.
pub mod ffi;
pub mod model;
pub mod random;
