//! The rules of docs/CODES.md, docs/BOOK.md, docs/RECEIVER.md and docs/REFUSALS.md in plain Rust. Nothing here is taken
//! from the library's code.
pub mod book;
pub mod burst;
pub mod calls;
pub mod code;
pub mod front;
pub mod paths;
pub mod receiver;
pub mod search;

#[cfg(test)]
mod examples;

pub use book::{listing, read, Fault};
pub use burst::Burst;
pub use code::{Code, Flaw, Numbers, Symbol};
pub use front::{Front, Kind};
pub use paths::Paths;
pub use receiver::{Engine, Receiver};
pub use search::Search;
