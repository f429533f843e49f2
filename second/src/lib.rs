//! A second program for the capability machine of the scope paper.
//!
//! It is written from the papers alone, in the plainest way, so that another
//! implementation of the same rules can be compared with it.

pub mod access;
pub mod alu;
pub mod asm;
pub mod bench;
pub mod book;
pub mod cap;
pub mod cause;
pub mod decode;
pub mod derive;
pub mod execute;
pub mod generate;
pub mod inspect;
pub mod jumps;
pub mod machine;
pub mod make;
pub mod memory;
pub mod random;
pub mod reach;
pub mod refusal;
pub mod run;
pub mod words;

pub use bench::bench_line;
pub use book::{read_book, write_book};
pub use cap::*;
pub use cause::*;
pub use decode::{decode, is_branch_or_jump, Compare, Instruction};
pub use machine::*;
pub use memory::{LINE, RAM_BASE};
pub use reach::{reach, Reach};
pub use run::{run, step};
