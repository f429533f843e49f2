//! The bench line: one book and one flash, run with fixed sizes.

use crate::book::read_book;
use crate::cause::REFUSE_SIZE;
use crate::memory::{LINE, MEMORY_MOST};
use crate::run::run;

pub const BENCH_RAM: usize = 32_768;
const BENCH_BUDGET: u32 = 1_000;

/// Stop or refusal, cause, register, place, steps; zeros where they do not apply.
pub fn bench_line(book: &[u8], flash: &[u8]) -> [u64; 5] {
    // Either file over 65,536 bytes comes before anything else (ruling C6).
    if book.len() > MEMORY_MOST || flash.len() > MEMORY_MOST {
        return refused(REFUSE_SIZE);
    }
    let mut ram = vec![0; BENCH_RAM];
    let mut tags = vec![0; BENCH_RAM / LINE as usize];
    let machine = match read_book(book, flash.len(), &mut ram, &mut tags) {
        Ok(machine) => machine,
        Err(number) => return refused(number),
    };
    let outcome = run(&machine, flash, &mut ram, &mut tags, BENCH_BUDGET);
    [
        u64::from(outcome.stop),
        u64::from(outcome.cause),
        u64::from(outcome.register),
        outcome.place,
        u64::from(outcome.steps),
    ]
}

/// The line as it is printed: decimal numbers with a space between them.
pub fn line_text(line: &[u64; 5]) -> String {
    line.map(|number| number.to_string()).join(" ")
}

fn refused(number: u32) -> [u64; 5] {
    [u64::from(number), 0, 0, 0, 0]
}
