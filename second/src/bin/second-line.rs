//! Prints the bench line of `start.book` and `flash.bin` in the current folder.

use std::fs::File;
use std::io::Read;

/// One byte more than the largest file, so that a longer one is seen as such.
const MOST_READ: u64 = 65_537;

fn main() {
    let book = read_file("start.book");
    let flash = read_file("flash.bin");
    let line = second::bench_line(&book, &flash);
    println!("{}", second::bench::line_text(&line));
}

/// A file that cannot be opened, or read, counts as empty.
fn read_file(name: &str) -> Vec<u8> {
    let mut bytes = Vec::new();
    let read = File::open(name).and_then(|file| file.take(MOST_READ).read_to_end(&mut bytes));
    match read {
        Ok(_) => bytes,
        Err(_) => Vec::new(),
    }
}
