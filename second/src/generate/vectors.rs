//! Books and flashes for the bench: the examples of 01, sizes at their ends, runs
//! about every instruction as a book says them, and books with faults.

use super::books::{self, Pair};
use super::numbers::{edge, open_cap};
use super::stage::{put_line, Setting};
use super::wanted::{self, Deck, Target};
use super::{fetch, focus, programs, BenchCase, RunCase};
use crate::asm::encode::Format;
use crate::bench::BENCH_RAM;
use crate::make::make;
use crate::random::Random;
use crate::{write_book, Machine};

/// The largest file.
const FILE_MOST: usize = 65_536;

/// The decks that are dealt from.
pub struct Decks {
    targets: Deck<Target>,
    pairs: Deck<Target>,
    near_words: Deck<&'static Format>,
    books: Deck<Pair>,
}

impl Decks {
    pub fn new() -> Decks {
        Decks {
            targets: Deck::new(wanted::targets()),
            pairs: Deck::new(wanted::pair_targets()),
            near_words: Deck::new(fetch::near_formats()),
            books: Deck::new(books::pairs()),
        }
    }
}

pub fn one_case(random: &mut Random, decks: &mut Decks) -> BenchCase {
    let run = match random.below(100) {
        0..=44 => {
            let target = decks.targets.deal(random);
            focus::focus(random, target, decks.targets.odd_round(), Setting::Bench)
        }
        45..=67 => {
            let target = decks.pairs.deal(random);
            focus::focus(random, target, decks.pairs.odd_round(), Setting::Bench)
        }
        68..=71 => fetch::fetch_fault(random, Setting::Bench),
        72..=76 => {
            let format = decks.near_words.deal(random);
            fetch::reserved_word(random, format, decks.near_words.odd_round(), Setting::Bench)
        }
        77..=85 => programs::program(random, Setting::Bench),
        _ => {
            let pair = decks.books.deal(random);
            return faulty(random, pair);
        }
    };
    written(run)
}

/// A run as its book says it: the cause is 0 then, and the budget the bench's.
fn written(run: RunCase) -> BenchCase {
    let machine = Machine { cause: 0, ..run.machine };
    let mut book = vec![0; FILE_MOST];
    // A machine that no book can say leaves a book without a byte.
    let length = write_book(&machine, &run.ram, &run.tags, &mut book).unwrap_or(0);
    book.truncate(length);
    BenchCase { book, flash: run.flash }
}

/// A book with up to two faults, of which one can be the length of the flash.
fn faulty(random: &mut Random, pair: Pair) -> BenchCase {
    loop {
        let case = books::read_case(random, pair);
        if case.ram.len() == BENCH_RAM && case.tags.len() == BENCH_RAM / 32 {
            let mut flash = vec![0; case.flash_length];
            if let Some(last) = flash.get_mut(3) {
                *last = 0x0D;
            }
            return BenchCase { book: case.book, flash };
        }
    }
}

/// What comes first in every file: 01's examples, then empty files and the largest ones.
pub fn first_cases(random: &mut Random) -> Vec<BenchCase> {
    let mut cases = vec![BenchCase { book: vec![1], flash: Vec::new() }];
    cases.extend(EXAMPLES.iter().map(|text| example(text)));
    cases.push(BenchCase::default());
    let flash = |length: usize| BenchCase { book: vec![1], flash: vec![0; length] };
    cases.extend([32, FILE_MOST, FILE_MOST + 1, FILE_MOST + 32].map(flash));
    let book = |version: u8, length: usize| {
        let mut book = vec![0; length];
        book[0] = version;
        BenchCase { book, flash: Vec::new() }
    };
    cases.extend(
        [(1, FILE_MOST), (2, FILE_MOST), (1, FILE_MOST + 1), (2, FILE_MOST + 1)]
            .map(|(version, length)| book(version, length)),
    );
    cases.push(fullest(random));
    cases
}

/// Every register and every line of the bench's RAM, each tagged.
fn fullest(random: &mut Random) -> BenchCase {
    let mut run = RunCase {
        flash: vec![0; FILE_MOST],
        ram: vec![0; BENCH_RAM],
        tags: vec![0; BENCH_RAM / 32],
        ..RunCase::default()
    };
    for line in 0..run.tags.len() {
        put_line(&mut run, line, &open_cap(random));
    }
    for number in 0..32 {
        run.machine.caps[number] = open_cap(random);
        run.machine.general[number] = if number == 0 { 0 } else { edge(random) };
    }
    run.machine.pcc = open_cap(random);
    written(run)
}

fn example(text: &str) -> BenchCase {
    let made = make(text).expect("the text is an example");
    BenchCase { book: made.book, flash: made.flash }
}

/// 01's bench examples after the first. A load is followed by BREAK, so that one
/// that passes prints `8 0 0 4 1`.
const EXAMPLES: &[&str] = &[
    "pcc base=0 length=4 perms=execute
     .word 0",
    "pcc base=0 length=8 perms=execute
     .word 0, 0x0000000D",
    "pcc base=0 length=32 perms=execute
     c1 base=0x100000 length=64 perms=load+store
     cld $2, $0, 56($c1)
     break",
    "pcc base=0 length=32 perms=execute
     c1 base=0x100000 length=64 perms=load+store
     cld $2, $0, 57($c1)
     break",
    "pcc base=0 length=32 perms=execute
     c1 base=0x100000 length=64 perms=load+store
     cld $2, $0, 52($c1)
     break",
    // Byte 52 alone is not 0, and only then the run comes to the second BREAK.
    "pcc base=0 length=32 perms=execute
     c1 base=0x100000 length=64 offset=60 perms=load+store
     $3 = -8
     line 0x100020 bytes 0000000000 0000000000 0000000000 0000000000 5A
     clbu $2, $3, 0($c1)
     bne $2, $0, read
     nop
     break
     read: break",
    "pcc base=0 length=32 perms=execute
     c1 base=0x100000 length=64 perms=load+store
     $3 = -1
     clbu $2, $3, 0($c1)
     break",
    "pcc base=0 length=32 perms=execute
     c1 base=0x100000 length=64 offset=-8 perms=load+store
     $3 = 8
     clbu $2, $3, 0($c1)
     break",
    "pcc base=0 length=32 perms=execute
     c1 base=0x100000 length=0 perms=load+store
     clbu $2, $0, 0($c1)
     break",
    "pcc base=0 length=32 perms=execute
     c1 base=-8 length=8 perms=load+store
     cld $2, $0, 0($c1)
     break",
    // A byte store into the second of three tagged lines: its tag is clear then,
    // the others' are set, and only so the run comes to the first BREAK.
    "pcc base=0 length=64 perms=execute
     c1 base=0x100000 length=96 perms=load+store+load_capability
     line 0x100000 cap base=0 length=1 perms=load
     line 0x100020 cap base=0 length=2 perms=load
     line 0x100040 cap base=0 length=3 perms=load
     csb $0, $0, 40($c1)
     clc $c2, $0, 0($c1)
     clc $c3, $0, 32($c1)
     clc $c4, $0, 64($c1)
     cbtu $c2, other
     nop
     cbts $c3, other
     nop
     cbtu $c4, other
     nop
     break
     other: break",
];
