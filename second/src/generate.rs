//! Random cases, the file that holds them, and the answers to them.
//!
//! A case asks one of four things: run a machine, read a book, write a book, or
//! the bench's line for a book and a flash.
//! `cases` makes them, the same from the same seed on every machine; `encode`
//! and `decode` are the case file; `answer` and `answer_line` ask this program.

mod access;
mod answers;
mod books;
mod capability;
mod fetch;
mod focus;
mod format;
mod numbers;
mod operands;
mod programs;
mod refusals;
mod shelf;
mod stage;
mod vectors;
mod wanted;
mod writes;

pub use answers::{answer, answer_line, checksum, Answer};
pub use format::{decode, encode};

use crate::asm::encode::Format;
use crate::random::Random;
use crate::Machine;
use stage::Setting;
use wanted::{Deck, Target};

/// Run a machine with this flash, RAM, tags and budget.
#[derive(Clone, PartialEq, Eq, Debug, Default)]
pub struct RunCase {
    pub machine: Machine,
    pub flash: Vec<u8>,
    pub ram: Vec<u8>,
    pub tags: Vec<u8>,
    pub budget: u32,
}

/// Read a book over the RAM and the tags as they were before.
#[derive(Clone, PartialEq, Eq, Debug, Default)]
pub struct ReadCase {
    pub book: Vec<u8>,
    pub flash_length: usize,
    pub ram: Vec<u8>,
    pub tags: Vec<u8>,
}

/// Write a book into a buffer as it was before.
#[derive(Clone, PartialEq, Eq, Debug, Default)]
pub struct WriteCase {
    pub machine: Machine,
    pub ram: Vec<u8>,
    pub tags: Vec<u8>,
    pub out: Vec<u8>,
}

/// Read a book and run it as the bench does.
#[derive(Clone, PartialEq, Eq, Debug, Default)]
pub struct BenchCase {
    pub book: Vec<u8>,
    pub flash: Vec<u8>,
}

#[derive(Clone, PartialEq, Eq, Debug)]
pub enum Case {
    Run(RunCase),
    Read(ReadCase),
    Write(WriteCase),
    Bench(BenchCase),
}

/// The decks from which wanted outcomes are dealt, so that all of them come up.
struct Decks {
    targets: Deck<Target>,
    pairs: Deck<Target>,
    near_words: Deck<&'static Format>,
    refusals: Deck<refusals::Pair>,
    books: Deck<books::Pair>,
    writes: Deck<writes::Pair>,
}

/// `count` cases, the same for the same seed.
pub fn cases(seed: u64, count: usize) -> Vec<Case> {
    stream(seed).take(count).collect()
}

/// The first `count` runs among the cases of a seed.
pub fn run_cases(seed: u64, count: usize) -> Vec<Case> {
    stream(seed).filter(|case| matches!(case, Case::Run(_))).take(count).collect()
}

/// `count` books to read or to write, the same for the same seed: first full
/// memories, then what the decks deal.
pub fn book_cases(seed: u64, count: usize) -> Vec<Case> {
    let mut random = Random::new(seed);
    let mut decks = shelf::Decks::new();
    let mut cases = shelf::full_cases(&mut random);
    while cases.len() < count {
        cases.push(shelf::one_book(&mut random, &mut decks));
    }
    cases.truncate(count);
    cases
}

/// `count` books and flashes for the bench, the same for the same seed: first the
/// examples of 01 and the largest files, then what the decks deal.
pub fn bench_cases(seed: u64, count: usize) -> Vec<Case> {
    let mut random = Random::new(seed);
    let mut decks = vectors::Decks::new();
    let mut cases = vectors::first_cases(&mut random);
    while cases.len() < count {
        cases.push(vectors::one_case(&mut random, &mut decks));
    }
    cases.truncate(count);
    cases.into_iter().map(Case::Bench).collect()
}

fn stream(seed: u64) -> impl Iterator<Item = Case> {
    let mut random = Random::new(seed);
    let mut decks = Decks {
        targets: Deck::new(wanted::targets()),
        pairs: Deck::new(wanted::pair_targets()),
        near_words: Deck::new(fetch::near_formats()),
        refusals: Deck::new(refusals::pairs()),
        books: Deck::new(books::pairs()),
        writes: Deck::new(writes::pairs()),
    };
    std::iter::repeat_with(move || one_case(&mut random, &mut decks))
}

fn one_case(random: &mut Random, decks: &mut Decks) -> Case {
    match random.below(100) {
        0..=35 => {
            let target = decks.targets.deal(random);
            Case::Run(focus::focus(random, target, decks.targets.odd_round(), Setting::Free))
        }
        36..=57 => {
            let target = decks.pairs.deal(random);
            Case::Run(focus::focus(random, target, decks.pairs.odd_round(), Setting::Free))
        }
        58..=62 => Case::Run(fetch::fetch_fault(random, Setting::Free)),
        63..=69 => {
            let format = decks.near_words.deal(random);
            let near = decks.near_words.odd_round();
            Case::Run(fetch::reserved_word(random, format, near, Setting::Free))
        }
        70..=77 => Case::Run(programs::program(random, Setting::Free)),
        78..=82 => {
            let pair = decks.refusals.deal(random);
            Case::Run(refusals::refused(random, pair))
        }
        83..=91 => {
            let pair = decks.books.deal(random);
            Case::Read(books::read_case(random, pair))
        }
        92..=97 => {
            let pair = decks.writes.deal(random);
            Case::Write(writes::write_case(random, pair))
        }
        _ => empty_case(random),
    }
}

/// Cases in which something, or everything, is missing.
fn empty_case(random: &mut Random) -> Case {
    let (ram, tags) = no_bytes(random);
    match random.below(6) {
        0 => Case::Run(RunCase { budget: random.below(3) as u32, ..RunCase::default() }),
        1 => Case::Run(RunCase { ram, tags, budget: 1, ..RunCase::default() }),
        which => empty_book(which - 2, ram, tags),
    }
}

/// No line, or one or two of zeros, and their tags.
fn no_bytes(random: &mut Random) -> (Vec<u8>, Vec<u8>) {
    let lines = random.below(3) as usize;
    (vec![0; lines * 32], vec![0; lines])
}

/// No byte to read or no record; no room to write or room for no record.
fn empty_book(which: u64, ram: Vec<u8>, tags: Vec<u8>) -> Case {
    match which {
        0 => Case::Read(ReadCase { ram, tags, ..ReadCase::default() }),
        1 => Case::Read(ReadCase { book: vec![1], ram, tags, ..ReadCase::default() }),
        2 => Case::Write(WriteCase { ram, tags, ..WriteCase::default() }),
        _ => Case::Write(WriteCase { ram, tags, out: vec![7; 1], ..WriteCase::default() }),
    }
}
