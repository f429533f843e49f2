//! Books alone: what the other cases read and write, and beside it two faults in
//! every order, memories full of tagged lines, and many books to write that
//! nothing refuses.

use super::wanted::Deck;
use super::{books, empty_book, no_bytes, writes, Case};
use crate::random::Random;
use books::BookFault;

/// The decks that are dealt from.
pub struct Decks {
    books: Deck<books::Pair>,
    turns: Deck<(BookFault, BookFault)>,
    ways: Deck<usize>,
    writes: Deck<writes::Pair>,
}

impl Decks {
    pub fn new() -> Decks {
        Decks {
            books: Deck::new(books::pairs()),
            turns: Deck::new(books::turns()),
            ways: Deck::new(books::tagged_ways()),
            writes: Deck::new(writes::pairs()),
        }
    }
}

/// 65,536 bytes of RAM with every line tagged: books of it that are good or have
/// a fault in the last record, and buffers that just hold the book or are a byte short.
pub fn full_cases(random: &mut Random) -> Vec<Case> {
    vec![
        Case::Read(books::longest_book(random, None)),
        Case::Read(books::longest_book(random, Some(BookFault::PastEnd))),
        Case::Read(books::longest_book(random, Some(BookFault::BodyCut))),
        Case::Write(writes::longest_write(random, false, 0)),
        Case::Write(writes::longest_write(random, true, 0)),
        Case::Write(writes::longest_write(random, true, 1)),
    ]
}

pub fn one_book(random: &mut Random, decks: &mut Decks) -> Case {
    match random.below(100) {
        0..=34 => {
            let pair = decks.books.deal(random);
            Case::Read(books::read_case(random, pair))
        }
        35..=53 => {
            let turn = decks.turns.deal(random);
            Case::Read(books::faults_in_turn(random, turn))
        }
        54..=55 => {
            let way = decks.ways.deal(random);
            Case::Read(books::faults_in_one(random, way))
        }
        56..=60 => Case::Read(books::read_case(random, (None, None))),
        61..=63 => {
            let (ram, tags) = no_bytes(random);
            empty_book(random.below(4), ram, tags)
        }
        64..=78 => {
            let pair = decks.writes.deal(random);
            Case::Write(writes::write_case(random, pair))
        }
        _ => Case::Write(writes::write_case(random, (None, None))),
    }
}
