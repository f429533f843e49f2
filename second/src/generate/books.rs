//! Books to read: good ones, and ones with one or two faults in any order.

use super::numbers::{any_cap, edge, open_cap};
use super::refusals::{past_end_cap, wrong_ram_size};
use super::ReadCase;
use crate::random::Random;
use crate::{Cap, RAM_BASE};

#[derive(Clone, Copy, PartialEq, Eq, Debug)]
pub enum BookFault {
    /// 20
    Size,
    /// 30
    NoByte,
    Version,
    /// 31
    HeaderCut,
    BodyCut,
    BodyEmpty,
    WrongLength,
    /// 32
    UnknownKind,
    /// 34, one of the ways in which a field can be out of range
    FieldRange(usize),
    /// 22
    PastEnd,
    /// 33
    Order,
}

/// Up to two faults at once.
pub type Pair = (Option<BookFault>, Option<BookFault>);

/// The ways of `FieldRange`.
const FIELD_WAYS: usize = 11;

pub fn pairs() -> Vec<Pair> {
    use BookFault::*;
    let mut all = vec![Size, NoByte, Version, HeaderCut, BodyCut, BodyEmpty, WrongLength];
    all.extend([UnknownKind, PastEnd, Order]);
    let mut pairs = vec![(None, None); 20];
    for (index, first) in all.iter().enumerate() {
        pairs.extend([(Some(*first), None); 3]);
        pairs.extend(all.iter().map(|second| (Some(*first), Some(*second))));
        let way = index % FIELD_WAYS;
        pairs.push((Some(*first), Some(FieldRange(way))));
        pairs.push((Some(FieldRange(way)), Some(*first)));
    }
    pairs.extend((0..FIELD_WAYS).map(|way| (Some(FieldRange(way)), None)));
    pairs
}

/// A book while it is being built: each record with its header.
struct Book {
    version: Vec<u8>,
    records: Vec<Vec<u8>>,
    /// Bytes lost from the end.
    lost: usize,
}

impl Book {
    fn bytes(self) -> Vec<u8> {
        let mut bytes = self.version;
        bytes.extend(self.records.concat());
        bytes.truncate(bytes.len() - self.lost.min(bytes.len()));
        bytes
    }
}

pub fn read_case(random: &mut Random, pair: Pair) -> ReadCase {
    let mut case = no_book(random);
    let mut book = good_book(random, case.ram.len());
    // Half of the time two faults meet in one record.
    let at = random.next() as usize;
    for fault in [pair.0, pair.1].into_iter().flatten() {
        let at = if random.chance(2) { at } else { random.next() as usize };
        apply(random, &mut case, &mut book, fault, at);
    }
    case.book = book.bytes();
    case
}

/// Each fault of a record before each other of a later one.
pub fn turns() -> Vec<(BookFault, BookFault)> {
    use BookFault::*;
    let mut all = vec![BodyEmpty, WrongLength, UnknownKind, PastEnd, Order];
    all.extend((0..FIELD_WAYS).map(FieldRange));
    let mut turns = Vec::new();
    for first in &all {
        turns.extend(all.iter().map(|second| (*first, *second)));
        // What is cut off ends the book.
        turns.extend([(*first, HeaderCut), (*first, BodyCut)]);
    }
    turns
}

/// A book with one fault in its earlier part and one in its later part.
pub fn faults_in_turn(random: &mut Random, turn: (BookFault, BookFault)) -> ReadCase {
    let mut case = no_book(random);
    let mut earlier = good_book(random, case.ram.len());
    let parted = random.below(earlier.records.len() as u64 + 1) as usize;
    let records = earlier.records.split_off(parted);
    let mut later = Book { version: Vec::new(), records, lost: 0 };
    for (part, fault) in [(&mut earlier, turn.0), (&mut later, turn.1)] {
        let at = random.next() as usize;
        apply(random, &mut case, part, fault, at);
    }
    earlier.records.append(&mut later.records);
    earlier.lost = later.lost;
    case.book = earlier.bytes();
    case
}

/// The ways of `FieldRange` that leave a capability tagged.
pub fn tagged_ways() -> Vec<usize> {
    vec![0, 2, 3, 7, 8, 9, 10]
}

/// A book whose last record reaches past 2^64 and has a field out of its range; a
/// capability register there is behind too.
pub fn faults_in_one(random: &mut Random, way: usize) -> ReadCase {
    let mut case = no_book(random);
    let mut book = good_book(random, case.ram.len());
    let kind = if way < 4 { 1 } else { 3 };
    book.records.retain(|record| record[2] != kind);
    let mut record = last_record(random, kind);
    past_end(random, &mut record);
    book.records.push(record);
    field_range(random, &mut book.records, case.ram.len(), way, 0);
    case.book = book.bytes();
    case
}

/// The longest book: every register and every line of the longest RAM, each tagged.
pub fn longest_book(random: &mut Random, fault: Option<BookFault>) -> ReadCase {
    let mut book = Book { version: vec![1], records: Vec::new(), lost: 0 };
    for number in 0..33 {
        book.records.push(capability_record(number, &open_cap(random)));
    }
    for number in 1..32 {
        book.records.push(general_record(number, edge(random)));
    }
    for line in 0..2048 {
        book.records.push(line_record(RAM_BASE + 32 * line, &open_cap(random)));
    }
    let (ram, tags) = (vec![random.next() as u8; 65_536], vec![0; 2048]);
    let mut case = ReadCase { book: Vec::new(), flash_length: 65_536, ram, tags };
    if let Some(fault) = fault {
        let last = book.records.len() - 1;
        apply(random, &mut case, &mut book, fault, last);
    }
    case.book = book.bytes();
    case
}

/// Memories as they were before, and no book yet.
fn no_book(random: &mut Random) -> ReadCase {
    let ram_length = *random.pick(&[0, 32, 64, 96, 256, 1024, 32_768]);
    ReadCase {
        book: Vec::new(),
        flash_length: *random.pick(&[0, 32, 4096, 65_536]),
        ram: vec![random.next() as u8; ram_length],
        // What the tags were before does not count.
        tags: vec![*random.pick(&[0, 0, 1, 2, 255]); ram_length / 32],
    }
}

fn good_book(random: &mut Random, ram_length: usize) -> Book {
    let mut records = Vec::new();
    for number in some_numbers(random, 0, 33) {
        records.push(capability_record(number as u8, &any_cap(random)));
    }
    for number in some_numbers(random, 1, 31) {
        records.push(general_record(number as u8, edge(random)));
    }
    for line in some_numbers(random, 0, ram_length as u64 / 32) {
        let cap = if random.chance(5) { Cap::default() } else { any_cap(random) };
        records.push(line_record(RAM_BASE + 32 * line, &cap));
    }
    Book { version: vec![1], records, lost: 0 }
}

/// A few rising numbers from a start; sometimes none, sometimes all.
fn some_numbers(random: &mut Random, start: u64, count: u64) -> Vec<u64> {
    let one_in = *random.pick(&[1, 3, 10, 10, 40]);
    let none = random.chance(4);
    let count = count.min(64);
    (start..start + count).filter(|_| random.chance(one_in) && !none).collect()
}

fn with_header(body: Vec<u8>) -> Vec<u8> {
    let mut record = (body.len() as u16).to_be_bytes().to_vec();
    record.extend(body);
    record
}

fn capability_record(number: u8, cap: &Cap) -> Vec<u8> {
    let mut body = vec![1, number, u8::from(cap.tag), u8::from(cap.sealed), cap.spare];
    body.extend_from_slice(&cap.otype.to_be_bytes()[1..]);
    body.extend_from_slice(&cap.perms.to_be_bytes());
    body.extend_from_slice(&cap.base.to_be_bytes());
    body.extend_from_slice(&cap.length.to_be_bytes());
    body.extend_from_slice(&cap.offset.to_be_bytes());
    with_header(body)
}

fn general_record(number: u8, value: u64) -> Vec<u8> {
    let mut body = vec![2, number];
    body.extend_from_slice(&value.to_be_bytes());
    with_header(body)
}

fn line_record(address: u64, cap: &Cap) -> Vec<u8> {
    let mut body = vec![3];
    body.extend_from_slice(&address.to_be_bytes());
    body.push(u8::from(cap.tag));
    body.extend_from_slice(&cap.to_bytes());
    with_header(body)
}

fn apply(random: &mut Random, case: &mut ReadCase, book: &mut Book, fault: BookFault, at: usize) {
    if book.records.is_empty() {
        book.records.push(capability_record(5, &any_cap(random)));
    }
    let index = at % book.records.len();
    let record = &mut book.records[index];
    match fault {
        BookFault::Size => wrong_sizes(random, case),
        BookFault::NoByte => {
            book.version.clear();
            book.records.clear();
        }
        BookFault::Version => book.version = vec![*random.pick(&[0, 2, 128, 255])],
        BookFault::HeaderCut => book.records.push(vec![0]),
        BookFault::BodyCut => book.lost = 1 + random.below(8) as usize,
        BookFault::BodyEmpty => book.records.insert(index, vec![0, 0]),
        BookFault::WrongLength => wrong_length(random, record),
        BookFault::UnknownKind => set(record, 2, *random.pick(&[0, 4, 5, 128, 255])),
        BookFault::FieldRange(way) => {
            field_range(random, &mut book.records, case.ram.len(), way, at);
        }
        BookFault::PastEnd => past_end(random, record),
        BookFault::Order => wrong_order(random, &mut book.records, index),
    }
}

/// Sets a byte of a record, if the record still has it.
fn set(record: &mut [u8], place: usize, value: u8) {
    if let Some(byte) = record.get_mut(place) {
        *byte = value;
    }
}

fn wrong_sizes(random: &mut Random, case: &mut ReadCase) {
    if random.chance(3) {
        case.flash_length = *random.pick(&[1, 31, 33, 65_535, 65_537, 65_568]);
    } else {
        wrong_ram_size(random, &mut case.ram, &mut case.tags);
    }
}

/// The header tells the true length of a body of the wrong length.
fn wrong_length(random: &mut Random, record: &mut Vec<u8>) {
    let mut body = record.split_off(record.len().min(2));
    let right = body.len();
    match random.below(5) {
        0 => body.push(0),
        1 => body.truncate(1),
        2 => body.resize(*random.pick(&[10, 36, 42, 300]), 0),
        _ => body.truncate(body.len().saturating_sub(1)),
    }
    if body.len() == right {
        body.push(0);
    }
    *record = with_header(body);
}

/// Puts a field of a record of the right kind out of its range; the places count
/// the header's two bytes.
fn field_range(
    random: &mut Random,
    records: &mut Vec<Vec<u8>>,
    ram_length: usize,
    way: usize,
    at: usize,
) {
    let (kind, place, values): (u8, usize, &[u8]) = match way {
        0 => (1, 3, &[33, 34, 255]),
        1 => (1, 4, &[2, 255]),
        2 => (1, 5, &[2, 255]),
        3 => (1, 10, &[0x80, 0xFF]),
        4 => (2, 3, &[0]),
        5 => (2, 3, &[32, 33, 255]),
        6 => (3, 11, &[2, 255]),
        // An address that is no line, or far above, or just outside the RAM.
        7 => (3, 10, &[1, 8, 31, 33]),
        8 => (3, 3, &[1, 0x80]),
        _ => (3, 0, &[]),
    };
    let same: Vec<usize> =
        (0..records.len()).filter(|index| records[*index].get(2) == Some(&kind)).collect();
    if same.is_empty() {
        records.push(last_record(random, kind));
    }
    let last = records.len() - 1;
    let index = if same.is_empty() { last } else { same[at % same.len()] };
    if values.is_empty() {
        let outside = if way == 9 { RAM_BASE - 32 } else { RAM_BASE + ram_length as u64 };
        set_address(&mut records[index], outside);
    } else {
        set(&mut records[index], place, *random.pick(values));
    }
}

fn set_address(record: &mut [u8], address: u64) {
    for (index, byte) in address.to_be_bytes().into_iter().enumerate() {
        set(record, 3 + index, byte);
    }
}

/// A record of this kind that may stand after all others of it.
fn last_record(random: &mut Random, kind: u8) -> Vec<u8> {
    match kind {
        1 => capability_record(32, &any_cap(random)),
        2 => general_record(31, edge(random)),
        _ => line_record(RAM_BASE, &any_cap(random)),
    }
}

/// The record becomes a tagged capability that reaches past 2^64.
fn past_end(random: &mut Random, record: &mut Vec<u8>) {
    let cap = past_end_cap(random);
    let kind = record.get(2).copied().unwrap_or(0);
    if kind == 3 && record.len() == 44 {
        record[11] = 1;
        record[12..44].copy_from_slice(&cap.to_bytes());
    } else if kind == 1 && record.len() == 38 {
        let number = record[3];
        *record = capability_record(number, &cap);
    } else {
        *record = capability_record(32, &cap);
    }
}

fn wrong_order(random: &mut Random, records: &mut Vec<Vec<u8>>, index: usize) {
    let copy = records[index].clone();
    match random.below(3) {
        // The same twice; or an old one again at the end; or two in turn.
        0 => records.insert(index, copy),
        1 => records.push(copy),
        _ if index + 1 < records.len() => records.swap(index, index + 1),
        _ => records.insert(0, copy),
    }
}
