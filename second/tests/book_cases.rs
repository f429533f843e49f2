//! The cases of books alone: what those of the program crate `books` meet.

use crate::generator::deserved;
use second::generate::{
    answer, answer_line, book_cases, decode, encode, Answer, Case, ReadCase, WriteCase,
};
use second::{read_book, Cap, Machine, RAM_BASE};
use std::collections::{BTreeMap, BTreeSet};

/// The command that made the crate's files is `second-cases 1 2700 OUT books`.
const SEED: u64 = 1;
const COUNT: usize = 2700;

fn reads(cases: &[Case]) -> impl Iterator<Item = &ReadCase> {
    cases.iter().filter_map(|case| match case {
        Case::Read(read) => Some(read),
        _ => None,
    })
}

fn writes(cases: &[Case]) -> impl Iterator<Item = &WriteCase> {
    cases.iter().filter_map(|case| match case {
        Case::Write(write) => Some(write),
        _ => None,
    })
}

fn read_answer(case: &ReadCase) -> u32 {
    match answer(&Case::Read(case.clone())) {
        Answer::Read { result, .. } => result.err().unwrap_or(0),
        _ => panic!("not a read"),
    }
}

fn write_answer(case: &WriteCase) -> (u32, Vec<u8>) {
    match answer(&Case::Write(case.clone())) {
        Answer::Write { result: Ok(length), out } => (0, out[..length].to_vec()),
        Answer::Write { result: Err(refusal), .. } => (refusal, Vec::new()),
        _ => panic!("not a write"),
    }
}

/// The refusals that a body deserves, in the order in which they are tested.
fn deserved_by_body(body: &[u8], ram: usize, last: &mut (u8, u64)) -> Vec<u32> {
    let number = |from: usize, to: usize| {
        body[from..to].iter().fold(0, |sum: u64, byte| sum << 8 | u64::from(*byte))
    };
    let right = match body[0] {
        1 => 36,
        2 => 10,
        3 => 42,
        _ => return vec![32],
    };
    if body.len() != right {
        return vec![31];
    }
    let key = if body[0] == 3 { number(1, 9) } else { u64::from(body[1]) };
    let lines = RAM_BASE..RAM_BASE + ram as u64;
    let (field, cap) = match body[0] {
        1 => {
            let range = (number(12, 20), number(20, 28));
            let cap = Cap { tag: body[2] == 1, base: range.0, length: range.1, ..Cap::default() };
            (body[1] > 32 || body[2] > 1 || body[3] > 1 || body[8] > 127, cap)
        }
        2 => (body[1] == 0 || body[1] > 31, Cap::default()),
        _ => {
            let range = (number(26, 34), number(34, 42));
            let cap = Cap { tag: body[9] == 1, base: range.0, length: range.1, ..Cap::default() };
            (!lines.contains(&key) || key % 32 != 0 || body[9] > 1, cap)
        }
    };
    let behind = (body[0], key) <= *last;
    *last = (body[0], key);
    let found = [(34, field), (22, deserved::past_end(&cap)), (33, behind)];
    found.into_iter().filter(|(_, holds)| *holds).map(|(number, _)| number).collect()
}

/// What a book deserves: of its sizes and its version, then of each of its records.
fn deserved_by_book(case: &ReadCase) -> Vec<Vec<u32>> {
    let mut all = Vec::new();
    if deserved::wrong_sizes(case.flash_length, case.ram.len(), case.tags.len()) {
        all.push(vec![20]);
    }
    if case.book.first() != Some(&1) {
        all.push(vec![30]);
    }
    let (mut rest, mut last) = (case.book.get(1..).unwrap_or(&[]), (0, 0));
    while !rest.is_empty() {
        let length = rest.get(..2).map(|head| usize::from(head[0]) << 8 | usize::from(head[1]));
        let Some(body) = length.and_then(|length| rest.get(2..2 + length)) else {
            all.push(vec![31]);
            break;
        };
        rest = &rest[2 + body.len()..];
        all.push(match body {
            [] => vec![31],
            _ => deserved_by_body(body, case.ram.len(), &mut last),
        });
    }
    all.retain(|numbers| !numbers.is_empty());
    all
}

#[test]
fn there_are_1500_books_and_500_round_trips() {
    let cases = book_cases(SEED, COUNT);
    let mut counts: BTreeMap<(bool, u32), usize> = BTreeMap::new();
    for case in reads(&cases) {
        *counts.entry((true, read_answer(case))).or_default() += 1;
    }
    for case in writes(&cases) {
        *counts.entry((false, write_answer(case).0)).or_default() += 1;
    }
    println!("{counts:?}");
    assert!(reads(&cases).count() >= 1_500 && counts[&(false, 0)] >= 500);
    let of = |read: bool| counts.keys().filter(|key| key.0 == read).map(|key| key.1).collect();
    let (read, written): (Vec<u32>, Vec<u32>) = (of(true), of(false));
    assert_eq!(read, [0, 20, 22, 30, 31, 32, 33, 34]);
    assert_eq!(written, [0, 20, 21, 22, 24, 35, 36]);
    assert!(counts.values().all(|count| *count >= 25));
}

#[test]
fn the_first_fault_decides_in_every_order() {
    let (mut in_turn, mut in_one) = (BTreeSet::new(), BTreeSet::new());
    for case in reads(&book_cases(SEED, COUNT)) {
        let deserved = deserved_by_book(case);
        let first = deserved.first().map_or(0, |numbers| numbers[0]);
        assert_eq!(read_answer(case), first, "{deserved:?}");
        if let [first, second, ..] = deserved.as_slice() {
            in_turn.insert((first[0], second[0]));
        }
        for numbers in deserved.iter().take(1) {
            in_one.extend(numbers.iter().skip(1).map(|second| (numbers[0], *second)));
        }
    }
    let of_records = [31, 32, 34, 22, 33];
    for second in of_records {
        for first in [20, 30].iter().chain(&of_records) {
            assert!(in_turn.contains(&(*first, second)), "{first} and then {second}");
        }
    }
    assert!(in_turn.contains(&(20, 30)));
    // 31 and 32 leave nothing else to test; a general register has no range.
    assert_eq!(in_one, BTreeSet::from([(34, 22), (34, 33), (22, 33)]));
}

/// The length of the book of memories of the right sizes.
fn book_length(case: &WriteCase) -> usize {
    let caps = case.machine.caps.iter().chain([&case.machine.pcc]);
    let general = case.machine.general.iter().filter(|value| **value != 0);
    let named = |(bytes, tag): &(&[u8], &u8)| **tag != 0 || bytes.iter().any(|byte| *byte != 0);
    let lines = case.ram.chunks_exact(32).zip(&case.tags).filter(named);
    let caps = caps.filter(|cap| **cap != Cap::default());
    1 + 38 * caps.count() + 12 * general.count() + 44 * lines.count()
}

#[test]
fn the_writer_refuses_singly_and_in_pairs_and_the_least_wins() {
    let mut seen = BTreeSet::new();
    for case in writes(&book_cases(SEED, COUNT)) {
        let mut all = deserved::by_a_start(&case.machine, 0, &case.ram, &case.tags);
        if case.machine.pending.is_some() || case.machine.cause != 0 {
            all.insert(35);
        }
        if book_length(case) > case.out.len() {
            all.insert(36);
        }
        assert_eq!(write_answer(case).0, all.first().copied().unwrap_or(0));
        for first in &all {
            seen.extend(all.iter().map(|second| (*first, *second)));
        }
    }
    let numbers = [20, 21, 22, 24, 35, 36];
    for first in numbers {
        for second in numbers {
            assert!(seen.contains(&(first, second)), "{first} with {second}");
        }
    }
}

#[test]
fn buffers_are_empty_or_a_byte_short_or_exact_or_longer() {
    let mut seen = BTreeSet::new();
    for case in writes(&book_cases(SEED, COUNT)) {
        let more = case.out.len() as i64 - book_length(case) as i64;
        match write_answer(case).0 {
            36 if case.out.is_empty() => seen.insert("empty"),
            36 if more == -1 => seen.insert("a byte short"),
            36 => seen.insert("shorter"),
            0 if more == 0 => seen.insert("exact"),
            0 if more == 1 => seen.insert("a byte longer"),
            0 => seen.insert("longer"),
            _ => false,
        };
    }
    assert_eq!(seen.len(), 6, "{seen:?}");
}

#[test]
fn some_are_empty_and_some_are_full() {
    let mut seen = BTreeSet::new();
    let cases = book_cases(SEED, COUNT);
    for case in reads(&cases) {
        let refusal = read_answer(case);
        match case.book.len() {
            0 => seen.insert(("no byte", refusal)),
            1 if refusal == 0 && case.ram.is_empty() => seen.insert(("no record, no RAM", 0)),
            1 if refusal == 0 => seen.insert(("no record", 0)),
            91_000.. => seen.insert(("every line tagged", refusal)),
            _ => false,
        };
    }
    let read = [
        ("every line tagged", 0),
        ("every line tagged", 22),
        ("every line tagged", 31),
        ("no byte", 20),
        ("no byte", 30),
        ("no record", 0),
        ("no record, no RAM", 0),
    ];
    assert_eq!(seen, BTreeSet::from(read));
    let full = |case: &&WriteCase| case.tags.len() == 2048 && case.tags.iter().all(|tag| *tag == 1);
    let answers: Vec<u32> = writes(&cases).filter(full).map(|case| write_answer(case).0).collect();
    assert_eq!(answers, [0, 0, 36]);
    let zero = |case: &&WriteCase| case.machine == Machine::default() && case.out == [7];
    assert!(writes(&cases).filter(zero).count() > 0);
}

#[test]
fn what_is_written_reads_back() {
    for case in writes(&book_cases(SEED, COUNT)) {
        let (refusal, book) = write_answer(case);
        if refusal == 0 {
            let (mut ram, mut tags) = (vec![0xDD; case.ram.len()], vec![1; case.tags.len()]);
            let machine = read_book(&book, 0, &mut ram, &mut tags);
            assert_eq!(machine.as_ref(), Ok(&case.machine));
            assert!(ram == case.ram && tags == case.tags);
        }
    }
}

#[test]
fn the_crate_has_these_files() {
    let cases = book_cases(SEED, COUNT);
    let crate_file = |name: &str| {
        let path = format!("{}/../crates/books/{name}", env!("CARGO_MANIFEST_DIR"));
        std::fs::read(&path).expect("the crate stands beside this program")
    };
    let lines: String = cases.iter().map(|case| answer_line(case) + "\n").collect();
    assert!(crate_file("stdin") == encode(&cases));
    assert!(crate_file("stdout") == lines.as_bytes());
}

#[test]
fn the_file_gives_the_books_back_and_equal_seeds_equal_books() {
    let cases = book_cases(SEED, 300);
    assert!(decode(&encode(&cases)) == Ok(cases.clone()));
    assert!(book_cases(SEED, 100) == cases[..100]);
    assert!(book_cases(SEED + 1, 100) != cases[..100]);
}
