//! The cases for the bench: what those of the program crate `vectors` meet.

use crate::generator::edges;
use crate::generator::steps::{each_step, expected, Step};
use second::generate::{answer_line, bench_cases, decode, encode, BenchCase, Case, RunCase};
use second::{bench_line, read_book};
use std::collections::{BTreeMap, BTreeSet};

/// The command that made the crate's files is `second-cases 1 3000 OUT bench`.
const SEED: u64 = 1;
const COUNT: usize = 3000;

fn benches(cases: &[Case]) -> impl Iterator<Item = &BenchCase> {
    cases.iter().filter_map(|case| match case {
        Case::Bench(bench) => Some(bench),
        _ => None,
    })
}

/// The run that a book begins; none where the book, or a size, is refused.
fn started(case: &BenchCase) -> Option<RunCase> {
    let (mut ram, mut tags) = (vec![0; 32_768], vec![0; 1_024]);
    let fits = case.book.len() <= 65_536;
    let machine = read_book(&case.book, case.flash.len(), &mut ram, &mut tags);
    let machine = machine.ok().filter(|_| fits)?;
    Some(RunCase { machine, flash: case.flash.clone(), ram, tags, budget: 1_000 })
}

fn all_steps(mut see: impl FnMut(&Step)) {
    for run in benches(&bench_cases(SEED, COUNT)).filter_map(started) {
        each_step(&run, &mut see);
    }
}

#[test]
fn every_instruction_meets_each_of_its_answers_and_no_other() {
    let mut seen = BTreeSet::new();
    let mut in_slots = BTreeSet::new();
    all_steps(|step| {
        let key = (step.name, step.outcome.stop, step.outcome.cause);
        seen.insert(key);
        if step.before.pending.is_some() {
            in_slots.insert(key);
        }
    });
    let missing: Vec<_> = expected().difference(&seen).copied().collect();
    let strange: Vec<_> = seen.difference(&expected()).copied().collect();
    assert!(missing.is_empty(), "never seen: {missing:?}");
    assert!(strange.is_empty(), "not in the table: {strange:?}");
    assert!(in_slots.len() > 150, "only {} answers in a slot", in_slots.len());
}

#[test]
fn ranges_are_tried_at_their_edges_and_code_changes_itself() {
    let mut seen = BTreeSet::new();
    let mut changed = 0;
    all_steps(|step| {
        seen.extend(edges::edges_of(step));
        changed += u32::from(step.changed);
    });
    assert_eq!(seen, edges::all());
    assert!(changed > 50, "only {changed} changed words were run");
}

#[test]
fn every_stop_and_every_refusal_is_printed() {
    let mut counts: BTreeMap<u64, usize> = BTreeMap::new();
    for case in benches(&bench_cases(SEED, COUNT)) {
        *counts.entry(bench_line(&case.book, &case.flash)[0]).or_default() += 1;
    }
    println!("{counts:?}");
    let numbers: Vec<u64> = counts.keys().copied().collect();
    assert_eq!(numbers, [0, 1, 2, 3, 4, 5, 6, 7, 8, 20, 22, 30, 31, 32, 33, 34]);
    assert!(counts.values().all(|count| *count >= 15));
}

/// What 01 says of its examples, in its order, and of files without a byte and the
/// largest ones.
const FIRST: &[&str] = &[
    "1 2 255 0 0",
    "1 1 255 4 1",
    "8 0 0 4 1",
    "8 0 0 4 1",
    "1 1 1 0 0",
    "2 0 0 0 0",
    "8 0 0 16 3",
    "1 1 1 0 0",
    "1 1 1 0 0",
    "1 1 1 0 0",
    "5 0 0 0 0",
    "8 0 0 40 10",
    "30 0 0 0 0",
    "1 2 255 0 0",
    "1 2 255 0 0",
    "20 0 0 0 0",
    "20 0 0 0 0",
    "31 0 0 0 0",
    "30 0 0 0 0",
    "20 0 0 0 0",
    "20 0 0 0 0",
];

#[test]
fn the_examples_come_first() {
    let lines: Vec<String> = bench_cases(SEED, FIRST.len()).iter().map(answer_line).collect();
    assert_eq!(lines, FIRST);
}

#[test]
fn the_crate_has_these_files() {
    let cases = bench_cases(SEED, COUNT);
    let crate_file = |name: &str| {
        let path = format!("{}/../crates/vectors/{name}", env!("CARGO_MANIFEST_DIR"));
        std::fs::read(&path).expect("the crate stands beside this program")
    };
    let lines: String = cases.iter().map(|case| answer_line(case) + "\n").collect();
    assert!(crate_file("stdin") == encode(&cases));
    assert!(crate_file("stdout") == lines.as_bytes());
}

#[test]
fn the_file_gives_the_cases_back_and_equal_seeds_equal_cases() {
    let cases = bench_cases(SEED, 300);
    assert!(decode(&encode(&cases)) == Ok(cases.clone()));
    assert!(bench_cases(SEED, 100) == cases[..100]);
    assert!(bench_cases(SEED + 1, 100) != cases[..100]);
}
