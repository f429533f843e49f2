//! The random cases: what they cover, and the file that holds them.

#[path = "generator/deserved.rs"]
pub mod deserved;
#[path = "generator/edges.rs"]
pub mod edges;
#[path = "generator/steps.rs"]
pub mod steps;
#[path = "generator/table.rs"]
pub mod table;

use second::asm::encode::{format_of, Format, Kind, FORMATS};
use second::generate::{
    answer, answer_line, cases, decode, encode, run_cases, Answer, Case, RunCase,
};
use second::random::Random;
use second::{run, Machine, Outcome};
use std::collections::{BTreeMap, BTreeSet};
use steps::{each_step, expected, Step};
use table::{ACCESS_CAUSES, ROWS};

const SEED: u64 = 1;
const COUNT: usize = 5000;

fn runs(cases: &[Case]) -> impl Iterator<Item = &RunCase> {
    cases.iter().filter_map(|case| match case {
        Case::Run(run) => Some(run),
        _ => None,
    })
}

fn refusals(case: &RunCase) -> BTreeSet<u32> {
    deserved::by_a_start(&case.machine, case.flash.len(), &case.ram, &case.tags)
}

fn all_steps(cases: &[Case], mut see: impl FnMut(&Step)) {
    for case in runs(cases).filter(|case| refusals(case).is_empty()) {
        each_step(case, &mut see);
    }
}

#[test]
fn the_table_names_every_instruction_once() {
    let mut names: Vec<&str> = ROWS.iter().flat_map(|row| row.names).copied().collect();
    names.retain(|name| *name != "fetch" && *name != "reserved");
    let mut formats: Vec<&str> = FORMATS.iter().map(|format| format.name).collect();
    names.sort();
    formats.sort();
    assert_eq!(names, formats);
}

#[test]
fn every_instruction_meets_each_of_its_answers_and_no_other() {
    let mut seen: BTreeMap<(&str, u32, u32), u32> = BTreeMap::new();
    all_steps(&cases(SEED, COUNT), |step| {
        let key = (step.name, step.outcome.stop, step.outcome.cause);
        *seen.entry(key).or_default() += 1;
    });
    let seen: BTreeSet<_> = seen.into_keys().collect();
    let missing: Vec<_> = expected().difference(&seen).copied().collect();
    let strange: Vec<_> = seen.difference(&expected()).copied().collect();
    assert!(missing.is_empty(), "never seen: {missing:?}");
    assert!(strange.is_empty(), "not in the table: {strange:?}");
}

/// The registers in an instruction's capability operands, in order.
fn capability_operands(format: &Format, word: u32) -> Vec<u32> {
    let fields = format.fields.iter().filter(|field| field.kind == Kind::Capability);
    fields.map(|field| word >> field.shift & 31).collect()
}

#[test]
fn every_capability_operand_meets_each_closed_register() {
    let mut seen = BTreeSet::new();
    all_steps(&cases(SEED, COUNT), |step| {
        let (stop, cause, register) =
            (step.outcome.stop, step.outcome.cause, step.outcome.register);
        let format = format_of(step.word).filter(|_| stop == 1 && ACCESS_CAUSES.contains(&cause));
        let operands = format.map_or(Vec::new(), |format| capability_operands(format, step.word));
        for (position, operand) in operands.iter().enumerate() {
            if *operand == register {
                seen.insert((step.name, position, register));
            }
        }
    });
    for format in FORMATS.iter().filter(|format| format.name != "ccall") {
        for position in 0..capability_operands(format, 0).len() {
            for register in 27..32 {
                assert!(seen.contains(&(format.name, position, register)), "{}", format.name);
            }
        }
    }
}

#[test]
fn every_instruction_stands_in_a_slot() {
    let mut seen = BTreeSet::new();
    let mut faults = BTreeSet::new();
    all_steps(&cases(SEED, COUNT), |step| {
        if step.before.pending.is_none() {
            return;
        }
        seen.insert((step.name, step.outcome.stop));
        if step.outcome.stop == 1 {
            faults.insert((step.name, step.outcome.cause));
        }
    });
    for (name, stop, _) in expected() {
        let turns = ["beq", "bne", "cbtu", "cbts", "cjr", "cjalr"].contains(&name);
        let wanted = if turns { 7 } else { stop };
        // Success, BREAK and the two traps; other faults in a slot are counted.
        if wanted == 0 || wanted == 7 || wanted == 8 {
            assert!(seen.contains(&(name, wanted)), "{name} {wanted} in a slot");
        }
    }
    assert!(seen.contains(&("ccall", 1)) && seen.contains(&("creturn", 1)));
    assert!(seen.contains(&("fetch", 1)) && seen.contains(&("fetch", 5)));
    assert!(seen.contains(&("reserved", 4)) && seen.contains(&("reserved", 7)));
    assert!(faults.len() > 80, "only {} kinds of fault in a slot", faults.len());
}

#[test]
fn ranges_are_tried_at_their_edges() {
    let mut seen = BTreeSet::new();
    all_steps(&cases(SEED, COUNT), |step| {
        seen.extend(edges::edges_of(step));
    });
    assert_eq!(seen, edges::all());
}

/// Formats that differ from a word in one bit that no operand fills.
fn neighbours(word: u32) -> impl Iterator<Item = &'static str> {
    let near = move |format: &&Format| ((word & !format.mask()) ^ format.fixed).count_ones() == 1;
    FORMATS.iter().filter(near).map(|format| format.name)
}

#[test]
fn words_just_beside_each_instruction_are_reserved() {
    let mut seen = BTreeSet::new();
    all_steps(&cases(SEED, COUNT), |step| {
        if step.outcome.stop == 4 {
            seen.extend(neighbours(step.word));
        }
    });
    let missing: Vec<&str> =
        FORMATS.iter().map(|format| format.name).filter(|name| !seen.contains(name)).collect();
    assert!(missing.is_empty(), "{missing:?}");
}

#[test]
fn code_changes_itself() {
    let mut changed = 0;
    all_steps(&cases(SEED, COUNT), |step| changed += u32::from(step.changed));
    assert!(changed > 50, "only {changed} changed words were run");
}

#[test]
fn refusals_come_singly_and_in_pairs_and_the_least_wins() {
    let mut seen = BTreeSet::new();
    for case in runs(&cases(SEED, COUNT)) {
        let deserved = refusals(case);
        let Some(first) = deserved.first().copied() else { continue };
        let (mut ram, mut tags) = (case.ram.clone(), case.tags.clone());
        let outcome = run(&case.machine, &case.flash, &mut ram, &mut tags, case.budget);
        let untouched =
            Outcome { stop: first, machine: case.machine.clone(), ..Outcome::default() };
        assert_eq!(outcome, untouched);
        assert_eq!((&ram, &tags), (&case.ram, &case.tags));
        seen.insert((case.budget == 0, Vec::from_iter(deserved)));
    }
    let numbers = [20, 21, 22, 24];
    for (index, first) in numbers.iter().enumerate() {
        assert!(seen.contains(&(true, vec![*first])), "{first} with budget 0");
        assert!(seen.contains(&(false, vec![*first])), "{first}");
        for second in &numbers[index + 1..] {
            let pair = vec![*first, *second];
            let found = seen.contains(&(true, pair.clone())) || seen.contains(&(false, pair));
            assert!(found, "{first} with {second}");
        }
    }
}

#[test]
fn books_are_accepted_and_refused_for_every_reason() {
    let mut read = BTreeSet::new();
    let mut written = BTreeSet::new();
    for case in &cases(SEED, COUNT) {
        match answer(case) {
            Answer::Read { result, .. } => read.insert(result.err().unwrap_or(0)),
            Answer::Write { result, .. } => written.insert(result.err().unwrap_or(0)),
            Answer::Run { .. } | Answer::Bench(_) => false,
        };
    }
    assert_eq!(read, BTreeSet::from([0, 20, 22, 30, 31, 32, 33, 34]));
    assert_eq!(written, BTreeSet::from([0, 20, 21, 22, 24, 35, 36]));
}

#[test]
fn something_or_everything_is_missing_sometimes() {
    let mut seen = BTreeSet::new();
    for case in &cases(SEED, COUNT) {
        match case {
            Case::Run(run) if run == &(RunCase { budget: 1, ..RunCase::default() }) => {
                seen.insert("a run with nothing");
            }
            Case::Read(read) if read.book.is_empty() => {
                seen.insert("a book without a byte");
            }
            Case::Read(read) if read.book == [1] && read.ram.is_empty() => {
                seen.insert("a book without a record, no RAM");
            }
            Case::Write(write) if write.out.is_empty() => {
                seen.insert("no room for a book");
            }
            Case::Write(write) if write.machine == Machine::default() && write.out == [7] => {
                seen.insert("an all-zero machine, room for one byte");
            }
            _ => {}
        }
    }
    assert_eq!(seen.len(), 5, "{seen:?}");
    let budgets: BTreeSet<u32> = runs(&cases(SEED, COUNT)).map(|run| run.budget).collect();
    for budget in [0, 1, 2, 300, u32::MAX] {
        assert!(budgets.contains(&budget), "budget {budget}");
    }
}

#[test]
fn the_file_gives_the_cases_back() {
    let cases = cases(SEED, COUNT);
    let file = encode(&cases);
    let back = decode(&file).expect("the file is whole");
    assert!(back == cases);
    let lines = |cases: &[Case]| cases.iter().map(answer_line).collect::<Vec<_>>();
    assert_eq!(lines(&cases), lines(&back));
}

#[test]
fn a_broken_file_is_an_error() {
    let file = encode(&cases(SEED, 3));
    for cut in 1..file.len() {
        // A file cut between two cases is a shorter file.
        let whole = decode(&file[..cut]).map(|cases| encode(&cases) == file[..cut]);
        assert!(whole.unwrap_or(true), "cut at {cut}");
    }
    assert!(decode(&file[..file.len() - 1]).is_err());
    assert!(decode(&[0, 0, 0, 0]).is_err());
    assert!(decode(&[0, 0, 0, 1, 9]).is_err());
    assert_eq!(decode(&[]), Ok(Vec::new()));
}

#[test]
fn equal_seeds_give_equal_cases() {
    let long = cases(7, 300);
    assert!(cases(7, 100) == long[..100]);
    assert!(cases(8, 100) != long[..100]);
    // The published first number of splitmix64 from 0.
    assert_eq!(Random::new(0).next(), 0xE220_A839_7B1D_CDAF);
}

#[test]
fn run_cases_are_the_runs_among_the_cases() {
    let mut among = cases(7, 300);
    among.retain(|case| matches!(case, Case::Run(_)));
    assert!(run_cases(7, among.len()) == among);
}
