//! Holds the C functions of the crate `pommerzil` to the second program: every number that they return and every byte and number of
//! every buffer.

use hosted::{linked_read, linked_run, linked_write, Lent, REGISTERS_BYTES};
use second::generate::{book_cases, run_cases, Case};
use second::{read_book, run, write_book, Cap, Machine};

const NO_ROOM: u32 = 36;
/// What the buffers hold before a call, and past what it writes.
const BEFORE: u8 = 0xA5;

fn cap_record(number: u8, cap: &Cap) -> Vec<u8> {
    let mut bytes = vec![0, 36, 1, number, u8::from(cap.tag), u8::from(cap.sealed), cap.spare];
    bytes.extend_from_slice(&cap.otype.to_be_bytes()[1..]);
    bytes.extend_from_slice(&cap.perms.to_be_bytes());
    for field in [cap.base, cap.length, cap.offset] {
        bytes.extend_from_slice(&field.to_be_bytes());
    }
    bytes
}

/// Every register of a machine as the header lays them out.
fn registers_of(machine: &Machine) -> Vec<u8> {
    let mut bytes = vec![1];
    for (number, cap) in (0..).zip(machine.caps.iter().chain([&machine.pcc])) {
        bytes.extend(cap_record(number, cap));
    }
    for (number, value) in (0..).zip(&machine.general).skip(1) {
        bytes.extend([0, 10, 2, number]);
        bytes.extend(value.to_be_bytes());
    }
    assert_eq!(bytes.len(), REGISTERS_BYTES);
    bytes
}

/// A book run by both, and by the library once more without room for its answer.
fn compare_run(book: &[u8], flash: &[u8], before: &Lent, budget: u32) -> u32 {
    let mut lent = before.clone();
    let mut answer = [7; 6];
    let number = linked_run(book, flash, &mut lent, budget, &mut answer);
    let mut other = before.clone();
    let expected = match read_book(book, flash.len(), &mut other.ram, &mut other.tags) {
        Err(number) => [u64::from(number), 0, 0, 0, 0, 7],
        Ok(machine) => {
            let o = run(&machine, flash, &mut other.ram, &mut other.tags, budget);
            [o.stop.into(), o.cause.into(), o.register.into(), o.place, o.steps.into(), 7]
        }
    };
    assert_eq!((answer, u64::from(number)), (expected, expected[0]));
    assert_eq!(lent, other);
    let mut short = [7; 4];
    assert_eq!(linked_run(book, flash, &mut lent, budget, &mut short), NO_ROOM);
    assert_eq!((lent, short), (other, [7; 4]));
    number
}

/// A book read by both, and by the library once more without room for its registers.
fn compare_read(book: &[u8], flash_bytes: usize, before: &Lent) -> u32 {
    let mut lent = before.clone();
    let mut registers = [BEFORE; REGISTERS_BYTES + 1];
    let number = linked_read(book, flash_bytes, &mut lent, &mut registers);
    let mut other = before.clone();
    let read = read_book(book, flash_bytes, &mut other.ram, &mut other.tags);
    let machine = read.clone().unwrap_or_default();
    assert_eq!(number, read.err().unwrap_or(0));
    assert_eq!(registers[..REGISTERS_BYTES], registers_of(&machine));
    assert_eq!(registers[REGISTERS_BYTES], BEFORE);
    assert_eq!(lent, other);
    let mut short = [BEFORE; REGISTERS_BYTES - 1];
    assert_eq!(linked_read(book, flash_bytes, &mut lent, &mut short), NO_ROOM);
    assert!(lent == other && short == [BEFORE; REGISTERS_BYTES - 1]);
    number
}

/// Registers, RAM and tags written by both; the registers are any book that names no line.
fn compare_write(registers: &[u8], lent: &Lent, out: &[u8]) -> u32 {
    let (mut book, mut written) = (out.to_vec(), usize::MAX);
    let number = linked_write(registers, lent, &mut book, &mut written);
    let mut other = out.to_vec();
    let answer = read_book(registers, 0, &mut [], &mut [])
        .and_then(|machine| write_book(&machine, &lent.ram, &lent.tags, &mut other));
    assert_eq!(number, answer.err().unwrap_or(0));
    assert_eq!(written, answer.unwrap_or(0));
    assert_eq!(book, other);
    number
}

fn compare(case: Case) -> Vec<(&'static str, u32)> {
    match case {
        Case::Run(case) => {
            let lent = Lent { ram: case.ram, tags: case.tags };
            let mut book = vec![0; 100_000];
            // A machine that no book spells is not run here.
            let Ok(bytes) = write_book(&case.machine, &lent.ram, &lent.tags, &mut book) else {
                return Vec::new();
            };
            vec![("run", compare_run(&book[..bytes], &case.flash, &lent, case.budget))]
        }
        Case::Read(case) => {
            let lent = Lent { ram: case.ram, tags: case.tags };
            let flash = vec![0; case.flash_length];
            vec![
                ("run", compare_run(&case.book, &flash, &lent, 1000)),
                ("read", compare_read(&case.book, case.flash_length, &lent)),
                ("write", compare_write(&case.book, &lent, &vec![BEFORE; 100_000])),
            ]
        }
        Case::Write(case) => {
            let lent = Lent { ram: case.ram, tags: case.tags };
            vec![("write", compare_write(&registers_of(&case.machine), &lent, &case.out))]
        }
        Case::Bench(_) => unreachable!("runs and books alone are made"),
    }
}

fn main() {
    let words: Vec<u64> =
        std::env::args().skip(1).map(|word| word.parse().expect("a number")).collect();
    let (seed, count) = (words[0], words[1] as usize);
    let mut seen = std::collections::BTreeMap::new();
    for case in run_cases(seed, count).into_iter().chain(book_cases(seed, count)) {
        for answer in compare(case) {
            *seen.entry(answer).or_insert(0) += 1;
        }
    }
    for ((function, number), times) in seen {
        println!("{function} returned {number}: {times} times, as the second program says");
    }
}
