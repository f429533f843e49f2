//! What this program answers to a case, whole and as one line of text.
//!
//! A line has decimal numbers with one space between them.
//!
//! - run: stop cause register place steps MACHINE RAM TAGS;
//! - read: refusal, or 0, then MACHINE RAM TAGS (a refusal gives the all-zero
//!   machine and leaves RAM and tags as they were);
//! - write: refusal, or 0, then the length of the book, or 0, then OUT, which is
//!   the whole buffer, written or not; where a book was written, then 0 MACHINE RAM
//!   TAGS of what was written, which is what reading it must give;
//! - bench: stop or refusal, cause, register, place, steps.
//!
//! The words in capitals are checksums. A checksum of bytes starts at 1; each
//! byte makes it (checksum * 16,777,619 + byte) mod 2^32. RAM, TAGS and OUT are
//! over their bytes in order. MACHINE is over general registers 0 to 31 (8 bytes
//! each, big-endian as all numbers here), capability registers 0 to 31, PCC, a
//! byte 1 and the pending jump or a byte 0 alone, and the cause register (2
//! bytes). A capability is the 35 bytes that the case file has for it: tag,
//! sealed, spare, otype (4), permissions (4), base (8), length (8), offset (8).

use super::format::cap_bytes;
use super::{Case, ReadCase, RunCase, WriteCase};
use crate::{Machine, Outcome};

/// Everything a case leaves.
#[derive(Clone, PartialEq, Eq, Debug)]
pub enum Answer {
    Run { outcome: Outcome, ram: Vec<u8>, tags: Vec<u8> },
    Read { result: Result<Machine, u32>, ram: Vec<u8>, tags: Vec<u8> },
    Write { result: Result<usize, u32>, out: Vec<u8> },
    Bench([u64; 5]),
}

/// Asks this program.
pub fn answer(case: &Case) -> Answer {
    match case {
        Case::Run(run) => answer_run(run),
        Case::Read(read) => answer_read(read),
        Case::Write(write) => answer_write(write),
        Case::Bench(bench) => Answer::Bench(crate::bench_line(&bench.book, &bench.flash)),
    }
}

fn answer_run(case: &RunCase) -> Answer {
    let (mut ram, mut tags) = (case.ram.clone(), case.tags.clone());
    let outcome = crate::run(&case.machine, &case.flash, &mut ram, &mut tags, case.budget);
    Answer::Run { outcome, ram, tags }
}

fn answer_read(case: &ReadCase) -> Answer {
    let (mut ram, mut tags) = (case.ram.clone(), case.tags.clone());
    let result = crate::read_book(&case.book, case.flash_length, &mut ram, &mut tags);
    Answer::Read { result, ram, tags }
}

fn answer_write(case: &WriteCase) -> Answer {
    let mut out = case.out.clone();
    let result = crate::write_book(&case.machine, &case.ram, &case.tags, &mut out);
    Answer::Write { result, out }
}

/// The answer as one line.
pub fn answer_line(case: &Case) -> String {
    match answer(case) {
        Answer::Run { outcome, ram, tags } => format!(
            "{} {} {} {} {} {}",
            outcome.stop,
            outcome.cause,
            outcome.register,
            outcome.place,
            outcome.steps,
            state(&outcome.machine, &ram, &tags)
        ),
        Answer::Read { result: Ok(machine), ram, tags } => {
            format!("0 {}", state(&machine, &ram, &tags))
        }
        Answer::Read { result: Err(refusal), ram, tags } => {
            format!("{refusal} {}", state(&Machine::default(), &ram, &tags))
        }
        Answer::Write { result: Ok(length), out } => {
            format!("0 {length} {}{}", checksum(&out), written(case))
        }
        Answer::Write { result: Err(refusal), out } => format!("{refusal} 0 {}", checksum(&out)),
        Answer::Bench(line) => line.map(|number| number.to_string()).join(" "),
    }
}

/// What a book must give back that was written of this case.
fn written(case: &Case) -> String {
    match case {
        Case::Write(write) => format!(" 0 {}", state(&write.machine, &write.ram, &write.tags)),
        _ => String::new(),
    }
}

fn state(machine: &Machine, ram: &[u8], tags: &[u8]) -> String {
    format!("{} {} {}", checksum(&machine_bytes(machine)), checksum(ram), checksum(tags))
}

fn machine_bytes(machine: &Machine) -> Vec<u8> {
    let mut bytes = Vec::new();
    for value in machine.general {
        bytes.extend_from_slice(&value.to_be_bytes());
    }
    for cap in &machine.caps {
        bytes.extend_from_slice(&cap_bytes(cap));
    }
    bytes.extend_from_slice(&cap_bytes(&machine.pcc));
    match machine.pending {
        Some(pending) => {
            bytes.push(1);
            bytes.extend_from_slice(&cap_bytes(&pending));
        }
        None => bytes.push(0),
    }
    bytes.extend_from_slice(&machine.cause.to_be_bytes());
    bytes
}

/// See the head of this file.
pub fn checksum(bytes: &[u8]) -> u32 {
    let mut sum: u64 = 1;
    for byte in bytes {
        sum = (sum * 16_777_619 + u64::from(*byte)) % (1 << 32);
    }
    sum as u32
}
