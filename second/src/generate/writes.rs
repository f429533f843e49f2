//! Machines to write books of: good ones, and ones with one or two faults.

use super::numbers::{any_cap, edge, open_cap};
use super::refusals::{past_end_cap, past_width, wrong_ram_size, wrong_tag_byte};
use super::stage::{put_line, untag_illegal_lines};
use super::{RunCase, WriteCase};
use crate::random::Random;
use crate::{Cap, Machine};

#[derive(Clone, Copy, PartialEq, Eq, Debug)]
pub enum WriteFault {
    /// 20
    Size,
    /// 21
    TagByte,
    /// 22
    PastEnd,
    /// 24
    Width,
    /// 35
    Pending,
    Cause,
    /// 36
    Short,
}

/// Up to two faults at once.
pub type Pair = (Option<WriteFault>, Option<WriteFault>);

pub fn pairs() -> Vec<Pair> {
    use WriteFault::*;
    let all = [
        Some(PastEnd),
        Some(Width),
        Some(TagByte),
        Some(Pending),
        Some(Cause),
        Some(Size),
        Some(Short),
    ];
    let mut pairs = vec![(None, None); 12];
    for (index, first) in all.iter().enumerate() {
        pairs.push((*first, None));
        pairs.extend(all[index + 1..].iter().map(|second| (*first, *second)));
    }
    pairs
}

pub fn write_case(random: &mut Random, pair: Pair) -> WriteCase {
    let mut run = good_run(random);
    let faults: Vec<WriteFault> = [pair.0, pair.1].into_iter().flatten().collect();
    for fault in &faults {
        apply(random, &mut run, *fault);
    }
    let exact = book_length(&run);
    let length = if faults.contains(&WriteFault::Short) {
        let any = random.below(exact as u64) as usize;
        *random.pick(&[0, exact - 1, any])
    } else {
        exact + *random.pick(&[0, 0, 1, 40, 1000])
    };
    let out = vec![random.next() as u8; length];
    WriteCase { machine: run.machine, ram: run.ram, tags: run.tags, out }
}

/// The longest book to write, every line tagged: of capabilities, or of zeros alone.
pub fn longest_write(random: &mut Random, zeros: bool, short_by: usize) -> WriteCase {
    let (ram, tags) = (vec![0; 65_536], vec![1; 2048]);
    let mut run = RunCase { ram, tags, ..RunCase::default() };
    for number in 0..32 {
        run.machine.caps[number] = open_cap(random);
        run.machine.general[number] = if number == 0 { 0 } else { edge(random).max(1) };
    }
    run.machine.pcc = open_cap(random);
    if !zeros {
        for line in 0..2048 {
            put_line(&mut run, line, &open_cap(random));
        }
    }
    let out = vec![random.next() as u8; book_length(&run) - short_by];
    WriteCase { machine: run.machine, ram: run.ram, tags: run.tags, out }
}

/// A machine with some registers and some lines named.
fn good_run(random: &mut Random) -> RunCase {
    let ram_length: usize = *random.pick(&[0, 32, 64, 96, 256, 1024, 65_536]);
    let mut run =
        RunCase { ram: vec![0; ram_length], tags: vec![0; ram_length / 32], ..RunCase::default() };
    for _ in 0..*random.pick(&[0, 1, 5, 40]) {
        run.machine.caps[random.below(32) as usize] = any_cap(random);
        run.machine.general[1 + random.below(31) as usize] = edge(random);
    }
    if random.chance(2) {
        run.machine.pcc = any_cap(random);
    }
    // A register with one field set must be named, whichever field that is.
    if random.chance(2) {
        run.machine.caps[random.below(32) as usize] = one_field(random);
    }
    if ram_length > 0 {
        for _ in 0..random.below(8) {
            put_some_line(random, &mut run);
        }
    }
    untag_illegal_lines(&mut run);
    run
}

fn one_field(random: &mut Random) -> Cap {
    let zero = Cap::default();
    match random.below(8) {
        0 => Cap { tag: true, ..zero },
        1 => Cap { sealed: true, ..zero },
        2 => Cap { perms: 1 << random.below(31), ..zero },
        3 => Cap { otype: 1 << random.below(24), ..zero },
        4 => Cap { spare: 1 << random.below(8), ..zero },
        5 => Cap { base: 1 << random.below(64), ..zero },
        6 => Cap { length: 1 << random.below(64), ..zero },
        _ => Cap { offset: 1 << random.below(64), ..zero },
    }
}

/// A capability, a tag on zeros, or a single byte.
fn put_some_line(random: &mut Random, run: &mut RunCase) {
    let line = random.below(run.tags.len() as u64) as usize;
    match random.below(3) {
        0 => run.tags[line] = 1,
        1 => run.ram[line * 32 + random.below(32) as usize] = 1,
        _ => put_line(run, line, &any_cap(random)),
    }
}

fn apply(random: &mut Random, run: &mut RunCase, fault: WriteFault) {
    match fault {
        WriteFault::Size => wrong_ram_size(random, &mut run.ram, &mut run.tags),
        WriteFault::TagByte => {
            // There must be a tag to be wrong.
            if run.tags.is_empty() {
                run.ram = vec![0; 64];
                run.tags = vec![0; 2];
            }
            wrong_tag_byte(random, &mut run.tags);
        }
        WriteFault::PastEnd => past_end(random, run),
        WriteFault::Width => past_width(random, &mut run.machine),
        WriteFault::Pending => {
            let any = any_cap(random);
            run.machine.pending = Some(*random.pick(&[Cap::default(), any]));
        }
        WriteFault::Cause => run.machine.cause = 1 + random.below(65_535) as u16,
        WriteFault::Short => {}
    }
}

fn past_end(random: &mut Random, run: &mut RunCase) {
    let cap = past_end_cap(random);
    match random.below(4) {
        0 => run.machine.pcc = cap,
        1 => run.machine.pending = Some(cap),
        2 if !run.tags.is_empty() => {
            let line = random.below(run.tags.len() as u64) as usize;
            put_line(run, line, &cap);
        }
        _ => run.machine.caps[random.below(32) as usize] = cap,
    }
}

/// The length of the book of a machine that is not refused.
fn book_length(run: &RunCase) -> usize {
    let machine: &Machine = &run.machine;
    let caps = machine.caps.iter().chain([&machine.pcc]).filter(|cap| **cap != Cap::default());
    let general = machine.general.iter().filter(|value| **value != 0);
    let mut lines = 0;
    for (line, bytes) in run.ram.chunks(32).enumerate() {
        let tagged = run.tags.get(line).is_some_and(|tag| *tag != 0);
        if tagged || bytes.iter().any(|byte| *byte != 0) {
            lines += 1;
        }
    }
    1 + 38 * caps.count() + 12 * general.count() + 44 * lines
}
