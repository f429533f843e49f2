//! Runs of many instructions: loops, jumps, and code that changes itself.

use super::numbers::{any_cap, edge, memory_cap};
use super::operands::Operands;
use super::stage::{code_address, code_cap, empty_stage, put_words, untag_illegal_lines, Setting};
use super::RunCase;
use crate::asm::encode::{word, Kind, FORMATS};
use crate::random::Random;
use crate::{Cap, GLOBAL, PERMIT_EXECUTE, PERMIT_SEAL, PERMS_MASK, RAM_BASE};

const BREAK: u32 = 0x0000_000D;
const REGISTERS: u64 = 9;
/// Instructions that end most programs.
const OFTEN_LAST: &[&str] =
    &["break", "ccall", "creturn", "cjr", "cjalr", "ccheckperm", "cchecktype"];

/// A program with registers that are useful to it.
pub fn program(random: &mut Random, setting: Setting) -> RunCase {
    let mut run = empty_stage(random, setting);
    useful_registers(random, &mut run);
    if random.chance(3) {
        self_changing(random, &mut run);
    } else {
        random_words(random, &mut run);
    }
    untag_illegal_lines(&mut run);
    run
}

/// C0 to C8 reach the memories, seal and jump; $1 to $8 hold small numbers.
fn useful_registers(random: &mut Random, run: &mut RunCase) {
    let ram = memory_cap(RAM_BASE, run.ram.len(), PERMS_MASK);
    let flash = memory_cap(0, run.flash.len(), PERMS_MASK);
    let otype = random.below(16);
    let sealer = Cap { offset: otype, ..memory_cap(0, 1 << 24, 1 << PERMIT_SEAL | 1 << GLOBAL) };
    let caps = &mut run.machine.caps;
    caps[0] = ram;
    caps[1] = Cap { offset: 8 * random.below(4), ..ram };
    caps[2] = flash;
    caps[3] = sealer;
    caps[4] = Cap { sealed: true, otype: otype as u32, ..ram };
    caps[5] = Cap { perms: 1 << PERMIT_EXECUTE | 1 << GLOBAL, ..flash };
    caps[6] = any_cap(random);
    caps[7] = Cap { perms: PERMS_MASK - 1, spare: 9, ..ram };
    caps[8] = Cap { offset: 4 * random.below(8), ..flash };
    for number in 1..REGISTERS as usize {
        let small = *random.pick(&[0, 1, 8, 16, 32, 0x0D, 0u64.wrapping_sub(8)]);
        run.machine.general[number] = if random.chance(4) { edge(random) } else { small };
    }
}

fn random_words(random: &mut Random, run: &mut RunCase) {
    let count = 4 + random.below(28) as usize;
    let words: Vec<u32> = (0..count).map(|_| program_word(random)).collect();
    let address = code_address(random, run, count);
    run.machine.pcc = code_cap(random, address, count);
    run.machine.pcc.perms = PERMS_MASK;
    put_words(run, address, &words);
    run.budget = *random.pick(&[3, 10, 50, 100, 300, 700]);
}

/// An instruction that seldom ends the program.
fn program_word(random: &mut Random) -> u32 {
    let format = random.pick(FORMATS);
    if OFTEN_LAST.contains(&format.name) && !random.chance(6) {
        return 0;
    }
    let mut operands = Operands::new(random, format, false);
    for (field, number) in format.fields.iter().zip(&mut operands.numbers) {
        match field.kind {
            Kind::General | Kind::Capability => *number = random.below(REGISTERS) as i64,
            Kind::Signed if format.memory => *number = *random.pick(&[0, 8, 16, 24, 1, -8]),
            Kind::Branch => *number = random.below(14) as i64 - 6,
            _ => {}
        }
    }
    if !random.chance(8) {
        keep_going(random, &mut operands);
    }
    operands.word()
}

/// Operands with which the instruction most often succeeds.
fn keep_going(random: &mut Random, operands: &mut Operands) {
    let last = operands.numbers.len().max(1) - 1;
    if operands.format.memory {
        operands.set_immediate(8 * random.below(4) as i64);
    }
    match operands.format.name {
        // Through C0 at a small offset.
        "ld" | "sd" | "lbu" | "sb" => operands.numbers[last] = 0,
        "clc" | "csc" => {
            operands.numbers[0] = 4 + random.below(3) as i64;
            operands.numbers[1] = 0;
            operands.set_immediate(0);
            operands.numbers[last] = 0;
        }
        _ if operands.format.memory => {
            operands.numbers[1] = 0;
            operands.numbers[last] = *random.pick(&[0, 7]);
        }
        "cseal" | "cunseal" => {
            let sealed = operands.format.name == "cunseal";
            operands.numbers = vec![6, if sealed { 4 } else { 7 }, 3];
        }
        // The registers that accesses need are not written over.
        "candperm" | "ccleartag" | "cincbase" | "csetlen" | "csetoffset" | "cincoffset"
        | "cfromptr" | "cgetpcc" => operands.numbers[0] = 5 + random.below(2) as i64,
        _ => {}
    }
    let tagged = *random.pick(&[0, 1, 2, 3, 7]);
    if matches!(operands.format.name, "candperm" | "csetoffset" | "cincoffset" | "ctoptr") {
        operands.numbers[1] = tagged;
        operands.numbers[2] = tagged;
    }
}

/// Code in RAM in which a store writes a word that runs later.
fn self_changing(random: &mut Random, run: &mut RunCase) {
    let count = 6 + random.below(3) as usize;
    let room = (run.ram.len() / 4).saturating_sub(count) as u64;
    let address = RAM_BASE + 4 * random.below(room + 1);
    let mut words: Vec<u32> = (0..count).map(|_| harmless_word(random)).collect();
    let store = random.below(count as u64 - 3) as usize;
    let changed = random.below(count as u64) as usize;
    run.machine.general[2] = u64::from(new_word(random));
    run.machine.caps[1] = Cap { offset: address - RAM_BASE, ..run.machine.caps[0] };
    words[store] = store_word(random, 4 * changed as i64);
    // Back to the start, with a slot that may itself be changed.
    let back = word("beq", &[0, 0, 1 - count as i64]);
    words[count - 2] = back.unwrap_or(BREAK);
    if random.chance(2) {
        words.swap(store, count - 1);
    }
    run.machine.pcc = code_cap(random, address, count);
    put_words(run, address, &words);
    for tag in &mut run.tags {
        *tag |= u8::from(random.chance(4));
    }
    run.budget = *random.pick(&[4, 10, 20, 40]);
}

fn harmless_word(random: &mut Random) -> u32 {
    let made = match random.below(4) {
        0 => word("daddiu", &[3, 3, 1]),
        1 => word("cgetoffset", &[4, 1]),
        2 => word("daddu", &[5, 3, 4]),
        _ => word("nop", &[]),
    };
    made.unwrap_or(0)
}

/// The word that the store writes.
fn new_word(random: &mut Random) -> u32 {
    match random.below(4) {
        0 => BREAK,
        1 => 0xFFFF_FFFF,
        2 => harmless_word(random),
        _ => program_word(random),
    }
}

fn store_word(random: &mut Random, offset: i64) -> u32 {
    let made = match random.below(6) {
        0 => word("csd", &[2, 0, offset / 8 * 8, 1]),
        1 => word("csb", &[2, 0, offset + 3, 1]),
        2 => word("csh", &[2, 0, offset + 2, 1]),
        3 => word("csc", &[6, 0, offset / 32 * 32, 1]),
        _ => word("csw", &[2, 0, offset, 1]),
    };
    made.unwrap_or(0)
}
