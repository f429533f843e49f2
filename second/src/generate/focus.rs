//! A run about one instruction that is to succeed, or to meet one fault or two.

use super::numbers::{any_cap, edge, longest};
use super::operands::Operands;
use super::stage::{
    code_address, code_cap, empty_stage, put_words, untag_illegal_lines, words_after, Setting,
    ACCESS_BITS,
};
use super::wanted::{Fault, Target};
use super::{access, capability, RunCase};
use crate::random::Random;
use crate::{
    Cap, ACCESS_EPCC, ACCESS_KCC, ACCESS_KDC, ACCESS_KR1C, ACCESS_KR2C, GLOBAL,
    PERMIT_STORE_LOCAL_CAPABILITY, RAM_BASE,
};

/// `beq $0, $0`, always taken, without its count.
pub const ALWAYS: u32 = 4 << 26;

/// A clean run meets its target surely; others are varied further.
pub fn focus(random: &mut Random, target: Target, clean: bool, setting: Setting) -> RunCase {
    let mut run = empty_stage(random, setting);
    let may_be_slot = !clean || target.faults[1].is_some();
    let slot = target.slot || (may_be_slot && !turns(target.format.name) && random.chance(5));
    // In a slot, the jump is handed in or made by a branch before it.
    let branch_before = slot && (setting == Setting::Bench || random.chance(2));
    let mut words = Vec::new();
    if branch_before {
        words.push(ALWAYS | random.below(8).wrapping_sub(2) as u32 & 0xFFFF);
    }
    let after = words_after(random);
    let before = words.len();
    let address = code_address(random, &run, before + 1 + after.len());
    run.machine.pcc = code_cap(random, address, before + 1);
    if clean {
        run.machine.pcc.perms |= ACCESS_BITS;
    }
    let place = run.machine.pcc.offset + 4 * before as u64;
    let operands = prepared(random, &mut run, target, clean, place);
    words.push(operands.word());
    words.extend(after);
    put_words(&mut run, address, &words);
    untag_illegal_lines(&mut run);
    if slot && !branch_before {
        run.machine.pending = Some(pending_cap(random, &run));
    }
    let never_ends = slot || address >= RAM_BASE || can_turn(target.format.name);
    run.budget = before as u32 + 1;
    if !clean {
        run.budget = budget(random, never_ends, before as u32);
    }
    run
}

/// The operands with the faults.
fn prepared(
    random: &mut Random,
    run: &mut RunCase,
    target: Target,
    clean: bool,
    place: u64,
) -> Operands {
    let mut operands = Operands::new(random, target.format, clean);
    if target.alias {
        operands.make_alias(random);
    }
    let faults: Vec<Fault> = target.faults.into_iter().flatten().collect();
    capability::fill_operands(random, run, &operands);
    access::prepare(random, run, &mut operands, &faults);
    capability::prepare(random, run, &mut operands, &faults, place);
    for fault in faults {
        spoil(run, &mut operands, fault);
    }
    operands
}

/// Breaks a field; faults of values were prepared with the operands.
fn spoil(run: &mut RunCase, operands: &mut Operands, fault: Fault) {
    let last = operands.capability(operands.last_position());
    match fault {
        Fault::Access(position, register) => {
            let old = operands.capability(position);
            run.machine.caps[register] = run.machine.caps[old];
            operands.set_capability(position, register);
            run.machine.pcc.perms &= !(1 << access_bit(register));
        }
        Fault::Cause => run.machine.pcc.perms &= !(1 << ACCESS_EPCC),
        Fault::Tag(position) => run.machine.caps[operands.capability(position)].tag = false,
        Fault::Seal(position) => {
            let cap = &mut run.machine.caps[operands.capability(position)];
            cap.sealed = !cap.sealed;
        }
        Fault::Permission(bit) => run.machine.caps[last].perms &= !(1 << bit),
        Fault::StoreLocal => {
            run.machine.caps[last].perms &= !(1 << PERMIT_STORE_LOCAL_CAPABILITY);
            let cs = &mut run.machine.caps[operands.capability(0)];
            cs.length = cs.length.min(longest(cs.base));
            cs.tag = true;
            cs.perms &= !(1 << GLOBAL);
        }
        _ => {}
    }
}

fn access_bit(register: usize) -> u32 {
    match register {
        27 => ACCESS_KR1C,
        28 => ACCESS_KR2C,
        29 => ACCESS_KCC,
        30 => ACCESS_KDC,
        _ => ACCESS_EPCC,
    }
}

/// A jump handed in need not be one that any instruction could have made.
pub fn pending_cap(random: &mut Random, run: &RunCase) -> Cap {
    match random.below(5) {
        0 => any_cap(random),
        1 => Cap::default(),
        2 => Cap { offset: edge(random), ..run.machine.pcc },
        3 => {
            let address = code_address(random, run, 1);
            code_cap(random, address, 1)
        }
        _ => Cap { offset: run.machine.pcc.offset.wrapping_add(8), ..run.machine.pcc },
    }
}

/// True where a jump or a changed word could make a run go round for ever.
fn can_turn(name: &str) -> bool {
    turns(name) || access::is_store(name)
}

/// Branches and jumps, which in a slot can only answer 7.
fn turns(name: &str) -> bool {
    matches!(name, "beq" | "bne" | "cjr" | "cjalr" | "cbtu" | "cbts")
}

fn budget(random: &mut Random, never_ends: bool, before: u32) -> u32 {
    match random.below(40) {
        0 => 0,
        1 if !never_ends => u32::MAX,
        2..=9 => before + 2,
        10..=13 => before + 4,
        _ => before + 1,
    }
}
