//! A run: refusals first, then the steps.

use crate::access::fetch;
use crate::cause::{Fault, STOP_DONE};
use crate::decode::{decode, is_branch_or_jump};
use crate::execute::execute;
use crate::machine::{Machine, Outcome};
use crate::memory::Memory;
use crate::refusal::{check_sizes, check_state};

/// Runs at most `budget` steps; a refusal gives everything back as it came.
pub fn run(
    machine: &Machine,
    flash: &[u8],
    ram: &mut [u8],
    tags: &mut [u8],
    budget: u32,
) -> Outcome {
    let accepted = check_sizes(flash.len(), ram.len(), tags.len())
        .and_then(|()| check_state(machine, ram, tags));
    // A refusal reports 0 for cause, register, place and steps (ruling B2).
    if let Err(stop) = accepted {
        return Outcome { stop, machine: machine.clone(), ..Outcome::default() };
    }
    let mut memory = Memory { flash, ram, tags };
    run_accepted(machine.clone(), &mut memory, budget)
}

/// Runs one step.
pub fn step(machine: &Machine, flash: &[u8], ram: &mut [u8], tags: &mut [u8]) -> Outcome {
    run(machine, flash, ram, tags, 1)
}

fn run_accepted(mut machine: Machine, memory: &mut Memory, budget: u32) -> Outcome {
    for steps in 0..budget {
        if let Err(fault) = one_step(&mut machine, memory) {
            return stopped(machine, fault, steps);
        }
    }
    // Stop 0 reports place 0 (ruling B5).
    Outcome { stop: STOP_DONE, steps: budget, machine, ..Outcome::default() }
}

/// Makes one step, or leaves everything as it was.
fn one_step(machine: &mut Machine, memory: &mut Memory) -> Result<(), Fault> {
    // A fault in fetch comes before 7, also in a slot (ruling A24).
    let word = fetch(&machine.pcc, memory)?;
    let in_slot = machine.pending.is_some();
    if in_slot && is_branch_or_jump(word) {
        return Err(Fault::JumpInSlot);
    }
    execute(decode(word), machine, memory)?;
    // A word in the slot is no jump, so what was pending still is, and takes effect now.
    if !in_slot {
        machine.pcc.offset = machine.pcc.offset.wrapping_add(4);
    } else if let Some(target) = machine.pending.take() {
        machine.pcc = target;
    }
    Ok(())
}

/// The answer after a fault; the place is PCC.offset, not base + PC (ruling A24).
fn stopped(mut machine: Machine, fault: Fault, steps: u32) -> Outcome {
    let (mut cause, mut register) = (0, 0);
    if let Fault::Capability { cause: code, register: named } = fault {
        (cause, register) = (code, named);
        machine.cause = (code << 8 | named) as u16;
    }
    let place = machine.pcc.offset;
    Outcome { stop: fault.stop(), cause, register, place, steps, machine }
}
