//! Branches and jumps: each leaves its target pending for the slot.

use crate::cap::*;
use crate::cause::*;
use crate::decode::Register;
use crate::machine::{need, Machine};

/// No length test; the fetch after the slot makes it (ruling A6).
pub fn beq(machine: &mut Machine, rs: Register, rt: Register, offset: i16) -> Result<(), Fault> {
    if machine.general(rs) == machine.general(rt) {
        take_branch(machine, target(machine, offset));
    }
    Ok(())
}

/// No length test; the fetch after the slot makes it (ruling A6).
pub fn bne(machine: &mut Machine, rs: Register, rt: Register, offset: i16) -> Result<(), Fault> {
    if machine.general(rs) != machine.general(rt) {
        take_branch(machine, target(machine, offset));
    }
    Ok(())
}

/// CBTU and CBTS; Length names no register (rulings A4 and A5).
pub fn branch_on_tag(
    machine: &mut Machine,
    cb: Register,
    offset: i16,
    wanted: bool,
) -> Result<(), Fault> {
    machine.need_access(cb)?;
    if machine.cap(cb).tag != wanted {
        return Ok(());
    }
    let target = target(machine, offset);
    if target > i128::from(machine.pcc.length) {
        return Err(Fault::no_register(CAUSE_LENGTH));
    }
    take_branch(machine, target);
    Ok(())
}

/// PC + 4 * offset + 4 as an exact sum; it may lie below 0 (ruling A5).
fn target(machine: &Machine, offset: i16) -> i128 {
    i128::from(machine.pcc.offset) + 4 * i128::from(offset) + 4
}

/// PCC with the target mod 2^64 as offset, every other field kept (ruling A11).
fn take_branch(machine: &mut Machine, target: i128) {
    machine.pending = Some(Cap { offset: target as u64, ..machine.pcc });
}

pub fn cjr(machine: &mut Machine, cb: Register) -> Result<(), Fault> {
    machine.need_access(cb)?;
    need_jump_target(machine, cb)?;
    machine.pending = Some(*machine.cap(cb));
    Ok(())
}

/// The jump goes to cb as it was, also where cd is cb (ruling A2).
pub fn cjalr(machine: &mut Machine, cd: Register, cb: Register) -> Result<(), Fault> {
    machine.need_access(cd)?;
    machine.need_access(cb)?;
    need_jump_target(machine, cb)?;
    machine.pending = Some(*machine.cap(cb));
    let link = machine.pcc.offset.wrapping_add(8);
    machine.set_cap(cd, Cap { offset: link, ..machine.pcc });
    Ok(())
}

/// Whether the target is in a memory shows at its fetch (ruling A23).
fn need_jump_target(machine: &Machine, cb: Register) -> Result<(), Fault> {
    let cap = machine.cap(cb);
    machine.need_tag(cb)?;
    machine.need_unsealed(cb)?;
    need(cap.has(PERMIT_EXECUTE), CAUSE_PERMIT_EXECUTE, cb)?;
    need(cap.has(GLOBAL), CAUSE_GLOBAL, cb)?;
    let in_length = u128::from(cap.offset) + 4 <= u128::from(cap.length);
    need(in_length, CAUSE_LENGTH, cb)?;
    if cap.cursor() % 4 != 0 {
        return Err(Fault::LoadMisaligned);
    }
    Ok(())
}
