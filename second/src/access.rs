//! Fetch, loads and stores.

use crate::cap::*;
use crate::cause::*;
use crate::decode::Register;
use crate::machine::{need, Machine};
use crate::memory::{Memory, LINE};

/// What an access goes through: cb, rt and the immediate.
pub type Through = (Register, Register, i16);

/// Fetches the word at the PC.
pub fn fetch(pcc: &Cap, memory: &Memory) -> Result<u32, Fault> {
    let end = u128::from(pcc.offset) + 4;
    if !pcc.tag {
        return Err(Fault::no_register(CAUSE_TAG));
    }
    if pcc.sealed {
        return Err(Fault::no_register(CAUSE_SEAL));
    }
    if !pcc.has(PERMIT_EXECUTE) {
        return Err(Fault::no_register(CAUSE_PERMIT_EXECUTE));
    }
    if end > u128::from(pcc.length) || u128::from(pcc.base) + end > ADDRESS_END {
        return Err(Fault::no_register(CAUSE_LENGTH));
    }
    let address = pcc.cursor();
    if address % 4 != 0 {
        return Err(Fault::LoadMisaligned);
    }
    Ok(memory.load(address, 4)? as u32)
}

/// A load that extends by zeros.
pub fn load(
    machine: &mut Machine,
    memory: &Memory,
    rd: Register,
    through: Through,
    size: u64,
) -> Result<(), Fault> {
    let value = load_value(machine, memory, through, size)?;
    machine.set_general(rd, value);
    Ok(())
}

/// A load that extends by the sign.
pub fn load_signed(
    machine: &mut Machine,
    memory: &Memory,
    rd: Register,
    through: Through,
    size: u64,
) -> Result<(), Fault> {
    let value = load_value(machine, memory, through, size)?;
    let unused = 64 - 8 * size;
    let extended = ((value << unused) as i64) >> unused;
    machine.set_general(rd, extended as u64);
    Ok(())
}

fn load_value(
    machine: &Machine,
    memory: &Memory,
    through: Through,
    size: u64,
) -> Result<u64, Fault> {
    machine.need_access(through.0)?;
    need_usable(machine, through.0, PERMIT_LOAD, CAUSE_PERMIT_LOAD)?;
    let address = address_in_range(machine, through, size)?;
    need_aligned(address, size, Fault::LoadMisaligned)?;
    memory.load(address, size)
}

/// Stores the low bytes of a general register.
pub fn store(
    machine: &Machine,
    memory: &mut Memory,
    rs: Register,
    through: Through,
    size: u64,
) -> Result<(), Fault> {
    machine.need_access(through.0)?;
    need_usable(machine, through.0, PERMIT_STORE, CAUSE_PERMIT_STORE)?;
    let address = address_in_range(machine, through, size)?;
    need_aligned(address, size, Fault::StoreMisaligned)?;
    memory.store(address, size, machine.general(rs))
}

/// CLC wants Load_Capability alone (ruling A21).
pub fn clc(
    machine: &mut Machine,
    memory: &Memory,
    cd: Register,
    through: Through,
) -> Result<(), Fault> {
    machine.need_access(cd)?;
    machine.need_access(through.0)?;
    need_usable(machine, through.0, PERMIT_LOAD_CAPABILITY, CAUSE_PERMIT_LOAD_CAPABILITY)?;
    let address = address_in_range(machine, through, LINE)?;
    need_aligned(address, LINE, Fault::LoadMisaligned)?;
    let cap = memory.load_cap(address)?;
    machine.set_cap(cd, cap);
    Ok(())
}

/// CSC wants Store_Capability alone; the store-local test names cb (ruling A21).
pub fn csc(
    machine: &Machine,
    memory: &mut Memory,
    cs: Register,
    through: Through,
) -> Result<(), Fault> {
    machine.need_access(cs)?;
    machine.need_access(through.0)?;
    need_usable(machine, through.0, PERMIT_STORE_CAPABILITY, CAUSE_PERMIT_STORE_CAPABILITY)?;
    let stored = machine.cap(cs);
    let local = stored.tag && !stored.has(GLOBAL);
    let allowed = !local || machine.cap(through.0).has(PERMIT_STORE_LOCAL_CAPABILITY);
    need(allowed, CAUSE_PERMIT_STORE_LOCAL_CAPABILITY, through.0)?;
    let address = address_in_range(machine, through, LINE)?;
    need_aligned(address, LINE, Fault::StoreMisaligned)?;
    memory.store_cap(address, stored)
}

/// Tag, seal and the permission, in that order (ruling A22).
fn need_usable(machine: &Machine, cb: Register, permission: u32, cause: u32) -> Result<(), Fault> {
    machine.need_tag(cb)?;
    machine.need_unsealed(cb)?;
    need(machine.cap(cb).has(permission), cause, cb)
}

/// base + o, after the Length test on o = cb.offset + rt + immediate, all exact.
fn address_in_range(machine: &Machine, through: Through, size: u64) -> Result<u64, Fault> {
    let (cb, rt, immediate) = through;
    let cap = machine.cap(cb);
    let rt = machine.general(rt) as i64;
    let o = i128::from(cap.offset) + i128::from(rt) + i128::from(immediate);
    let end = o + i128::from(size);
    let in_length = o >= 0 && end <= i128::from(cap.length);
    let in_addresses = i128::from(cap.base) + end <= ADDRESS_END as i128;
    need(in_length && in_addresses, CAUSE_LENGTH, cb)?;
    Ok((i128::from(cap.base) + o) as u64)
}

/// Alignment is tested after Length and before memory (ruling A22).
fn need_aligned(address: u64, size: u64, fault: Fault) -> Result<(), Fault> {
    if address % size == 0 {
        return Ok(());
    }
    Err(fault)
}
