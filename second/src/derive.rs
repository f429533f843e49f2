//! Instructions that make one capability from another; the spare bits are kept.

use crate::cap::*;
use crate::cause::*;
use crate::decode::Register;
use crate::machine::{need, Machine};

/// PCC with the PC of this instruction, the old PCC in a slot (ruling A11).
pub fn cgetpcc(machine: &mut Machine, cd: Register) -> Result<(), Fault> {
    machine.need_access(cd)?;
    machine.set_cap(cd, machine.pcc);
    Ok(())
}

pub fn ccleartag(machine: &mut Machine, cd: Register, cb: Register) -> Result<(), Fault> {
    machine.need_access(cd)?;
    machine.need_access(cb)?;
    let source = *machine.cap(cb);
    machine.set_cap(cd, Cap { tag: false, ..source });
    Ok(())
}

/// Bits 0 to 30 of rt alone count (ruling A8).
pub fn candperm(
    machine: &mut Machine,
    cd: Register,
    cb: Register,
    rt: Register,
) -> Result<(), Fault> {
    machine.need_access(cd)?;
    machine.need_access(cb)?;
    machine.need_tag(cb)?;
    machine.need_unsealed(cb)?;
    let source = *machine.cap(cb);
    let mask = machine.general(rt) as u32 & PERMS_MASK;
    machine.set_cap(cd, Cap { perms: source.perms & mask, ..source });
    Ok(())
}

/// By 0 it is a plain move, also of an untagged or sealed cb (ruling A14).
pub fn cincbase(
    machine: &mut Machine,
    cd: Register,
    cb: Register,
    rt: Register,
) -> Result<(), Fault> {
    machine.need_access(cd)?;
    machine.need_access(cb)?;
    let increase = machine.general(rt);
    if increase != 0 {
        machine.need_tag(cb)?;
        machine.need_unsealed(cb)?;
    }
    advance_base(machine, cd, cb, increase)
}

/// Of 0 only the access checks come first and all fields are 0 (ruling A13).
pub fn cfromptr(
    machine: &mut Machine,
    cd: Register,
    cb: Register,
    rt: Register,
) -> Result<(), Fault> {
    machine.need_access(cd)?;
    machine.need_access(cb)?;
    let pointer = machine.general(rt);
    if pointer == 0 {
        machine.set_cap(cd, Cap::default());
        return Ok(());
    }
    machine.need_tag(cb)?;
    machine.need_unsealed(cb)?;
    advance_base(machine, cd, cb, pointer)
}

/// The base grows mod 2^64, the length shrinks, the offset stays.
fn advance_base(
    machine: &mut Machine,
    cd: Register,
    cb: Register,
    increase: u64,
) -> Result<(), Fault> {
    let source = *machine.cap(cb);
    need(increase <= source.length, CAUSE_LENGTH, cb)?;
    let base = source.base.wrapping_add(increase);
    let length = source.length - increase;
    machine.set_cap(cd, Cap { base, length, ..source });
    Ok(())
}

pub fn csetlen(
    machine: &mut Machine,
    cd: Register,
    cb: Register,
    rt: Register,
) -> Result<(), Fault> {
    machine.need_access(cd)?;
    machine.need_access(cb)?;
    machine.need_tag(cb)?;
    machine.need_unsealed(cb)?;
    let source = *machine.cap(cb);
    let length = machine.general(rt);
    need(length <= source.length, CAUSE_LENGTH, cb)?;
    machine.set_cap(cd, Cap { length, ..source });
    Ok(())
}

pub fn csetoffset(
    machine: &mut Machine,
    cd: Register,
    cb: Register,
    rt: Register,
) -> Result<(), Fault> {
    replace_offset(machine, cd, cb, machine.general(rt))
}

/// By 0 a sealed tagged cb raises Seal all the same (ruling A3).
pub fn cincoffset(
    machine: &mut Machine,
    cd: Register,
    cb: Register,
    rt: Register,
) -> Result<(), Fault> {
    let offset = machine.cap(cb).offset.wrapping_add(machine.general(rt));
    replace_offset(machine, cd, cb, offset)
}

/// Seal only where tag and sealed are both set (ruling A15).
fn replace_offset(
    machine: &mut Machine,
    cd: Register,
    cb: Register,
    offset: u64,
) -> Result<(), Fault> {
    machine.need_access(cd)?;
    machine.need_access(cb)?;
    let source = *machine.cap(cb);
    need(!(source.tag && source.sealed), CAUSE_SEAL, cb)?;
    machine.set_cap(cd, Cap { offset, ..source });
    Ok(())
}

/// Both Length tests name ct (ruling A17).
pub fn cseal(machine: &mut Machine, cd: Register, cs: Register, ct: Register) -> Result<(), Fault> {
    need_access_and_tags(machine, cd, cs, ct)?;
    machine.need_unsealed(cs)?;
    machine.need_unsealed(ct)?;
    let authority = *machine.cap(ct);
    need(authority.has(PERMIT_SEAL), CAUSE_PERMIT_SEAL, ct)?;
    need(authority.offset < authority.length, CAUSE_LENGTH, ct)?;
    let otype = authority.exact_cursor();
    need(otype <= u128::from(OTYPE_MASK), CAUSE_LENGTH, ct)?;
    let source = *machine.cap(cs);
    machine.set_cap(cd, Cap { sealed: true, otype: otype as u32, ..source });
    Ok(())
}

/// Type names ct, then Permit_Seal, then Length; the sum is exact (ruling A9).
pub fn cunseal(
    machine: &mut Machine,
    cd: Register,
    cs: Register,
    ct: Register,
) -> Result<(), Fault> {
    need_access_and_tags(machine, cd, cs, ct)?;
    need(machine.cap(cs).sealed, CAUSE_SEAL, cs)?;
    machine.need_unsealed(ct)?;
    let (source, authority) = (*machine.cap(cs), *machine.cap(ct));
    need(authority.exact_cursor() == u128::from(source.otype), CAUSE_TYPE, ct)?;
    need(authority.has(PERMIT_SEAL), CAUSE_PERMIT_SEAL, ct)?;
    need(authority.offset < authority.length, CAUSE_LENGTH, ct)?;
    let mut perms = source.perms;
    if !authority.has(GLOBAL) {
        perms &= !(1 << GLOBAL);
    }
    machine.set_cap(cd, Cap { sealed: false, otype: 0, perms, ..source });
    Ok(())
}

/// The first five checks of CSeal and CUnseal.
fn need_access_and_tags(
    machine: &Machine,
    cd: Register,
    cs: Register,
    ct: Register,
) -> Result<(), Fault> {
    machine.need_access(cd)?;
    machine.need_access(cs)?;
    machine.need_access(ct)?;
    machine.need_tag(cs)?;
    machine.need_tag(ct)
}
