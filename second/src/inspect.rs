//! Instructions that read capabilities and leave them as they are.

use crate::cap::{Cap, ACCESS_EPCC};
use crate::cause::*;
use crate::decode::{Compare, Register};
use crate::machine::{need, Machine};

/// The CGet instructions; only the access check comes first.
pub fn get(
    machine: &mut Machine,
    rd: Register,
    cb: Register,
    field: impl Fn(&Cap) -> u64,
) -> Result<(), Fault> {
    machine.need_access(cb)?;
    let value = field(machine.cap(cb));
    machine.set_general(rd, value);
    Ok(())
}

/// The cause code is in 15..8, the register in 7..0 (ruling A19).
pub fn cgetcause(machine: &mut Machine, rd: Register) -> Result<(), Fault> {
    need_cause_access(machine)?;
    machine.set_general(rd, u64::from(machine.cause));
    Ok(())
}

pub fn csetcause(machine: &mut Machine, rt: Register) -> Result<(), Fault> {
    need_cause_access(machine)?;
    machine.cause = machine.general(rt) as u16;
    Ok(())
}

/// Without Access_EPCC: cause 0x1A, register 255 (ruling A19).
fn need_cause_access(machine: &Machine) -> Result<(), Fault> {
    if machine.pcc.has(ACCESS_EPCC) {
        return Ok(());
    }
    Err(Fault::no_register(CAUSE_ACCESS_EPCC))
}

/// The tag of ct is needed even where cb is untagged (ruling A16).
pub fn ctoptr(
    machine: &mut Machine,
    rd: Register,
    cb: Register,
    ct: Register,
) -> Result<(), Fault> {
    machine.need_access(cb)?;
    machine.need_access(ct)?;
    machine.need_tag(ct)?;
    let (pointed, within) = (machine.cap(cb), machine.cap(ct));
    let mut pointer = 0;
    if pointed.tag {
        pointer = pointed.cursor().wrapping_sub(within.base);
    }
    machine.set_general(rd, pointer);
    Ok(())
}

/// The seal is not looked at and the result is 0 or 1 (ruling A18).
pub fn cptrcmp(
    machine: &mut Machine,
    rd: Register,
    cb: Register,
    ct: Register,
    kind: Compare,
) -> Result<(), Fault> {
    machine.need_access(cb)?;
    machine.need_access(ct)?;
    let (equal, less, signed_less) = compare(machine.cap(cb), machine.cap(ct));
    let result = match kind {
        Compare::Ceq => equal,
        Compare::Cne => !equal,
        Compare::Clt => signed_less,
        Compare::Cle => signed_less || equal,
        Compare::Cltu => less,
        Compare::Cleu => less || equal,
    };
    machine.set_general(rd, u64::from(result));
    Ok(())
}

/// Equal, less and signed less; the signed compare turns at 2^63 (ruling A7).
fn compare(first: &Cap, second: &Cap) -> (bool, bool, bool) {
    if first.tag != second.tag {
        return (false, second.tag, second.tag);
    }
    let (left, right) = (first.cursor(), second.cursor());
    (left == right, left < right, (left as i64) < right as i64)
}

/// All 64 bits of rt count and the seal is not looked at (rulings A8 and A17).
pub fn ccheckperm(machine: &mut Machine, cs: Register, rt: Register) -> Result<(), Fault> {
    machine.need_access(cs)?;
    machine.need_tag(cs)?;
    let wanted = machine.general(rt);
    let granted = u64::from(machine.cap(cs).perms);
    need(granted & wanted == wanted, CAUSE_USER_DEFINED, cs)
}

/// Type names cs (ruling A17).
pub fn cchecktype(machine: &mut Machine, cs: Register, cb: Register) -> Result<(), Fault> {
    machine.need_access(cs)?;
    machine.need_access(cb)?;
    machine.need_tag(cs)?;
    machine.need_tag(cb)?;
    need(machine.cap(cs).sealed, CAUSE_SEAL, cs)?;
    need(machine.cap(cb).sealed, CAUSE_SEAL, cb)?;
    need(machine.cap(cs).otype == machine.cap(cb).otype, CAUSE_TYPE, cs)
}
