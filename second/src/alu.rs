//! The MIPS instructions on general registers.

use crate::cause::Fault;
use crate::decode::Register;
use crate::machine::Machine;

/// rd becomes the operation on rs and rt, in that order.
pub fn registers(
    machine: &mut Machine,
    rd: Register,
    rs: Register,
    rt: Register,
    operation: impl Fn(u64, u64) -> u64,
) -> Result<(), Fault> {
    let result = operation(machine.general(rs), machine.general(rt));
    machine.set_general(rd, result);
    Ok(())
}

/// 1 where the first number is below the second, both signed.
pub fn less_signed(first: u64, second: u64) -> u64 {
    u64::from((first as i64) < second as i64)
}

/// DADDIU extends by the sign (ruling A26).
pub fn daddiu(
    machine: &mut Machine,
    rt: Register,
    rs: Register,
    immediate: i16,
) -> Result<(), Fault> {
    let result = machine.general(rs).wrapping_add_signed(i64::from(immediate));
    machine.set_general(rt, result);
    Ok(())
}

/// ANDI extends by zeros (ruling A26).
pub fn andi(
    machine: &mut Machine,
    rt: Register,
    rs: Register,
    immediate: u16,
) -> Result<(), Fault> {
    let result = machine.general(rs) & u64::from(immediate);
    machine.set_general(rt, result);
    Ok(())
}

/// ORI extends by zeros (ruling A26).
pub fn ori(machine: &mut Machine, rt: Register, rs: Register, immediate: u16) -> Result<(), Fault> {
    let result = machine.general(rs) | u64::from(immediate);
    machine.set_general(rt, result);
    Ok(())
}

/// LUI sign-extends from bit 31 (ruling A26).
pub fn lui(machine: &mut Machine, rt: Register, immediate: i16) -> Result<(), Fault> {
    let result = i64::from(immediate) << 16;
    machine.set_general(rt, result as u64);
    Ok(())
}
