//! One instruction: every check first, then every write.

use crate::access;
use crate::alu;
use crate::cause::{Fault, CAUSE_CALL, CAUSE_RETURN};
use crate::decode::Instruction;
use crate::derive;
use crate::inspect;
use crate::jumps;
use crate::machine::Machine;
use crate::memory::Memory;

/// Does the instruction; after a fault nothing has changed.
pub fn execute(
    instruction: Instruction,
    machine: &mut Machine,
    memory: &mut Memory,
) -> Result<(), Fault> {
    use Instruction::*;
    match instruction {
        Reserved => Err(Fault::Reserved),
        Break => Err(Fault::Break),
        Nop => Ok(()),
        Daddu { rd, rs, rt } => alu::registers(machine, rd, rs, rt, u64::wrapping_add),
        Dsubu { rd, rs, rt } => alu::registers(machine, rd, rs, rt, u64::wrapping_sub),
        And { rd, rs, rt } => alu::registers(machine, rd, rs, rt, |x, y| x & y),
        Or { rd, rs, rt } => alu::registers(machine, rd, rs, rt, |x, y| x | y),
        Xor { rd, rs, rt } => alu::registers(machine, rd, rs, rt, |x, y| x ^ y),
        Slt { rd, rs, rt } => alu::registers(machine, rd, rs, rt, alu::less_signed),
        Sltu { rd, rs, rt } => alu::registers(machine, rd, rs, rt, |x, y| u64::from(x < y)),
        Dsllv { rd, rt, rs } => alu::registers(machine, rd, rs, rt, |x, y| y << (x & 63)),
        Dsrlv { rd, rt, rs } => alu::registers(machine, rd, rs, rt, |x, y| y >> (x & 63)),
        Daddiu { rt, rs, immediate } => alu::daddiu(machine, rt, rs, immediate),
        Andi { rt, rs, immediate } => alu::andi(machine, rt, rs, immediate),
        Ori { rt, rs, immediate } => alu::ori(machine, rt, rs, immediate),
        Lui { rt, immediate } => alu::lui(machine, rt, immediate),
        Beq { rs, rt, offset } => jumps::beq(machine, rs, rt, offset),
        Bne { rs, rt, offset } => jumps::bne(machine, rs, rt, offset),
        // LD, SD, LBU and SB go through C0 with the base register as rt.
        Ld { rt, base, offset } => access::load(machine, memory, rt, (0, base, offset), 8),
        Lbu { rt, base, offset } => access::load(machine, memory, rt, (0, base, offset), 1),
        Sd { rt, base, offset } => access::store(machine, memory, rt, (0, base, offset), 8),
        Sb { rt, base, offset } => access::store(machine, memory, rt, (0, base, offset), 1),
        Load { rd, cb, rt, offset, signed: false, size } => {
            access::load(machine, memory, rd, (cb, rt, offset), size)
        }
        Load { rd, cb, rt, offset, signed: true, size } => {
            access::load_signed(machine, memory, rd, (cb, rt, offset), size)
        }
        Store { rs, cb, rt, offset, size } => {
            access::store(machine, memory, rs, (cb, rt, offset), size)
        }
        Clc { cd, cb, rt, offset } => access::clc(machine, memory, cd, (cb, rt, offset)),
        Csc { cs, cb, rt, offset } => access::csc(machine, memory, cs, (cb, rt, offset)),
        CGetBase { rd, cb } => inspect::get(machine, rd, cb, |cap| cap.base),
        CGetLen { rd, cb } => inspect::get(machine, rd, cb, |cap| cap.length),
        CGetOffset { rd, cb } => inspect::get(machine, rd, cb, |cap| cap.offset),
        CGetPerm { rd, cb } => inspect::get(machine, rd, cb, |cap| u64::from(cap.perms)),
        CGetTag { rd, cb } => inspect::get(machine, rd, cb, |cap| u64::from(cap.tag)),
        CGetSealed { rd, cb } => inspect::get(machine, rd, cb, |cap| u64::from(cap.sealed)),
        CGetType { rd, cb } => inspect::get(machine, rd, cb, |cap| u64::from(cap.otype)),
        CGetCause { rd } => inspect::cgetcause(machine, rd),
        CSetCause { rt } => inspect::csetcause(machine, rt),
        CToPtr { rd, cb, ct } => inspect::ctoptr(machine, rd, cb, ct),
        CPtrCmp { rd, cb, ct, kind } => inspect::cptrcmp(machine, rd, cb, ct, kind),
        CCheckPerm { cs, rt } => inspect::ccheckperm(machine, cs, rt),
        CCheckType { cs, cb } => inspect::cchecktype(machine, cs, cb),
        CGetPcc { cd } => derive::cgetpcc(machine, cd),
        CClearTag { cd, cb } => derive::ccleartag(machine, cd, cb),
        CAndPerm { cd, cb, rt } => derive::candperm(machine, cd, cb, rt),
        CIncBase { cd, cb, rt } => derive::cincbase(machine, cd, cb, rt),
        CSetLen { cd, cb, rt } => derive::csetlen(machine, cd, cb, rt),
        CSetOffset { cd, cb, rt } => derive::csetoffset(machine, cd, cb, rt),
        CIncOffset { cd, cb, rt } => derive::cincoffset(machine, cd, cb, rt),
        CFromPtr { cd, cb, rt } => derive::cfromptr(machine, cd, cb, rt),
        CSeal { cd, cs, ct } => derive::cseal(machine, cd, cs, ct),
        CUnseal { cd, cs, ct } => derive::cunseal(machine, cd, cs, ct),
        Cbtu { cb, offset } => jumps::branch_on_tag(machine, cb, offset, false),
        Cbts { cb, offset } => jumps::branch_on_tag(machine, cb, offset, true),
        Cjr { cb } => jumps::cjr(machine, cb),
        Cjalr { cd, cb } => jumps::cjalr(machine, cd, cb),
        // CCall makes no access check and CReturn names no register (ruling A12).
        CCall { cs, .. } => Err(Fault::capability(CAUSE_CALL, cs)),
        CReturn => Err(Fault::no_register(CAUSE_RETURN)),
    }
}
