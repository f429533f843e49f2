//! A table of instruction words, and for each word a line of numbers that says what it is.
//!
//! A line is `WORD NUMBER SUB FLAG IMMEDIATE JUMP` in decimal.
//!
//! - NUMBER is the place in this list, from 0: reserved, NOP, BREAK, an operation on registers,
//!   one on an immediate, LUI, BEQ and BNE, a load and a store through a capability (majors 50
//!   and 58), a load and a store through C0 (LD and LBU, SD and SB), CLC, CSC, the seven that
//!   get a field, CGetPCC, CGetCause, CSetCause, CAndPerm, CClearTag, CIncBase, CSetLen,
//!   CSetOffset, CIncOffset, CFromPtr, CToPtr, CSeal, CUnseal, CCheckPerm, CCheckType, CJR,
//!   CJALR, CBTU and CBTS, CCall, CReturn, CPtrCmp.
//! - SUB is the operation among DADDU, DSUBU, AND, OR, XOR, SLT, SLTU, DSLLV and DSRLV (one on
//!   an immediate counts as the one on registers), the bytes of a load or a store of data, the
//!   field among base, length, offset, perms, tag, sealed and type, or the kind of CPtrCmp.
//! - FLAG is 1 for BEQ, a load that extends the sign, and CBTS.
//! - IMMEDIATE is the immediate or the count as the 64 bits that it stands for.
//! - JUMP is 1 for a branch or jump word, whatever its unused fields hold.
//!
//! What an instruction lacks is 0.

pub mod table;

use crate::decode::{decode, is_branch_or_jump, Instruction};
use Instruction::*;

pub use table::table;

/// The table as a file holds it: each word as 4 bytes, the most significant first.
pub fn table_bytes() -> Vec<u8> {
    table().into_iter().flat_map(u32::to_be_bytes).collect()
}

/// The line of each word of the table.
pub fn table_lines() -> String {
    table().into_iter().map(|word| line(word) + "\n").collect()
}

/// The line of a word, without its end.
pub fn line(word: u32) -> String {
    let instruction = decode(word);
    let numbers = [
        u64::from(word),
        number(instruction),
        sub(instruction),
        u64::from(flag(instruction)),
        immediate(instruction),
        u64::from(is_branch_or_jump(word)),
    ];
    numbers.map(|number| number.to_string()).join(" ")
}

/// NUMBER, to CSC; the rest of the list is the capability instructions.
fn number(instruction: Instruction) -> u64 {
    match instruction {
        Reserved => 0,
        Nop => 1,
        Break => 2,
        Daddu { .. } | Dsubu { .. } | And { .. } | Or { .. } | Xor { .. } => 3,
        Slt { .. } | Sltu { .. } | Dsllv { .. } | Dsrlv { .. } => 3,
        Daddiu { .. } | Andi { .. } | Ori { .. } => 4,
        Lui { .. } => 5,
        Beq { .. } | Bne { .. } => 6,
        Load { .. } => 7,
        Store { .. } => 8,
        Ld { .. } | Lbu { .. } => 9,
        Sd { .. } | Sb { .. } => 10,
        Clc { .. } => 11,
        Csc { .. } => 12,
        _ => capability_number(instruction),
    }
}

/// NUMBER of an instruction of major opcode 18.
fn capability_number(instruction: Instruction) -> u64 {
    match instruction {
        CGetBase { .. } | CGetLen { .. } | CGetOffset { .. } | CGetPerm { .. } => 13,
        CGetTag { .. } | CGetSealed { .. } | CGetType { .. } => 13,
        CGetPcc { .. } => 14,
        CGetCause { .. } => 15,
        CSetCause { .. } => 16,
        CAndPerm { .. } => 17,
        CClearTag { .. } => 18,
        CIncBase { .. } => 19,
        CSetLen { .. } => 20,
        CSetOffset { .. } => 21,
        CIncOffset { .. } => 22,
        CFromPtr { .. } => 23,
        CToPtr { .. } => 24,
        CSeal { .. } => 25,
        CUnseal { .. } => 26,
        CCheckPerm { .. } => 27,
        CCheckType { .. } => 28,
        Cjr { .. } => 29,
        Cjalr { .. } => 30,
        Cbtu { .. } | Cbts { .. } => 31,
        CCall { .. } => 32,
        CReturn => 33,
        CPtrCmp { .. } => 34,
        _ => unreachable!("{instruction:?} is not of major opcode 18"),
    }
}

fn sub(instruction: Instruction) -> u64 {
    match instruction {
        Daddu { .. } | Daddiu { .. } => 0,
        Dsubu { .. } => 1,
        And { .. } | Andi { .. } => 2,
        Or { .. } | Ori { .. } => 3,
        Xor { .. } => 4,
        Slt { .. } => 5,
        Sltu { .. } => 6,
        Dsllv { .. } => 7,
        Dsrlv { .. } => 8,
        Load { size, .. } | Store { size, .. } => size,
        Ld { .. } | Sd { .. } => 8,
        Lbu { .. } | Sb { .. } => 1,
        CGetBase { .. } => 0,
        CGetLen { .. } => 1,
        CGetOffset { .. } => 2,
        CGetPerm { .. } => 3,
        CGetTag { .. } => 4,
        CGetSealed { .. } => 5,
        CGetType { .. } => 6,
        CPtrCmp { kind, .. } => kind as u64,
        _ => 0,
    }
}

fn flag(instruction: Instruction) -> bool {
    matches!(instruction, Beq { .. } | Load { signed: true, .. } | Cbts { .. })
}

fn immediate(instruction: Instruction) -> u64 {
    match instruction {
        Daddiu { immediate, .. } => signed(immediate),
        Andi { immediate, .. } | Ori { immediate, .. } => u64::from(immediate),
        Lui { immediate, .. } => signed(immediate) << 16,
        Beq { offset, .. } | Bne { offset, .. } => signed(offset),
        Ld { offset, .. } | Sd { offset, .. } => signed(offset),
        Lbu { offset, .. } | Sb { offset, .. } => signed(offset),
        Load { offset, .. } | Store { offset, .. } => signed(offset),
        Clc { offset, .. } | Csc { offset, .. } => signed(offset),
        Cbtu { offset, .. } | Cbts { offset, .. } => signed(offset),
        _ => 0,
    }
}

/// A signed number as 64 bits.
fn signed(number: i16) -> u64 {
    i64::from(number) as u64
}
