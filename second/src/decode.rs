//! Words to instructions.

/// A register number, 0 to 31.
pub type Register = u8;

/// Every instruction of 01; register names follow the manual and 004.
#[derive(Clone, Copy, PartialEq, Eq, Debug)]
pub enum Instruction {
    Reserved,
    Nop,
    Daddu { rd: Register, rs: Register, rt: Register },
    Dsubu { rd: Register, rs: Register, rt: Register },
    And { rd: Register, rs: Register, rt: Register },
    Or { rd: Register, rs: Register, rt: Register },
    Xor { rd: Register, rs: Register, rt: Register },
    Slt { rd: Register, rs: Register, rt: Register },
    Sltu { rd: Register, rs: Register, rt: Register },
    Dsllv { rd: Register, rt: Register, rs: Register },
    Dsrlv { rd: Register, rt: Register, rs: Register },
    Break,
    Daddiu { rt: Register, rs: Register, immediate: i16 },
    Andi { rt: Register, rs: Register, immediate: u16 },
    Ori { rt: Register, rs: Register, immediate: u16 },
    Lui { rt: Register, immediate: i16 },
    Beq { rs: Register, rt: Register, offset: i16 },
    Bne { rs: Register, rt: Register, offset: i16 },
    Ld { rt: Register, base: Register, offset: i16 },
    Sd { rt: Register, base: Register, offset: i16 },
    Lbu { rt: Register, base: Register, offset: i16 },
    Sb { rt: Register, base: Register, offset: i16 },
    Load { rd: Register, cb: Register, rt: Register, offset: i16, signed: bool, size: u64 },
    Store { rs: Register, cb: Register, rt: Register, offset: i16, size: u64 },
    Clc { cd: Register, cb: Register, rt: Register, offset: i16 },
    Csc { cs: Register, cb: Register, rt: Register, offset: i16 },
    CGetBase { rd: Register, cb: Register },
    CGetLen { rd: Register, cb: Register },
    CGetOffset { rd: Register, cb: Register },
    CGetPerm { rd: Register, cb: Register },
    CGetTag { rd: Register, cb: Register },
    CGetSealed { rd: Register, cb: Register },
    CGetType { rd: Register, cb: Register },
    CGetPcc { cd: Register },
    CGetCause { rd: Register },
    CSetCause { rt: Register },
    CAndPerm { cd: Register, cb: Register, rt: Register },
    CClearTag { cd: Register, cb: Register },
    CIncBase { cd: Register, cb: Register, rt: Register },
    CSetLen { cd: Register, cb: Register, rt: Register },
    CSetOffset { cd: Register, cb: Register, rt: Register },
    CIncOffset { cd: Register, cb: Register, rt: Register },
    CFromPtr { cd: Register, cb: Register, rt: Register },
    CToPtr { rd: Register, cb: Register, ct: Register },
    CSeal { cd: Register, cs: Register, ct: Register },
    CUnseal { cd: Register, cs: Register, ct: Register },
    CCheckPerm { cs: Register, rt: Register },
    CCheckType { cs: Register, cb: Register },
    Cjr { cb: Register },
    Cjalr { cd: Register, cb: Register },
    Cbtu { cb: Register, offset: i16 },
    Cbts { cb: Register, offset: i16 },
    CCall { cs: Register, cb: Register },
    CReturn,
    CPtrCmp { rd: Register, cb: Register, ct: Register, kind: Compare },
}

/// The kinds of CPtrCmp.
#[derive(Clone, Copy, PartialEq, Eq, Debug)]
pub enum Compare {
    Ceq,
    Cne,
    Clt,
    Cle,
    Cltu,
    Cleu,
}

pub fn decode(word: u32) -> Instruction {
    let rs = five(word, 21);
    let rt = five(word, 16);
    let signed = word as i16;
    let unsigned = word as u16;
    match word >> 26 {
        0 => special(word),
        4 => Instruction::Beq { rs, rt, offset: signed },
        5 => Instruction::Bne { rs, rt, offset: signed },
        12 => Instruction::Andi { rt, rs, immediate: unsigned },
        13 => Instruction::Ori { rt, rs, immediate: unsigned },
        15 if rs == 0 => Instruction::Lui { rt, immediate: signed },
        18 => capability(word),
        25 => Instruction::Daddiu { rt, rs, immediate: signed },
        36 => Instruction::Lbu { rt, base: rs, offset: signed },
        40 => Instruction::Sb { rt, base: rs, offset: signed },
        50 => load(word),
        54 => Instruction::Clc { cd: rs, cb: rt, rt: five(word, 11), offset: eleven(word) },
        55 => Instruction::Ld { rt, base: rs, offset: signed },
        58 => store(word),
        62 => Instruction::Csc { cs: rs, cb: rt, rt: five(word, 11), offset: eleven(word) },
        63 => Instruction::Sd { rt, base: rs, offset: signed },
        _ => Instruction::Reserved,
    }
}

/// True for the words stop 7 belongs to, whatever their unused fields hold (ruling A10).
pub fn is_branch_or_jump(word: u32) -> bool {
    match word >> 26 {
        4 | 5 => true,
        18 => matches!(five(word, 21), 22..=25),
        _ => false,
    }
}

/// The five bits whose lowest is this one.
fn five(word: u32, lowest: u32) -> u8 {
    (word >> lowest & 31) as u8
}

/// The signed byte offset in 10..0.
fn eleven(word: u32) -> i16 {
    ((word << 5) as i16) >> 5
}

/// Major opcode 0; a non-zero 10..6 is reserved, which takes DROTRV too (ruling A25).
fn special(word: u32) -> Instruction {
    let (rs, rt, rd) = (five(word, 21), five(word, 16), five(word, 11));
    if word == 0 {
        return Instruction::Nop;
    }
    if word & 63 == 13 {
        return Instruction::Break;
    }
    if five(word, 6) != 0 {
        return Instruction::Reserved;
    }
    match word & 63 {
        20 => Instruction::Dsllv { rd, rt, rs },
        22 => Instruction::Dsrlv { rd, rt, rs },
        36 => Instruction::And { rd, rs, rt },
        37 => Instruction::Or { rd, rs, rt },
        38 => Instruction::Xor { rd, rs, rt },
        42 => Instruction::Slt { rd, rs, rt },
        43 => Instruction::Sltu { rd, rs, rt },
        45 => Instruction::Daddu { rd, rs, rt },
        47 => Instruction::Dsubu { rd, rs, rt },
        _ => Instruction::Reserved,
    }
}

/// Major opcode 50: bit 2 means sign-extend, and with size code 3 it is reserved.
fn load(word: u32) -> Instruction {
    let signed = word & 4 != 0;
    if signed && word & 3 == 3 {
        return Instruction::Reserved;
    }
    Instruction::Load {
        rd: five(word, 21),
        cb: five(word, 16),
        rt: five(word, 11),
        offset: byte_offset(word),
        signed,
        size: 1 << (word & 3),
    }
}

/// Major opcode 58: bit 2 set is reserved.
fn store(word: u32) -> Instruction {
    if word & 4 != 0 {
        return Instruction::Reserved;
    }
    Instruction::Store {
        rs: five(word, 21),
        cb: five(word, 16),
        rt: five(word, 11),
        offset: byte_offset(word),
        size: 1 << (word & 3),
    }
}

/// The signed byte offset in 10..3.
fn byte_offset(word: u32) -> i16 {
    i16::from((word >> 3) as i8)
}

/// Major opcode 18, by how many operands the number has and where they lie.
fn capability(word: u32) -> Instruction {
    match five(word, 21) {
        7..=9 | 22 => one_operand(word),
        0..=6 | 11 | 20 | 21 | 23 | 26 => two_operands(word),
        10 | 12..=19 => three_operands(word),
        24 => Instruction::Cbtu { cb: five(word, 16), offset: word as i16 },
        25 => Instruction::Cbts { cb: five(word, 16), offset: word as i16 },
        27 if word & 0x1F_FFFF == 0 => Instruction::CReturn,
        28 => compare(word),
        _ => Instruction::Reserved,
    }
}

fn one_operand(word: u32) -> Instruction {
    let first = five(word, 16);
    if word & 0xFFFF != 0 {
        return Instruction::Reserved;
    }
    match five(word, 21) {
        7 => Instruction::CGetPcc { cd: first },
        8 => Instruction::CGetCause { rd: first },
        9 => Instruction::CSetCause { rt: first },
        22 => Instruction::Cjr { cb: first },
        _ => Instruction::Reserved,
    }
}

/// CCall's selector would sit in 10..6 and must be 0 (ruling A1).
fn two_operands(word: u32) -> Instruction {
    let (first, second) = (five(word, 16), five(word, 11));
    if word & 0x7FF != 0 {
        return Instruction::Reserved;
    }
    match five(word, 21) {
        0 => Instruction::CGetBase { rd: first, cb: second },
        1 => Instruction::CGetLen { rd: first, cb: second },
        2 => Instruction::CGetOffset { rd: first, cb: second },
        3 => Instruction::CGetPerm { rd: first, cb: second },
        4 => Instruction::CGetTag { rd: first, cb: second },
        5 => Instruction::CGetSealed { rd: first, cb: second },
        6 => Instruction::CGetType { rd: first, cb: second },
        11 => Instruction::CClearTag { cd: first, cb: second },
        20 => Instruction::CCheckPerm { cs: first, rt: second },
        21 => Instruction::CCheckType { cs: first, cb: second },
        23 => Instruction::Cjalr { cd: first, cb: second },
        26 => Instruction::CCall { cs: first, cb: second },
        _ => Instruction::Reserved,
    }
}

fn three_operands(word: u32) -> Instruction {
    let (first, second, third) = (five(word, 16), five(word, 11), five(word, 6));
    if word & 0x3F != 0 {
        return Instruction::Reserved;
    }
    match five(word, 21) {
        10 => Instruction::CAndPerm { cd: first, cb: second, rt: third },
        12 => Instruction::CIncBase { cd: first, cb: second, rt: third },
        13 => Instruction::CSetLen { cd: first, cb: second, rt: third },
        14 => Instruction::CSetOffset { cd: first, cb: second, rt: third },
        15 => Instruction::CIncOffset { cd: first, cb: second, rt: third },
        16 => Instruction::CFromPtr { cd: first, cb: second, rt: third },
        17 => Instruction::CToPtr { rd: first, cb: second, ct: third },
        18 => Instruction::CSeal { cd: first, cs: second, ct: third },
        19 => Instruction::CUnseal { cd: first, cs: second, ct: third },
        _ => Instruction::Reserved,
    }
}

/// The kind is in 2..0 and 5..3 are unused; kinds 6 and 7 are reserved (ruling A25).
fn compare(word: u32) -> Instruction {
    let kind = match word & 0x3F {
        0 => Compare::Ceq,
        1 => Compare::Cne,
        2 => Compare::Clt,
        3 => Compare::Cle,
        4 => Compare::Cltu,
        5 => Compare::Cleu,
        _ => return Instruction::Reserved,
    };
    let (rd, cb, ct) = (five(word, 16), five(word, 11), five(word, 6));
    Instruction::CPtrCmp { rd, cb, ct, kind }
}
