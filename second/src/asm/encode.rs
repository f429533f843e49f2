//! Every instruction's word: its fixed bits, and where each operand goes.
//!
//! Operands stand in the order in which the assembly text names them: 004's
//! Format line for capability instructions, the usual MIPS order for the rest.

#[derive(Clone, Copy, PartialEq, Eq, Debug)]
pub enum Kind {
    General,
    Capability,
    Signed,
    Unsigned,
    /// A signed count of words from the place after the branch.
    Branch,
}

#[derive(Clone, Copy, PartialEq, Eq, Debug)]
pub struct Field {
    pub kind: Kind,
    pub shift: u32,
    pub width: u32,
}

impl Field {
    /// The bits of a word that this field fills.
    pub fn mask(&self) -> u32 {
        ((1u64 << self.width) - 1) as u32 * (1 << self.shift)
    }

    /// The least and the greatest number that fits.
    pub fn range(&self) -> (i64, i64) {
        let half = 1i64 << (self.width - 1);
        match self.kind {
            Kind::Signed | Kind::Branch => (-half, half - 1),
            _ => (0, 2 * half - 1),
        }
    }
}

#[derive(Clone, Copy, PartialEq, Eq, Debug)]
pub struct Format {
    pub name: &'static str,
    /// The word with every operand zero.
    pub fixed: u32,
    pub fields: &'static [Field],
    /// The last two operands are written `offset(base)`.
    pub memory: bool,
}

impl Format {
    /// The bits of a word that operands fill; the others must be as in `fixed`.
    pub fn mask(&self) -> u32 {
        self.fields.iter().map(|field| field.mask()).sum()
    }
}

const fn field(kind: Kind, shift: u32, width: u32) -> Field {
    Field { kind, shift, width }
}

const fn row(name: &'static str, fixed: u32, fields: &'static [Field]) -> Format {
    Format { name, fixed, fields, memory: false }
}

const fn access(name: &'static str, fixed: u32, fields: &'static [Field]) -> Format {
    Format { name, fixed, fields, memory: true }
}

/// A word of major opcode 18 with its number.
const fn cap(number: u32) -> u32 {
    (18 << 26) | (number << 21)
}

const fn major(opcode: u32, low_bits: u32) -> u32 {
    (opcode << 26) | low_bits
}

// MIPS fields.
const RS: Field = field(Kind::General, 21, 5);
const RT: Field = field(Kind::General, 16, 5);
const RD: Field = field(Kind::General, 11, 5);
const SIGNED: Field = field(Kind::Signed, 0, 16);
const UNSIGNED: Field = field(Kind::Unsigned, 0, 16);
const TARGET: Field = field(Kind::Branch, 0, 16);
const CODE: Field = field(Kind::Unsigned, 6, 20);

// Major opcode 18: general and capability registers in 20..16, 15..11, 10..6.
const G1: Field = field(Kind::General, 16, 5);
const G2: Field = field(Kind::General, 11, 5);
const G3: Field = field(Kind::General, 6, 5);
const C1: Field = field(Kind::Capability, 16, 5);
const C2: Field = field(Kind::Capability, 11, 5);
const C3: Field = field(Kind::Capability, 6, 5);

// Accesses through a capability: register, index rt, byte offset, cb.
const DATA: Field = field(Kind::General, 21, 5);
const WHOLE: Field = field(Kind::Capability, 21, 5);
const INDEX: Field = field(Kind::General, 11, 5);
const BYTE_8: Field = field(Kind::Signed, 3, 8);
const BYTE_11: Field = field(Kind::Signed, 0, 11);
const CB: Field = field(Kind::Capability, 16, 5);

const DATA_ACCESS: &[Field] = &[DATA, INDEX, BYTE_8, CB];
const DATA_BY_REGISTER: &[Field] = &[DATA, INDEX, CB];
const DATA_BY_OFFSET: &[Field] = &[DATA, BYTE_8, CB];
const CAP_ACCESS: &[Field] = &[WHOLE, INDEX, BYTE_11, CB];
const CAP_BY_REGISTER: &[Field] = &[WHOLE, INDEX, CB];
const CAP_BY_OFFSET: &[Field] = &[WHOLE, BYTE_11, CB];

/// Every instruction of the machine, once.
#[rustfmt::skip]
pub const FORMATS: &[Format] = &[
    row("nop", 0, &[]),
    row("daddu", major(0, 0x2D), &[RD, RS, RT]),
    row("dsubu", major(0, 0x2F), &[RD, RS, RT]),
    row("and", major(0, 0x24), &[RD, RS, RT]),
    row("or", major(0, 0x25), &[RD, RS, RT]),
    row("xor", major(0, 0x26), &[RD, RS, RT]),
    row("slt", major(0, 0x2A), &[RD, RS, RT]),
    row("sltu", major(0, 0x2B), &[RD, RS, RT]),
    row("dsllv", major(0, 0x14), &[RD, RT, RS]),
    row("dsrlv", major(0, 0x16), &[RD, RT, RS]),
    row("break", major(0, 0x0D), &[CODE]),
    row("daddiu", major(25, 0), &[RT, RS, SIGNED]),
    row("andi", major(12, 0), &[RT, RS, UNSIGNED]),
    row("ori", major(13, 0), &[RT, RS, UNSIGNED]),
    row("lui", major(15, 0), &[RT, UNSIGNED]),
    row("beq", major(4, 0), &[RS, RT, TARGET]),
    row("bne", major(5, 0), &[RS, RT, TARGET]),
    access("ld", major(55, 0), &[RT, SIGNED, RS]),
    access("sd", major(63, 0), &[RT, SIGNED, RS]),
    access("lbu", major(36, 0), &[RT, SIGNED, RS]),
    access("sb", major(40, 0), &[RT, SIGNED, RS]),
    access("clbu", major(50, 0), DATA_ACCESS),
    access("clhu", major(50, 1), DATA_ACCESS),
    access("clwu", major(50, 2), DATA_ACCESS),
    access("cld", major(50, 3), DATA_ACCESS),
    access("clb", major(50, 4), DATA_ACCESS),
    access("clh", major(50, 5), DATA_ACCESS),
    access("clw", major(50, 6), DATA_ACCESS),
    access("csb", major(58, 0), DATA_ACCESS),
    access("csh", major(58, 1), DATA_ACCESS),
    access("csw", major(58, 2), DATA_ACCESS),
    access("csd", major(58, 3), DATA_ACCESS),
    access("clc", major(54, 0), CAP_ACCESS),
    access("csc", major(62, 0), CAP_ACCESS),
    row("cgetbase", cap(0), &[G1, C2]),
    row("cgetlen", cap(1), &[G1, C2]),
    row("cgetoffset", cap(2), &[G1, C2]),
    row("cgetperm", cap(3), &[G1, C2]),
    row("cgettag", cap(4), &[G1, C2]),
    row("cgetsealed", cap(5), &[G1, C2]),
    row("cgettype", cap(6), &[G1, C2]),
    row("cgetpcc", cap(7), &[C1]),
    row("cgetcause", cap(8), &[G1]),
    row("csetcause", cap(9), &[G1]),
    row("candperm", cap(10), &[C1, C2, G3]),
    row("ccleartag", cap(11), &[C1, C2]),
    row("cincbase", cap(12), &[C1, C2, G3]),
    row("csetlen", cap(13), &[C1, C2, G3]),
    row("csetoffset", cap(14), &[C1, C2, G3]),
    row("cincoffset", cap(15), &[C1, C2, G3]),
    row("cfromptr", cap(16), &[C1, C2, G3]),
    row("ctoptr", cap(17), &[G1, C2, C3]),
    row("cseal", cap(18), &[C1, C2, C3]),
    row("cunseal", cap(19), &[C1, C2, C3]),
    row("ccheckperm", cap(20), &[C1, G2]),
    row("cchecktype", cap(21), &[C1, C2]),
    row("cjr", cap(22), &[C1]),
    row("cjalr", cap(23), &[C1, C2]),
    row("cbtu", cap(24), &[C1, TARGET]),
    row("cbts", cap(25), &[C1, TARGET]),
    row("ccall", cap(26), &[C1, C2]),
    row("creturn", cap(27), &[]),
    row("ceq", cap(28), &[G1, C2, C3]),
    row("cne", cap(28) + 1, &[G1, C2, C3]),
    row("clt", cap(28) + 2, &[G1, C2, C3]),
    row("cle", cap(28) + 3, &[G1, C2, C3]),
    row("cltu", cap(28) + 4, &[G1, C2, C3]),
    row("cleu", cap(28) + 5, &[G1, C2, C3]),
];

/// Other ways to write the same words: 004's short forms and pseudo-instructions.
#[rustfmt::skip]
pub const SHORT_FORMS: &[Format] = &[
    row("break", major(0, 0x0D), &[]),
    row("cmove", cap(12), &[C1, C2]),
    row("cgetdefault", cap(12), &[C1]),
    row("csetdefault", cap(12), &[C2]),
    access("clbur", major(50, 0), DATA_BY_REGISTER),
    access("clhur", major(50, 1), DATA_BY_REGISTER),
    access("clwur", major(50, 2), DATA_BY_REGISTER),
    access("cldr", major(50, 3), DATA_BY_REGISTER),
    access("clbr", major(50, 4), DATA_BY_REGISTER),
    access("clhr", major(50, 5), DATA_BY_REGISTER),
    access("clwr", major(50, 6), DATA_BY_REGISTER),
    access("csbr", major(58, 0), DATA_BY_REGISTER),
    access("cshr", major(58, 1), DATA_BY_REGISTER),
    access("cswr", major(58, 2), DATA_BY_REGISTER),
    access("csdr", major(58, 3), DATA_BY_REGISTER),
    access("clcr", major(54, 0), CAP_BY_REGISTER),
    access("cscr", major(62, 0), CAP_BY_REGISTER),
    access("clbui", major(50, 0), DATA_BY_OFFSET),
    access("clhui", major(50, 1), DATA_BY_OFFSET),
    access("clwui", major(50, 2), DATA_BY_OFFSET),
    access("cldi", major(50, 3), DATA_BY_OFFSET),
    access("clbi", major(50, 4), DATA_BY_OFFSET),
    access("clhi", major(50, 5), DATA_BY_OFFSET),
    access("clwi", major(50, 6), DATA_BY_OFFSET),
    access("csbi", major(58, 0), DATA_BY_OFFSET),
    access("cshi", major(58, 1), DATA_BY_OFFSET),
    access("cswi", major(58, 2), DATA_BY_OFFSET),
    access("csdi", major(58, 3), DATA_BY_OFFSET),
    access("clci", major(54, 0), CAP_BY_OFFSET),
    access("csci", major(62, 0), CAP_BY_OFFSET),
];

/// The row of this name with this many operands.
pub fn find(name: &str, operands: usize) -> Result<&'static Format, String> {
    let mut known = None;
    for format in FORMATS.iter().chain(SHORT_FORMS) {
        if format.name == name && format.fields.len() == operands {
            return Ok(format);
        }
        if format.name == name {
            known = Some(format.fields.len());
        }
    }
    match known {
        Some(wanted) => Err(format!("{name} takes {wanted} operands, not {operands}")),
        None => Err(format!("no instruction is called '{name}'")),
    }
}

/// The number put into its field, or why it does not fit.
pub fn put(field: &Field, number: i64) -> Result<u32, String> {
    let (least, greatest) = field.range();
    if number < least || number > greatest {
        return Err(format!("{number} is not from {least} to {greatest}"));
    }
    Ok(((number as u32) << field.shift) & field.mask())
}

/// The word of an instruction with its operands as numbers.
pub fn word(name: &str, numbers: &[i64]) -> Result<u32, String> {
    let format = find(name, numbers.len())?;
    let mut word = format.fixed;
    for (field, number) in format.fields.iter().zip(numbers) {
        word |= put(field, *number)?;
    }
    Ok(word)
}

/// The instruction that a word is, or none if the word is reserved.
pub fn format_of(word: u32) -> Option<&'static Format> {
    FORMATS.iter().find(|format| word & !format.mask() == format.fixed)
}
