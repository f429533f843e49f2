//! What each instruction can answer, from the pages of 004 and the scope paper.

/// One or more instructions with the same page.
pub struct Row {
    pub names: &'static [&'static str],
    /// Stops other than 1; 0 is success.
    pub stops: &'static [u32],
    /// Causes with stop 1, but for the access causes of capability operands.
    pub causes: &'static [u32],
    /// C27 to C31 as an operand can raise.
    pub access: bool,
}

pub const ACCESS_CAUSES: [u32; 5] = [0x1A, 0x1B, 0x1C, 0x1D, 0x1E];

const fn row(
    names: &'static [&'static str],
    stops: &'static [u32],
    causes: &'static [u32],
    access: bool,
) -> Row {
    Row { names, stops, causes, access }
}

const PLAIN: &[&str] = &[
    "nop", "daddu", "dsubu", "and", "or", "xor", "slt", "sltu", "dsllv", "dsrlv", "daddiu", "andi",
    "ori", "lui",
];
const GETS: &[&str] = &[
    "cgetbase",
    "cgetlen",
    "cgetoffset",
    "cgetperm",
    "cgettag",
    "cgetsealed",
    "cgettype",
    "cgetpcc",
    "ccleartag",
];
const COMPARES: &[&str] = &["ceq", "cne", "clt", "cle", "cltu", "cleu"];

/// Length 1, Tag 2, Seal 3, Type 4, Call 5, Return 6, User-defined 8, Global
/// 0x10, Execute 0x11, Load 0x12, Store 0x13, Load_Capability 0x14,
/// Store_Capability 0x15, Store_Local 0x16, Seal permission 0x17.
pub const ROWS: &[Row] = &[
    row(PLAIN, &[0], &[], false),
    row(&["break"], &[8], &[], false),
    row(&["beq", "bne"], &[0, 7], &[], false),
    row(&["lbu"], &[0, 5], &[1, 2, 3, 0x12], false),
    row(&["ld"], &[0, 2, 5], &[1, 2, 3, 0x12], false),
    row(&["sb"], &[0, 5, 6], &[1, 2, 3, 0x13], false),
    row(&["sd"], &[0, 3, 5, 6], &[1, 2, 3, 0x13], false),
    row(&["clbu", "clb"], &[0, 5], &[1, 2, 3, 0x12], true),
    row(&["clhu", "clh", "clwu", "clw", "cld"], &[0, 2, 5], &[1, 2, 3, 0x12], true),
    row(&["csb"], &[0, 5, 6], &[1, 2, 3, 0x13], true),
    row(&["csh", "csw", "csd"], &[0, 3, 5, 6], &[1, 2, 3, 0x13], true),
    row(&["clc"], &[0, 2, 5], &[1, 2, 3, 0x14], true),
    row(&["csc"], &[0, 3, 5, 6], &[1, 2, 3, 0x15, 0x16], true),
    row(GETS, &[0], &[], true),
    row(&["cgetcause", "csetcause"], &[0], &[0x1A], false),
    row(&["candperm"], &[0], &[2, 3], true),
    row(&["cincbase", "csetlen", "cfromptr"], &[0], &[1, 2, 3], true),
    row(&["csetoffset", "cincoffset"], &[0], &[3], true),
    row(&["ctoptr"], &[0], &[2], true),
    row(&["cseal"], &[0], &[1, 2, 3, 0x17], true),
    row(&["cunseal"], &[0], &[1, 2, 3, 4, 0x17], true),
    row(&["ccheckperm"], &[0], &[2, 8], true),
    row(&["cchecktype"], &[0], &[2, 3, 4], true),
    row(&["cjr", "cjalr"], &[0, 2, 7], &[1, 2, 3, 0x10, 0x11], true),
    row(&["cbtu", "cbts"], &[0, 7], &[1], true),
    row(&["ccall"], &[], &[5], false),
    row(&["creturn"], &[], &[6], false),
    row(COMPARES, &[0], &[], true),
    // Not instructions: the fetch itself, a reserved word, and a branch or jump
    // in a slot with unused fields that are not zero.
    row(&["fetch"], &[2, 5], &[1, 2, 3, 0x11], false),
    row(&["reserved"], &[4, 7], &[], false),
];
