//! Cause codes (004 table 3.3), stop numbers and refusal numbers (01).

pub const CAUSE_LENGTH: u32 = 0x01;
pub const CAUSE_TAG: u32 = 0x02;
pub const CAUSE_SEAL: u32 = 0x03;
pub const CAUSE_TYPE: u32 = 0x04;
pub const CAUSE_CALL: u32 = 0x05;
pub const CAUSE_RETURN: u32 = 0x06;
pub const CAUSE_USER_DEFINED: u32 = 0x08;
pub const CAUSE_GLOBAL: u32 = 0x10;
pub const CAUSE_PERMIT_EXECUTE: u32 = 0x11;
pub const CAUSE_PERMIT_LOAD: u32 = 0x12;
pub const CAUSE_PERMIT_STORE: u32 = 0x13;
pub const CAUSE_PERMIT_LOAD_CAPABILITY: u32 = 0x14;
pub const CAUSE_PERMIT_STORE_CAPABILITY: u32 = 0x15;
pub const CAUSE_PERMIT_STORE_LOCAL_CAPABILITY: u32 = 0x16;
pub const CAUSE_PERMIT_SEAL: u32 = 0x17;
pub const CAUSE_ACCESS_EPCC: u32 = 0x1A;
pub const CAUSE_ACCESS_KDC: u32 = 0x1B;
pub const CAUSE_ACCESS_KCC: u32 = 0x1C;
pub const CAUSE_ACCESS_KR1C: u32 = 0x1D;
pub const CAUSE_ACCESS_KR2C: u32 = 0x1E;

/// Reported by an exception that names no register, or PCC.
pub const NO_REGISTER: u32 = 255;

pub const STOP_DONE: u32 = 0;
pub const STOP_CAPABILITY: u32 = 1;
pub const STOP_LOAD_MISALIGNED: u32 = 2;
pub const STOP_STORE_MISALIGNED: u32 = 3;
pub const STOP_RESERVED: u32 = 4;
pub const STOP_NO_MEMORY: u32 = 5;
pub const STOP_STORE_INTO_FLASH: u32 = 6;
pub const STOP_JUMP_IN_SLOT: u32 = 7;
pub const STOP_BREAK: u32 = 8;

pub const REFUSE_SIZE: u32 = 20;
pub const REFUSE_TAG_BYTE: u32 = 21;
pub const REFUSE_RANGE: u32 = 22;
pub const REFUSE_MACHINE_FIELD: u32 = 24;
pub const REFUSE_VERSION: u32 = 30;
pub const REFUSE_CUT: u32 = 31;
pub const REFUSE_KIND: u32 = 32;
pub const REFUSE_ORDER: u32 = 33;
pub const REFUSE_FIELD: u32 = 34;
pub const REFUSE_STATE: u32 = 35;
pub const REFUSE_SPACE: u32 = 36;

/// Why a step was not made.
#[derive(Clone, Copy, PartialEq, Eq, Debug)]
pub enum Fault {
    Capability { cause: u32, register: u32 },
    LoadMisaligned,
    StoreMisaligned,
    Reserved,
    NoMemory,
    StoreIntoFlash,
    JumpInSlot,
    Break,
}

impl Fault {
    /// A capability exception that names this capability register.
    pub fn capability(cause: u32, register: u8) -> Fault {
        let register = u32::from(register);
        Fault::Capability { cause, register }
    }

    /// A capability exception that names no register, or PCC.
    pub fn no_register(cause: u32) -> Fault {
        let register = NO_REGISTER;
        Fault::Capability { cause, register }
    }

    /// The number in 01's table of stops.
    pub fn stop(&self) -> u32 {
        match self {
            Fault::Capability { .. } => STOP_CAPABILITY,
            Fault::LoadMisaligned => STOP_LOAD_MISALIGNED,
            Fault::StoreMisaligned => STOP_STORE_MISALIGNED,
            Fault::Reserved => STOP_RESERVED,
            Fault::NoMemory => STOP_NO_MEMORY,
            Fault::StoreIntoFlash => STOP_STORE_INTO_FLASH,
            Fault::JumpInSlot => STOP_JUMP_IN_SLOT,
            Fault::Break => STOP_BREAK,
        }
    }
}
