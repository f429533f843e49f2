//! The machine's registers and what a run answers.

use crate::cap::*;
use crate::cause::*;

#[derive(Clone, PartialEq, Eq, Debug, Default)]
pub struct Machine {
    pub general: [u64; 32],
    pub caps: [Cap; 32],
    pub pcc: Cap,
    pub pending: Option<Cap>,
    pub cause: u16,
}

#[derive(Clone, PartialEq, Eq, Debug, Default)]
pub struct Outcome {
    pub stop: u32,
    pub cause: u32,
    pub register: u32,
    pub place: u64,
    pub steps: u32,
    pub machine: Machine,
}

impl Machine {
    pub fn general(&self, register: u8) -> u64 {
        self.general[usize::from(register)]
    }

    /// A write to general register 0 vanishes (ruling A20).
    pub fn set_general(&mut self, register: u8, value: u64) {
        if register != 0 {
            self.general[usize::from(register)] = value;
        }
    }

    pub fn cap(&self, register: u8) -> &Cap {
        &self.caps[usize::from(register)]
    }

    pub fn set_cap(&mut self, register: u8, cap: Cap) {
        self.caps[usize::from(register)] = cap;
    }

    /// Every capability the machine holds: C0 to C31, PCC, then the pending jump.
    pub fn all_caps(&self) -> impl Iterator<Item = &Cap> {
        self.caps.iter().chain([&self.pcc]).chain(&self.pending)
    }

    /// 004's register_inaccessible with its exception.
    pub fn need_access(&self, register: u8) -> Result<(), Fault> {
        let (permission, cause) = match register {
            27 => (ACCESS_KR1C, CAUSE_ACCESS_KR1C),
            28 => (ACCESS_KR2C, CAUSE_ACCESS_KR2C),
            29 => (ACCESS_KCC, CAUSE_ACCESS_KCC),
            30 => (ACCESS_KDC, CAUSE_ACCESS_KDC),
            31 => (ACCESS_EPCC, CAUSE_ACCESS_EPCC),
            _ => return Ok(()),
        };
        if self.pcc.has(permission) {
            return Ok(());
        }
        Err(Fault::capability(cause, register))
    }

    /// Raises Tag unless the register's tag is set.
    pub fn need_tag(&self, register: u8) -> Result<(), Fault> {
        need(self.cap(register).tag, CAUSE_TAG, register)
    }

    /// Raises Seal unless the register's sealed bit is clear.
    pub fn need_unsealed(&self, register: u8) -> Result<(), Fault> {
        need(!self.cap(register).sealed, CAUSE_SEAL, register)
    }
}

/// Raises the cause with the register unless the condition holds.
pub fn need(holds: bool, cause: u32, register: u8) -> Result<(), Fault> {
    if holds {
        return Ok(());
    }
    Err(Fault::capability(cause, register))
}
