//! The reach of a machine: what its capabilities lead to.

use crate::cap::*;
use crate::machine::Machine;
use crate::memory::{line_bytes, LINE, RAM_BASE};

#[derive(Clone, PartialEq, Eq, Debug, Default)]
pub struct Reach {
    pub members: Vec<Cap>,
}

/// The smallest set with the tagged registers and every line a member leads to.
pub fn reach(machine: &Machine, ram: &[u8], tags: &[u8]) -> Reach {
    let mut reach = Reach::default();
    for cap in machine.all_caps().filter(|cap| cap.tag) {
        reach.add(*cap);
    }
    let lines = tags.len().min(ram.len() / LINE as usize);
    let mut followed = vec![false; lines];
    let mut next = 0;
    // Members are added at the end, so the walk stops when no new line is found.
    while next < reach.members.len() {
        let member = reach.members[next];
        for line in 0..lines {
            if !followed[line] && tags[line] == 1 && leads_to(&member, line) {
                followed[line] = true;
                reach.add(Cap::from_bytes(&line_bytes(ram, line), true));
            }
        }
        next += 1;
    }
    reach
}

/// Sealed members lead on as others do (ruling D2).
fn leads_to(member: &Cap, line: usize) -> bool {
    member.has(PERMIT_LOAD_CAPABILITY) && member.covers(RAM_BASE + LINE * line as u64, LINE)
}

impl Reach {
    /// It is a set: a member is kept once.
    fn add(&mut self, cap: Cap) {
        if !self.members.contains(&cap) {
            self.members.push(cap);
        }
    }

    /// Load, Load_Capability and Execute read, Store alone does not (ruling D2).
    pub fn can_read(&self, address: u64) -> bool {
        self.members.iter().any(|member| reads(member) && member.covers(address, 1))
    }

    /// A member with Load_Capability covers the whole line (ruling D1).
    pub fn can_load_tag(&self, line_address: u64) -> bool {
        let mut members = self.members.iter();
        members.any(|cap| cap.has(PERMIT_LOAD_CAPABILITY) && cap.covers(line_address, LINE))
    }
}

fn reads(member: &Cap) -> bool {
    member.has(PERMIT_LOAD) || member.has(PERMIT_LOAD_CAPABILITY) || member.has(PERMIT_EXECUTE)
}
