//! The refusals that a start deserves, found one by one.

use second::{Cap, Machine};
use std::collections::BTreeSet;

/// 20: a length of flash, RAM or tags that is no size.
pub fn wrong_sizes(flash: usize, ram: usize, tags: usize) -> bool {
    let wrong = |length: usize| length % 32 != 0 || length > 65_536;
    wrong(flash) || wrong(ram) || tags != ram / 32
}

/// 22: tagged, and its end above 2^64.
pub fn past_end(cap: &Cap) -> bool {
    cap.tag && u128::from(cap.base) + u128::from(cap.length) > 1 << 64
}

/// 20, 21, 22 and 24 of a machine and its memories.
pub fn by_a_start(machine: &Machine, flash: usize, ram: &[u8], tags: &[u8]) -> BTreeSet<u32> {
    let mut caps: Vec<Cap> = machine.caps.to_vec();
    caps.push(machine.pcc);
    caps.extend(machine.pending);
    let wide = caps.iter().any(|cap| cap.otype >> 24 != 0 || cap.perms >> 31 != 0);
    for (line, tag) in ram.chunks_exact(32).zip(tags) {
        let bytes: [u8; 32] = line.try_into().expect("a line has 32 bytes");
        caps.push(Cap::from_bytes(&bytes, *tag == 1));
    }
    let found = [
        (20, wrong_sizes(flash, ram.len(), tags.len())),
        (21, tags.iter().any(|tag| *tag > 1)),
        (22, caps.iter().any(past_end)),
        (24, wide || machine.general[0] != 0),
    ];
    found.into_iter().filter(|(_, holds)| *holds).map(|(number, _)| number).collect()
}
