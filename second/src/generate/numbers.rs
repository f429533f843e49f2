//! Numbers and capabilities near the places where rules change.

use crate::random::Random;
use crate::{Cap, OTYPE_MASK, PERMS_MASK, RAM_BASE};

/// Sums and tests turn at these numbers.
const EDGES: &[u64] = &[
    0,
    1,
    2,
    3,
    4,
    7,
    8,
    16,
    31,
    32,
    33,
    63,
    64,
    65,
    127,
    128,
    255,
    256,
    32_767,
    32_768,
    65_535,
    65_536,
    (1 << 24) - 1,
    1 << 24,
    (1 << 24) + 1,
    (1 << 31) - 1,
    1 << 31,
    (1 << 32) - 1,
    1 << 32,
    (1 << 63) - 1,
    1 << 63,
    (1 << 63) + 1,
    RAM_BASE - 8,
    RAM_BASE,
    RAM_BASE + 8,
    RAM_BASE + 32,
    0u64.wrapping_sub(64),
    0u64.wrapping_sub(32),
    0u64.wrapping_sub(8),
    0u64.wrapping_sub(4),
    0u64.wrapping_sub(2),
    0u64.wrapping_sub(1),
];

/// An edge, a number near one, or a number of any size.
pub fn edge(random: &mut Random) -> u64 {
    match random.below(5) {
        0 | 1 => *random.pick(EDGES),
        2 => random.pick(EDGES).wrapping_add(random.below(5)).wrapping_sub(2),
        3 => random.below(300),
        _ => random.next() >> random.below(64),
    }
}

/// Any bits of a permission field, often all or none.
pub fn permissions(random: &mut Random) -> u32 {
    match random.below(4) {
        0 => PERMS_MASK,
        1 => 0,
        _ => random.next() as u32 & PERMS_MASK,
    }
}

pub fn otype(random: &mut Random) -> u32 {
    match random.below(4) {
        0 => 0,
        1 => OTYPE_MASK,
        _ => random.next() as u32 & OTYPE_MASK,
    }
}

/// The longest length that stays below 2^64, up to the widest number.
pub fn longest(base: u64) -> u64 {
    let room = (1u128 << 64) - u128::from(base);
    room.min(u128::from(u64::MAX)) as u64
}

/// A length from 0 to the longest, often exactly one of them.
pub fn legal_length(random: &mut Random, base: u64) -> u64 {
    match random.below(4) {
        0 => longest(base),
        1 => longest(base) - random.below(9).min(longest(base)),
        _ => edge(random).min(longest(base)),
    }
}

/// A tagged or untagged capability that no test refuses.
pub fn any_cap(random: &mut Random) -> Cap {
    let base = edge(random);
    let tag = !random.chance(3);
    let length = if tag { legal_length(random, base) } else { edge(random) };
    Cap {
        tag,
        sealed: random.chance(3),
        perms: permissions(random),
        otype: otype(random),
        spare: random.next() as u8,
        base,
        length,
        offset: edge(random),
    }
}

/// A tagged, unsealed capability that no test refuses.
pub fn open_cap(random: &mut Random) -> Cap {
    let mut cap = any_cap(random);
    cap.tag = true;
    cap.sealed = false;
    cap.length = cap.length.min(longest(cap.base));
    cap
}

/// A capability of all of a memory's bytes.
pub fn memory_cap(base: u64, length: usize, perms: u32) -> Cap {
    Cap { tag: true, perms, base, length: length as u64, ..Cap::default() }
}
