//! The stage on which a run is built: memories, a PCC over some code, operands.

use super::numbers::{any_cap, edge, longest, otype, permissions};
use super::RunCase;
use crate::bench::BENCH_RAM;
use crate::random::Random;
use crate::{Cap, ACCESS_EPCC, ACCESS_KR2C, LINE, PERMIT_EXECUTE, RAM_BASE};

const SMALL_SIZES: &[usize] = &[32, 64, 96, 256, 1024];
const BREAK: u32 = 0x0000_000D;

/// The bits that open C27 to C31.
pub const ACCESS_BITS: u32 = (1 << (ACCESS_KR2C + 1)) - (1 << ACCESS_EPCC);

/// What a run is made for.
#[derive(Clone, Copy, PartialEq, Eq, Debug)]
pub enum Setting {
    /// Memories of any size, and a jump may be handed in.
    Free,
    /// The bench's RAM and nothing pending, as a book can say it.
    Bench,
}

/// A run with memories that hold something, and no code yet.
pub fn empty_stage(random: &mut Random, setting: Setting) -> RunCase {
    let flash_length = memory_length(random);
    let ram_length = match setting {
        Setting::Free => memory_length(random),
        Setting::Bench => BENCH_RAM,
    };
    let mut run = RunCase {
        flash: vec![0; flash_length],
        ram: vec![0; ram_length],
        tags: vec![0; ram_length / 32],
        budget: 1,
        ..RunCase::default()
    };
    for _ in 0..random.below(4) {
        let line = random.below(run.tags.len() as u64) as usize;
        put_line(&mut run, line, &any_cap(random));
    }
    for _ in 0..random.below(8) {
        let number = 1 + random.below(31) as usize;
        run.machine.general[number] = edge(random);
        run.machine.caps[random.below(32) as usize] = any_cap(random);
    }
    run.machine.cause = if random.chance(2) { random.next() as u16 } else { 0 };
    run
}

fn memory_length(random: &mut Random) -> usize {
    match random.below(40) {
        0 => 65_536,
        1 => 32_768,
        _ => *random.pick(SMALL_SIZES),
    }
}

/// Puts a capability with its tag into a line of RAM.
pub fn put_line(run: &mut RunCase, line: usize, cap: &Cap) {
    run.ram[line * 32..line * 32 + 32].copy_from_slice(&cap.to_bytes());
    run.tags[line] = u8::from(cap.tag);
}

/// Puts words at an address that lies in flash or RAM.
pub fn put_words(run: &mut RunCase, address: u64, words: &[u32]) {
    let in_ram = address >= RAM_BASE;
    let start = if in_ram { address - RAM_BASE } else { address } as usize;
    let memory = if in_ram { &mut run.ram } else { &mut run.flash };
    for (index, word) in words.iter().enumerate() {
        let place = start + 4 * index;
        if let Some(part) = memory.get_mut(place..place + 4) {
            part.copy_from_slice(&word.to_be_bytes());
        }
    }
}

/// An address for code of this many words, mostly in flash.
pub fn code_address(random: &mut Random, run: &RunCase, words: usize) -> u64 {
    let in_ram = random.chance(4);
    let (start, length) = if in_ram { (RAM_BASE, run.ram.len()) } else { (0, run.flash.len()) };
    let room = (length as u64).saturating_sub(4 * words as u64) / 4;
    match random.below(4) {
        0 => start,
        1 => start + 4 * room,
        _ => start + 4 * random.below(room + 1),
    }
}

/// A PCC whose PC stands at an address and which covers this many words there.
pub fn code_cap(random: &mut Random, address: u64, words: usize) -> Cap {
    let start = if address >= RAM_BASE { RAM_BASE } else { 0 };
    let base = match random.below(4) {
        0 => address,
        1 => start,
        2 => 0,
        _ => address - random.below(address.min(64) + 1),
    };
    let offset = address - base;
    let least = offset.saturating_add(4 * words as u64);
    let more = match random.below(4) {
        0 => 0,
        1 => random.below(5),
        2 => u64::MAX,
        _ => random.below(4096),
    };
    let length = least.saturating_add(more).min(longest(base));
    let mut perms = permissions(random) | 1 << PERMIT_EXECUTE;
    if !random.chance(4) {
        perms |= ACCESS_BITS;
    }
    let spare = random.next() as u8;
    let otype = otype(random);
    Cap { tag: true, sealed: false, perms, otype, spare, base, length, offset }
}

/// Sets a general register; register 0 stays 0.
pub fn set_general(run: &mut RunCase, register: usize, value: u64) {
    if register != 0 {
        run.machine.general[register] = value;
    }
}

/// Words to follow the one in focus; the first is most often BREAK.
pub fn words_after(random: &mut Random) -> Vec<u32> {
    match random.below(4) {
        0 => vec![0, BREAK],
        1 => vec![],
        _ => vec![BREAK],
    }
}

/// The address one past the RAM, as addresses count.
pub fn ram_end(run: &RunCase) -> u64 {
    RAM_BASE + run.ram.len() as u64
}

pub fn line_of(address: u64) -> usize {
    ((address - RAM_BASE) / LINE) as usize
}

/// A tagged line must not reach past 2^64, or the whole run is refused.
pub fn untag_illegal_lines(run: &mut RunCase) {
    for line in 0..run.tags.len() {
        if run.tags[line] == 1 && line_cap(run, line).tagged_past_end() {
            run.tags[line] = 0;
        }
    }
}

/// The capability that a line of RAM holds.
pub fn line_cap(run: &RunCase, line: usize) -> Cap {
    let mut bytes = [0; 32];
    bytes.copy_from_slice(&run.ram[line * 32..line * 32 + 32]);
    Cap::from_bytes(&bytes, run.tags[line] == 1)
}
