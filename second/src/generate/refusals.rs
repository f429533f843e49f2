//! Machines and memories that are refused before any step, and some that just pass.

use super::numbers::{any_cap, edge, longest};
use super::stage::{code_address, code_cap, empty_stage, put_line, put_words, Setting};
use super::RunCase;
use crate::random::Random;
use crate::{Cap, Machine, OTYPE_MASK, PERMS_MASK};

#[derive(Clone, Copy, PartialEq, Eq, Debug)]
pub enum Refusal {
    /// 20
    Size,
    /// 21
    TagByte,
    /// 22
    PastEnd,
    /// 24
    Width,
}

/// Up to two refusals at once.
pub type Pair = (Option<Refusal>, Option<Refusal>);

pub fn pairs() -> Vec<Pair> {
    use Refusal::*;
    let all = [Some(PastEnd), Some(Width), Some(TagByte), Some(Size)];
    let mut pairs = vec![(None, None), (None, None)];
    for (index, first) in all.iter().enumerate() {
        pairs.push((*first, None));
        // Size comes last, as it may leave the other no line to stand on.
        pairs.extend(all[index + 1..].iter().map(|second| (*first, *second)));
    }
    pairs
}

pub fn refused(random: &mut Random, pair: Pair) -> RunCase {
    let mut run = empty_stage(random, Setting::Free);
    let address = code_address(random, &run, 2);
    run.machine.pcc = code_cap(random, address, 1);
    put_words(&mut run, address, &[0, 0]);
    super::stage::untag_illegal_lines(&mut run);
    just_legal(random, &mut run);
    for refusal in [pair.0, pair.1].into_iter().flatten() {
        match refusal {
            Refusal::Size => wrong_size(random, &mut run),
            Refusal::TagByte => wrong_tag_byte(random, &mut run.tags),
            Refusal::PastEnd => past_end(random, &mut run),
            Refusal::Width => past_width(random, &mut run.machine),
        }
    }
    run.budget = *random.pick(&[0, 1, 2, 5]);
    run
}

/// Fields at their last legal value.
fn just_legal(random: &mut Random, run: &mut RunCase) {
    let base = edge(random).max(1);
    let top = Cap { tag: true, base, length: longest(base), ..any_cap(random) };
    let full = Cap { otype: OTYPE_MASK, perms: PERMS_MASK, ..any_cap(random) };
    let untagged = Cap { tag: false, base: u64::MAX, length: u64::MAX, ..any_cap(random) };
    for cap in [top, full, untagged] {
        run.machine.caps[random.below(32) as usize] = cap;
    }
    if random.chance(3) {
        run.machine.pending = Some(*random.pick(&[top, full, untagged]));
    }
}

fn wrong_size(random: &mut Random, run: &mut RunCase) {
    match random.below(10) {
        0 => run.flash.push(0),
        1 => run.flash.resize(65_568, 0),
        2 => run.flash.truncate(16),
        3 => wrong_ram_size(random, &mut run.ram, &mut run.tags),
        4 => run.ram.push(0),
        _ => wrong_ram_size(random, &mut run.ram, &mut run.tags),
    }
}

/// RAM or tags of a wrong length, for runs and for books.
pub fn wrong_ram_size(random: &mut Random, ram: &mut Vec<u8>, tags: &mut Vec<u8>) {
    match random.below(7) {
        0 => {
            ram.resize(65_568, 0);
            tags.resize(65_568 / 32, 0);
        }
        1 => ram.push(0),
        2 => ram.truncate(ram.len().saturating_sub(1)),
        3 => ram.resize(ram.len() + 32, 0),
        4 => tags.truncate(tags.len().saturating_sub(1)),
        5 => tags.clear(),
        _ => tags.push(0),
    }
    // An empty RAM cannot be cut shorter.
    if ram.len() % 32 == 0 && ram.len() / 32 == tags.len() && ram.len() <= 65_536 {
        tags.push(0);
    }
}

pub fn wrong_tag_byte(random: &mut Random, tags: &mut [u8]) {
    let line = random.below(tags.len() as u64) as usize;
    if let Some(tag) = tags.get_mut(line) {
        *tag = *random.pick(&[2, 3, 128, 254, 255]);
    }
}

/// Tagged and one byte, or much, past 2^64.
pub fn past_end_cap(random: &mut Random) -> Cap {
    let base = edge(random).max(2);
    let more = if random.chance(2) { 1 } else { edge(random).max(1) };
    let over = longest(base).saturating_add(more);
    Cap { tag: true, base, length: over, ..any_cap(random) }
}

fn past_end(random: &mut Random, run: &mut RunCase) {
    let cap = past_end_cap(random);
    match random.below(4) {
        0 => run.machine.pcc = cap,
        1 => run.machine.pending = Some(cap),
        2 if !run.tags.is_empty() => {
            let line = random.below(run.tags.len() as u64) as usize;
            put_line(run, line, &cap);
        }
        _ => run.machine.caps[random.below(32) as usize] = cap,
    }
}

/// A field past its width, tagged or not, or general register 0 not zero.
pub fn past_width(random: &mut Random, machine: &mut Machine) {
    let mut cap = any_cap(random);
    if random.chance(2) {
        cap.otype = *random.pick(&[OTYPE_MASK + 1, u32::MAX, OTYPE_MASK + 1 + cap.otype]);
    } else {
        cap.perms |= PERMS_MASK + 1;
    }
    match random.below(5) {
        0 => machine.general[0] = edge(random).max(1),
        1 => machine.pcc = cap,
        2 => machine.pending = Some(cap),
        _ => machine.caps[random.below(32) as usize] = cap,
    }
}
