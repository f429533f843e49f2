//! Where a step stands at the edge of a range: the last that passes, the first
//! that does not.

use super::Step;
use second::Cap;
use std::collections::BTreeSet;

/// Every edge that the cases must reach.
pub fn all() -> BTreeSet<&'static str> {
    BTreeSet::from([
        "access: ends at the length",
        "access: starts at 0",
        "access: up to 2^64",
        "access: wraps round",
        "access: one over",
        "access: one under",
        "access: no length",
        "amount: the whole length",
        "amount: one over",
        "amount: base becomes 0",
        "jump: ends at the length",
        "jump: one over",
        "branch: to the length",
        "branch: over the length",
        "branch: below 0",
        "seal: last of ct",
        "seal: one past ct",
        "seal: otype 2^24 - 1",
        "seal: otype 2^24",
        "fetch: last word",
        "fetch: one over",
    ])
}

/// The edges that this step stands at.
pub fn edges_of(step: &Step) -> Vec<&'static str> {
    let found = [access(step), amount(step), jump(step), branch(step), seal(step), fetch(step)];
    found.into_iter().flatten().collect()
}

fn good(step: &Step) -> bool {
    step.outcome.stop == 0
}

fn length_raised(step: &Step) -> bool {
    step.outcome.stop == 1 && step.outcome.cause == 1
}

/// The five bits of the word from a place up.
fn register(step: &Step, shift: u32) -> usize {
    (step.word >> shift & 31) as usize
}

fn cap_at<'a>(step: &Step<'a>, shift: u32) -> &'a Cap {
    &step.before.caps[register(step, shift)]
}

fn access(step: &Step) -> Option<&'static str> {
    let size: i128 = match step.name {
        "clbu" | "clb" | "csb" => 1,
        "clhu" | "clh" | "csh" => 2,
        "clwu" | "clw" | "csw" => 4,
        "cld" | "csd" => 8,
        _ => return None,
    };
    let cap = cap_at(step, 16);
    let index = step.before.general[register(step, 11)] as i64;
    let immediate = (step.word >> 3) as u8 as i8;
    let sum = i128::from(cap.offset) + i128::from(index) + i128::from(immediate);
    let length = i128::from(cap.length);
    match sum {
        _ if good(step) && sum + size == length => Some("access: ends at the length"),
        0 if good(step) => Some("access: starts at 0"),
        _ if good(step) && cap.top() == 1 << 64 => Some("access: up to 2^64"),
        _ if !length_raised(step) => None,
        _ if sum >= 1 << 64 => Some("access: wraps round"),
        _ if sum + size == length + 1 => Some("access: one over"),
        -1 => Some("access: one under"),
        _ if length == 0 => Some("access: no length"),
        _ => None,
    }
}

fn amount(step: &Step) -> Option<&'static str> {
    if !["cincbase", "csetlen", "cfromptr"].contains(&step.name) {
        return None;
    }
    let cap = cap_at(step, 11);
    let amount = step.before.general[register(step, 6)];
    let result = &step.outcome.machine.caps[register(step, 16)];
    if good(step) && step.name == "cincbase" && amount > 1 && result.base == 0 {
        return Some("amount: base becomes 0");
    }
    match amount.checked_sub(cap.length) {
        Some(0) if good(step) => Some("amount: the whole length"),
        Some(1) if length_raised(step) => Some("amount: one over"),
        _ => None,
    }
}

fn jump(step: &Step) -> Option<&'static str> {
    let cap = match step.name {
        "cjr" => cap_at(step, 16),
        "cjalr" => cap_at(step, 11),
        _ => return None,
    };
    let over = i128::from(cap.offset) + 4 - i128::from(cap.length);
    match over {
        0 if good(step) => Some("jump: ends at the length"),
        1 if length_raised(step) => Some("jump: one over"),
        _ => None,
    }
}

fn branch(step: &Step) -> Option<&'static str> {
    if step.name != "cbtu" && step.name != "cbts" {
        return None;
    }
    let count = i128::from(step.word as u16 as i16);
    let target = i128::from(step.before.pcc.offset) + 4 * count + 4;
    let over = target - i128::from(step.before.pcc.length);
    let taken = good(step) && step.outcome.machine.pending.is_some();
    match over {
        0 if taken => Some("branch: to the length"),
        1..=4 if length_raised(step) => Some("branch: over the length"),
        _ if taken && target < 0 => Some("branch: below 0"),
        _ => None,
    }
}

fn seal(step: &Step) -> Option<&'static str> {
    if step.name != "cseal" {
        return None;
    }
    let ct = cap_at(step, 6);
    match ct.exact_cursor() {
        0xFF_FFFF if good(step) => return Some("seal: otype 2^24 - 1"),
        0x100_0000 if length_raised(step) && ct.offset < ct.length => {
            return Some("seal: otype 2^24");
        }
        _ => {}
    }
    let past = i128::from(ct.offset) - i128::from(ct.length);
    match past {
        -1 if good(step) => Some("seal: last of ct"),
        0 if length_raised(step) => Some("seal: one past ct"),
        _ => None,
    }
}

fn fetch(step: &Step) -> Option<&'static str> {
    let pcc = &step.before.pcc;
    let over = i128::from(pcc.offset) + 4 - i128::from(pcc.length);
    match over {
        0 if good(step) => Some("fetch: last word"),
        1 if length_raised(step) && step.name == "fetch" => Some("fetch: one over"),
        _ => None,
    }
}
