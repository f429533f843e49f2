//! Operands for every instruction that is no load or store.

use super::access::{base_below, covering_length, outside_address};
use super::numbers::{any_cap, edge, legal_length, longest, open_cap, permissions};
use super::operands::Operands;
use super::stage::set_general;
use super::wanted::Fault;
use super::RunCase;
use crate::asm::encode::Kind;
use crate::random::Random;
use crate::{Cap, GLOBAL, OTYPE_MASK, PERMIT_EXECUTE, PERMIT_SEAL, RAM_BASE};

/// Any contents for every register that the instruction names.
pub fn fill_operands(random: &mut Random, run: &mut RunCase, operands: &Operands) {
    for (field, number) in operands.format.fields.iter().zip(&operands.numbers) {
        match field.kind {
            Kind::General => set_general(run, *number as usize, edge(random)),
            Kind::Capability => run.machine.caps[*number as usize] = any_cap(random),
            _ => {}
        }
    }
}

/// Sets the operands so that the instruction meets the faults, or none. Its own
/// PC is `place`.
pub fn prepare(
    random: &mut Random,
    run: &mut RunCase,
    operands: &mut Operands,
    faults: &[Fault],
    place: u64,
) {
    match operands.format.name {
        "beq" | "bne" => branch(random, run, operands),
        "cbtu" | "cbts" => tag_branch(random, run, operands, faults, place),
        "candperm" => run.machine.caps[operands.capability(1)] = open_cap(random),
        "cincbase" | "csetlen" | "cfromptr" => shrink(random, run, operands, faults),
        "csetoffset" | "cincoffset" => move_offset(random, run, operands, faults),
        "cseal" | "cunseal" => seal(random, run, operands, faults),
        "ccheckperm" => check_permissions(random, run, operands, faults),
        "cchecktype" => check_type(random, run, operands, faults),
        "cjr" | "cjalr" => jump(random, run, operands, faults),
        "ctoptr" => {
            run.machine.caps[operands.capability(0)].tag = random.chance(2);
            run.machine.caps[operands.capability(1)].tag = true;
        }
        "ceq" | "cne" | "clt" | "cle" | "cltu" | "cleu" => compare(random, run, operands),
        _ => {}
    }
    make_legal(run);
}

/// A tagged register must not reach past 2^64.
fn make_legal(run: &mut RunCase) {
    for cap in &mut run.machine.caps {
        if cap.tagged_past_end() {
            cap.length = longest(cap.base);
        }
    }
}

fn near_count(random: &mut Random) -> i64 {
    *random.pick(&[-3, -2, -1, 0, 1, 2, 3, 5, -32_768, 32_767])
}

fn branch(random: &mut Random, run: &mut RunCase, operands: &mut Operands) {
    if random.chance(2) {
        let first = run.machine.general[operands.numbers[0] as usize];
        set_general(run, operands.numbers[1] as usize, first);
    }
    if !random.chance(4) {
        operands.set_immediate(near_count(random));
    }
}

fn tag_branch(
    random: &mut Random,
    run: &mut RunCase,
    operands: &mut Operands,
    faults: &[Fault],
    place: u64,
) {
    let taken_tag = operands.format.name == "cbts";
    let cap = &mut run.machine.caps[operands.capability(0)];
    cap.tag = if random.chance(4) { !taken_tag } else { taken_tag };
    // The last place that a branch may go to is the length itself.
    if random.chance(2) {
        run.machine.pcc.length = place + 4 + 4 * random.below(8);
    }
    let room = run.machine.pcc.length.saturating_sub(place.saturating_add(4)) / 4;
    let last = room.min(32_767) as i64;
    let count = match random.below(3) {
        0 => last,
        1 => near_count(random).min(last),
        _ => -(random.below(20) as i64),
    };
    operands.set_immediate(count);
    if faults.contains(&Fault::Length) {
        cap.tag = taken_tag;
        let room = random.below(40);
        run.machine.pcc.length = place + 4 + room;
        let over = *random.pick(&[1, 1, 2, 3, 1000]);
        operands.set_immediate(room as i64 / 4 + over);
    }
}

/// CIncBase, CSetLen and CFromPtr: rt against the length.
fn shrink(random: &mut Random, run: &mut RunCase, operands: &Operands, faults: &[Fault]) {
    let mut cb = open_cap(random);
    if random.chance(2) {
        cb.length = longest(cb.base);
    }
    let mut amount = match random.below(7) {
        0 | 1 => cb.length,
        2 => cb.length.saturating_sub(1),
        3 | 4 => 0,
        5 => random.below(9).min(cb.length),
        _ => edge(random).min(cb.length),
    };
    if faults.contains(&Fault::Length) {
        cb.length = cb.length.min(u64::MAX - 1);
        let room = u64::MAX - cb.length;
        let more = if random.chance(2) { 0 } else { edge(random) };
        amount = cb.length + 1 + more.min(room - 1);
    } else if amount == 0 && !faults.is_empty() {
        // Tag and Seal need an amount other than 0.
        amount = 1;
        cb.length = cb.length.max(1);
    } else if amount == 0 && operands.format.name != "csetlen" {
        // An amount of 0 moves anything, or gives zero.
        cb = any_cap(random);
    }
    run.machine.caps[operands.capability(1)] = cb;
    set_general(run, operands.general(), amount);
}

fn move_offset(random: &mut Random, run: &mut RunCase, operands: &Operands, faults: &[Fault]) {
    let mut cb = any_cap(random);
    // A sealed register may be moved on while it is untagged.
    cb.tag &= random.chance(2);
    if cb.tag || !faults.is_empty() {
        cb = open_cap(random);
    }
    run.machine.caps[operands.capability(1)] = cb;
}

/// CSeal and CUnseal: ct's cursor is the otype.
fn seal(random: &mut Random, run: &mut RunCase, operands: &Operands, faults: &[Fault]) {
    let unseal = operands.format.name == "cunseal";
    let mut cs = open_cap(random);
    let mut ct = open_cap(random);
    let any = random.next() as u32 & OTYPE_MASK;
    let cursor = *random.pick(&[0, OTYPE_MASK, OTYPE_MASK, OTYPE_MASK - 1, any]);
    cs.otype = if unseal { cursor } else { cs.otype };
    cs.sealed = unseal;
    if random.chance(2) {
        // CUnseal must then take Global away.
        cs.perms |= 1 << GLOBAL;
        ct.perms &= !(1 << GLOBAL);
    }
    let cursor = u64::from(cursor);
    ct.perms |= 1 << PERMIT_SEAL;
    let below = random.below(cursor + 1);
    ct.base = *random.pick(&[0, cursor, below]);
    ct.offset = cursor - ct.base;
    ct.length = ct.offset + *random.pick(&[1, 1, 2, 1 << 24]);
    if faults.contains(&Fault::Type) {
        wrong_type(random, &mut cs, &mut ct);
    }
    if faults.contains(&Fault::Length) {
        out_of_types(random, &mut ct, unseal);
    }
    run.machine.caps[operands.capability(1)] = cs;
    run.machine.caps[operands.capability(2)] = ct;
}

/// ct's offset is past its length or, for CSeal, its cursor is no otype.
fn out_of_types(random: &mut Random, ct: &mut Cap, unseal: bool) {
    if unseal || random.chance(3) {
        ct.length = *random.pick(&[0, ct.offset, ct.offset / 2]);
        return;
    }
    let below = random.below(3);
    ct.base = (1 << 24) - below;
    ct.offset = *random.pick(&[below, below, below, below + 1, longest(ct.base) - 1]);
    ct.length = longest(ct.base);
}

/// ct's cursor is not cs's otype: by a bit, by 2^24, or by a sum of 2^64.
fn wrong_type(random: &mut Random, cs: &mut Cap, ct: &mut Cap) {
    match random.below(3) {
        0 => cs.otype ^= 1 << random.below(24),
        1 => ct.base += 1 << 24,
        _ => {
            ct.base = u64::from(cs.otype) + 1 + random.below(100);
            ct.offset = u64::from(cs.otype).wrapping_sub(ct.base);
            ct.length = legal_length(random, ct.base);
        }
    }
}

fn check_permissions(
    random: &mut Random,
    run: &mut RunCase,
    operands: &Operands,
    faults: &[Fault],
) {
    let mut cs = any_cap(random);
    cs.tag = true;
    let any = random.next();
    let mut wanted = u64::from(cs.perms) & *random.pick(&[0, u64::MAX, any]);
    if faults.contains(&Fault::UserDefined) {
        let any = random.below(64);
        let bit = *random.pick(&[0, 1, 15, 30, 31, 32, 63, any]);
        wanted |= 1 << bit;
        cs.perms &= !(1u64 << bit) as u32;
    }
    run.machine.caps[operands.capability(0)] = cs;
    set_general(run, operands.general(), wanted);
}

fn check_type(random: &mut Random, run: &mut RunCase, operands: &Operands, faults: &[Fault]) {
    let mut cs = open_cap(random);
    let mut cb = open_cap(random);
    cs.sealed = true;
    cb.sealed = true;
    cb.otype = cs.otype;
    if faults.contains(&Fault::Type) {
        cb.otype ^= 1 << random.below(24);
    }
    run.machine.caps[operands.capability(0)] = cs;
    run.machine.caps[operands.capability(1)] = cb;
}

/// CJR and CJALR: a target in either memory or in neither.
fn jump(random: &mut Random, run: &mut RunCase, operands: &Operands, faults: &[Fault]) {
    let mut target = match random.below(6) {
        0 => outside_address(random, run, 4),
        1 | 2 => RAM_BASE + 4 * random.below(run.ram.len() as u64 / 4),
        _ => 4 * random.below(run.flash.len() as u64 / 4),
    };
    if faults.contains(&Fault::Misaligned) {
        // Downwards, so that the target stays below 2^64.
        target = target.max(4) - 1 - random.below(3);
    }
    let mut cb = open_cap(random);
    cb.perms = permissions(random) | 1 << PERMIT_EXECUTE | 1 << GLOBAL;
    cb.base = base_below(random, target);
    cb.offset = target - cb.base;
    cb.length = covering_length(random, cb.base, cb.offset + 4);
    if faults.contains(&Fault::Length) {
        match random.below(4) {
            0 => cb.length = cb.offset + 3,
            1 => cb.length = cb.offset + random.below(4),
            2 => cb.length = random.below(cb.offset + 4),
            _ => cb.offset = 0u64.wrapping_sub(1 + random.below(4)),
        }
    }
    run.machine.caps[operands.capability(operands.last_position())] = cb;
}

/// Two cursors that are equal, near, or on the two sides of 2^63.
fn compare(random: &mut Random, run: &mut RunCase, operands: &Operands) {
    let first = run.machine.caps[operands.capability(0)];
    let second = &mut run.machine.caps[operands.capability(1)];
    if !random.chance(4) {
        second.tag = first.tag;
    }
    let distance = match random.below(4) {
        0 => return,
        1 => 0,
        2 => random.below(5).wrapping_sub(2),
        _ => 1 << 63,
    };
    second.offset = first.cursor().wrapping_add(distance).wrapping_sub(second.base);
}
