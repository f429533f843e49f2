//! Operands for loads and stores: in range, at its edge, or just outside.

use super::numbers::{any_cap, edge, longest, otype, permissions};
use super::operands::Operands;
use super::stage::{line_of, put_line, ram_end, set_general};
use super::wanted::Fault;
use super::RunCase;
use crate::asm::encode::Kind;
use crate::random::Random;
use crate::{
    Cap, GLOBAL, PERMIT_LOAD, PERMIT_LOAD_CAPABILITY, PERMIT_STORE, PERMIT_STORE_CAPABILITY,
    PERMIT_STORE_LOCAL_CAPABILITY, RAM_BASE,
};

struct Access {
    size: u64,
    store: bool,
    permission: u32,
}

/// The size and direction of a load or store; none for another instruction.
fn access_of(name: &str) -> Option<Access> {
    let size = match name {
        "lbu" | "sb" | "clbu" | "clb" | "csb" => 1,
        "clhu" | "clh" | "csh" => 2,
        "clwu" | "clw" | "csw" => 4,
        "ld" | "sd" | "cld" | "csd" => 8,
        "clc" | "csc" => 32,
        _ => return None,
    };
    let store = matches!(name, "sb" | "sd" | "csb" | "csh" | "csw" | "csd" | "csc");
    let permission = match (name, store) {
        ("clc", _) => PERMIT_LOAD_CAPABILITY,
        ("csc", _) => PERMIT_STORE_CAPABILITY,
        (_, true) => PERMIT_STORE,
        (_, false) => PERMIT_LOAD,
    };
    Some(Access { size, store, permission })
}

pub fn is_store(name: &str) -> bool {
    access_of(name).is_some_and(|access| access.store)
}

/// Sets the operands of a load or store so that it meets the faults, or none.
pub fn prepare(random: &mut Random, run: &mut RunCase, operands: &mut Operands, faults: &[Fault]) {
    let Some(access) = access_of(operands.format.name) else { return };
    let address = wanted_address(random, run, &access, faults);
    let base = base_below(random, address);
    let mut sum = i128::from(address - base);
    let mut length = covering_length(random, base, address - base + access.size);
    if faults.contains(&Fault::Length) {
        (sum, length) = out_of_range(random, base, sum, access.size);
    }
    let (offset, index, immediate) = split(random, sum, operands);
    operands.set_immediate(immediate);
    if access.size == 32 {
        prepare_capability(random, run, operands, address);
    }
    let perms = permissions(random) | 1 << access.permission;
    let spare = random.next() as u8;
    let otype = otype(random);
    let cb = Cap { tag: true, sealed: false, perms, otype, spare, base, length, offset };
    run.machine.caps[operands.capability(operands.last_position())] = cb;
    set_general(run, operands.general(), index);
    if operands.format.name == "csc" {
        allow_local(random, run, operands);
    }
}

/// An address in the memory that the faults ask for, aligned unless it must not be.
fn wanted_address(random: &mut Random, run: &RunCase, access: &Access, faults: &[Fault]) -> u64 {
    let in_flash = faults.contains(&Fault::Flash) || (!access.store && random.chance(4));
    let (start, length) = if in_flash { (0, run.flash.len()) } else { (RAM_BASE, run.ram.len()) };
    let last = length as u64 / access.size - 1;
    let number = match random.below(3) {
        0 => 0,
        1 => last,
        _ => random.below(last + 1),
    };
    let mut address = start + number * access.size;
    if faults.contains(&Fault::Neither) {
        address = outside_address(random, run, access.size);
    }
    if faults.contains(&Fault::Misaligned) {
        // Downwards, so that no address passes 2^64.
        let any = 1 + random.below(access.size - 1);
        let half = access.size / 2;
        address = address.max(access.size) - *random.pick(&[any, any, half]);
    }
    address
}

/// An aligned address in neither memory, most often just beside one.
pub fn outside_address(random: &mut Random, run: &RunCase, size: u64) -> u64 {
    let end = ram_end(run);
    let near = [run.flash.len() as u64, RAM_BASE - size, end, 0u64.wrapping_sub(size)];
    let far = edge(random) / size * size;
    let outside = far >= run.flash.len() as u64 && (far < RAM_BASE || far >= end);
    if outside && random.chance(3) {
        return far;
    }
    *random.pick(&near)
}

pub fn base_below(random: &mut Random, address: u64) -> u64 {
    match random.below(4) {
        0 => address,
        1 => address - random.below(address.min(64) + 1),
        2 if address >= RAM_BASE => RAM_BASE,
        _ => address - random.below(address.min(1 << 20) + 1),
    }
}

/// A length that just reaches, or reaches further.
pub fn covering_length(random: &mut Random, base: u64, reach: u64) -> u64 {
    let room = longest(base);
    let length = match random.below(3) {
        0 => reach,
        1 => reach.saturating_add(random.below(64)),
        _ => room,
    };
    length.min(room).max(reach)
}

/// A sum and a length such that the access is out of range.
fn out_of_range(random: &mut Random, base: u64, sum: i128, size: u64) -> (i128, u64) {
    let reach = sum as u64 + size;
    match random.below(6) {
        0 | 1 => (sum, reach - 1),
        2 if random.chance(2) => (sum, 0),
        2 => (sum, random.below(reach)),
        3 if random.chance(2) => (-1, longest(base)),
        3 => (-1 - i128::from(random.below(size + 8)), longest(base)),
        // Added mod 2^64 this would be in range.
        4 => ((1i128 << 64) + sum, longest(base)),
        _ => (i128::from(edge(random)) + i128::from(longest(base)), longest(base)),
    }
}

/// The sum as cb's offset, the index register and the immediate.
fn split(random: &mut Random, sum: i128, operands: &Operands) -> (u64, u64, i64) {
    let fields = operands.format.fields;
    let range = fields.iter().find(|field| field.kind == Kind::Signed).map(|field| field.range());
    let (least, greatest) = range.unwrap_or((0, 0));
    let immediate = match random.below(5) {
        0 | 1 => 0,
        2 => *random.pick(&[least, greatest, -1, 1]),
        _ => least + random.below((greatest - least) as u64 + 1) as i64,
    };
    let rest = sum - i128::from(immediate);
    let offset = match random.below(5) {
        0 | 1 => rest,
        2 => 0,
        3 => rest + i128::from(random.below(128)),
        _ => i128::from(edge(random)),
    };
    let offset = if operands.general() == 0 { rest } else { offset };
    let offset = offset.clamp(0, i128::from(u64::MAX));
    match i64::try_from(rest - offset) {
        Ok(index) => (offset as u64, index as u64, immediate),
        // Too far apart for one register: the offset takes it all.
        Err(_) => (rest.clamp(0, i128::from(u64::MAX)) as u64, 0, immediate),
    }
}

/// Something to load at the address, and something to store.
fn prepare_capability(random: &mut Random, run: &mut RunCase, operands: &Operands, address: u64) {
    if (RAM_BASE..ram_end(run)).contains(&address) {
        put_line(run, line_of(address), &any_cap(random));
    }
    run.machine.caps[operands.capability(0)] = any_cap(random);
}

/// cb may store local capabilities, or cs is global, or cs is untagged.
fn allow_local(random: &mut Random, run: &mut RunCase, operands: &Operands) {
    let caps = &mut run.machine.caps;
    let (cs, cb) = (operands.capability(0), operands.capability(1));
    match random.below(3) {
        0 => caps[cb].perms |= 1 << PERMIT_STORE_LOCAL_CAPABILITY,
        1 => caps[cs].perms |= 1 << GLOBAL,
        _ => {
            caps[cb].perms &= !(1 << PERMIT_STORE_LOCAL_CAPABILITY);
            caps[cs].perms &= !(1 << GLOBAL);
            // Where both are one register it must stay tagged.
            caps[cs].tag = cs == cb;
        }
    }
}
