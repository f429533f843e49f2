//! Memory that a reach cannot read or load does not change a run; memory it can, may.

use crate::common::*;
use second::random::Random;
use second::*;

const BUDGET: u32 = 60;

/// A capability over some lines of the 8 of RAM or the 4 of flash, often with all it needs.
fn random_cap(random: &mut Random) -> Cap {
    let (start, lines) = *random.pick(&[(RAM_BASE, 8), (RAM_BASE, 8), (0, 4)]);
    let first = random.below(lines);
    let length = 32 * (1 + random.below(lines - first));
    let mut cap = tagged(start + 32 * first, length, *random.pick(&[ALL, LOAD, STORE, ALL]));
    if random.chance(4) {
        cap.perms = random.next() as u32 & PERMS_MASK;
    }
    if random.chance(6) {
        cap.base += random.below(9);
        cap.length -= 9 + random.below(16);
    }
    cap.sealed = random.chance(12);
    cap.tag = !random.chance(12);
    cap.otype = random.below(4) as u32;
    cap
}

/// A word that is often a legal step; registers 0 to 7, small immediates.
fn random_word(random: &mut Random) -> u32 {
    let mut register = || random.below(8) as u32;
    let (a, b, c) = (register(), register(), register());
    let small = 8 * random.below(8) as i32;
    let code = random.below(4) as u32;
    match random.below(17) {
        0 => daddu(a, b, c),
        1 => daddiu(a, 0, 8 * random.below(16) as i32),
        2 => ld(a, 0, small),
        3 => lbu(a, 0, random.below(64) as i32),
        4 => sd(a, 0, small),
        5 => sb(a, 0, random.below(64) as i32),
        6 => cload(a, b, 0, small, code),
        7 => cload_signed(a, b, c, small, code % 3),
        8 => cstore(a, b, 0, small, code),
        9 => clc(a, b, 0, 32 * random.below(4) as i32),
        10 => csc(a, b, 0, 32 * random.below(4) as i32),
        11 => cap2(random.below(7) as u32, a, b),
        12 => cap3(*random.pick(&[10, 12, 13, 14, 15, 16, 17, 18, 19, 28]), a, b, c),
        13 => beq(a, b, random.below(6) as i32 - 2),
        14 => *random.pick(&[cbtu(a, 2), cbts(a, 2), cap1(7, a), cap2(11, a, b)]),
        15 => *random.pick(&[cap1(22, a), cap2(23, a, b)]),
        _ => NOP,
    }
}

fn random_world(random: &mut Random) -> World {
    let mut world = World::new(&[NOP; 32]);
    // PCC often covers a part of flash alone, so that the rest may differ.
    world.machine.pcc.length = 32 * (2 + random.below(3));
    for number in 0..8 {
        world.machine.caps[number] = random_cap(random);
        world.machine.general[number] = if number > 0 { 8 * random.below(5) } else { 0 };
    }
    for line in 0..8 {
        if random.chance(2) {
            world = world.with_line(line, random_cap(random));
        } else {
            world.ram[32 * line..32 * line + 32].fill_with(|| random.next() as u8);
        }
    }
    if random.chance(8) {
        world.machine.pending = Some(random_cap(random));
    }
    world.flash = grown_flash(world.clone(), random);
    world
}

/// Sets words where a trial run goes, mostly ones that can be stepped there.
fn grown_flash(mut trial: World, random: &mut Random) -> Vec<u8> {
    for _ in 0..40 {
        let at = trial.machine.pcc.cursor() as usize;
        if at >= trial.flash.len() {
            break;
        }
        for _ in 0..6 {
            let word = random_word(random);
            trial.flash[at..at + 4].copy_from_slice(&word.to_be_bytes());
            if trial.run(1).stop == 0 {
                break;
            }
        }
    }
    trial.flash
}

/// The reach of a world, and the places and lines it can read and load.
struct Seen {
    flash: Vec<bool>,
    ram: Vec<bool>,
    tags: Vec<bool>,
}

fn seen_by(world: &World) -> Seen {
    let reach = reach(&world.machine, &world.ram, &world.tags);
    let (flash, ram, tags) = (world.flash.len(), world.ram.len(), world.tags.len());
    Seen {
        flash: (0..flash as u64).map(|at| reach.can_read(at)).collect(),
        ram: (0..ram as u64).map(|at| reach.can_read(RAM_BASE + at)).collect(),
        tags: (0..tags as u64).map(|at| reach.can_load_tag(RAM_BASE + 32 * at)).collect(),
    }
}

/// The same world with other bytes and tags wherever they are not seen.
fn change_unseen(world: &World, seen: &Seen, random: &mut Random) -> World {
    let mut other = world.clone();
    for (at, byte) in other.flash.iter_mut().enumerate().filter(|(at, _)| !seen.flash[*at]) {
        *byte = *random.pick(&[*byte, random_byte(at)]);
    }
    for (at, byte) in other.ram.iter_mut().enumerate().filter(|(at, _)| !seen.ram[*at]) {
        *byte = *random.pick(&[*byte, random_byte(at)]);
    }
    for (at, tag) in other.tags.iter_mut().enumerate().filter(|(at, _)| !seen.tags[*at]) {
        let line = Cap::from_bytes(other.ram[32 * at..32 * at + 32].try_into().unwrap(), true);
        // A tagged line must be legal, or the start is refused.
        *tag = if line.tagged_past_end() { 0 } else { random.below(2) as u8 };
    }
    other
}

fn random_byte(at: usize) -> u8 {
    Random::new(at as u64).next() as u8
}

/// Demand 3: same answer and registers, and the same memory wherever it is seen.
fn assert_alike(world: &World, other: &World, seen: &Seen) -> u32 {
    let (mut first, mut second) = (world.clone(), other.clone());
    let outcome = first.run(BUDGET);
    assert!(outcome.stop < 20);
    assert_eq!(outcome, second.run(BUDGET));
    for at in 0..seen.ram.len() {
        assert!(!seen.ram[at] || first.ram[at] == second.ram[at]);
    }
    for at in 0..seen.tags.len() {
        assert!(!seen.tags[at] || first.tags[at] == second.tags[at]);
    }
    outcome.steps
}

#[test]
fn unseen_memory_does_not_change_a_run() {
    let mut random = Random::new(11);
    let (mut steps, mut different) = (0, 0);
    for _ in 0..40_000 {
        let world = random_world(&mut random);
        let seen = seen_by(&world);
        let other = change_unseen(&world, &seen, &mut random);
        different += u32::from(other != world);
        steps += assert_alike(&world, &other, &seen);
    }
    // The pairs must differ and the runs must be more than a first stop.
    assert!(different > 20_000 && steps > 400_000, "{different} {steps}");
}

#[test]
fn nothing_seen_and_nothing_run() {
    let mut world = World::new(&[NOP]);
    world.machine.pcc = Cap::default();
    let seen = seen_by(&world);
    assert!(!seen.flash.contains(&true) && !seen.ram.contains(&true));
    let mut other = world.clone();
    other.ram.fill(1);
    other.flash.fill(2);
    assert_eq!(assert_alike(&world, &other, &seen), 0);
}

#[test]
fn a_store_only_capability_shows_nothing_and_changes_both_alike() {
    let words = [cstore(1, 1, 0, 0, 0), cload(2, 1, 0, 0, 0)];
    let world = World::new(&words).with_cap(1, tagged(RAM_BASE, 32, STORE)).with(1, 9);
    let seen = seen_by(&world);
    assert!(!seen.ram.contains(&true) && !seen.tags.contains(&true));
    let mut other = world.clone();
    other.ram.fill(0xFF);
    other.tags.fill(0);
    assert_eq!(assert_alike(&world, &other, &seen), 1);
}

#[test]
fn a_readable_byte_can_change_a_run() {
    let words = [cload(2, 1, 0, 63, 0), bne(2, 0, 2), NOP, BREAK];
    let world = World::new(&words).with_cap(1, cap_a());
    assert!(seen_by(&world).ram[63]);
    let mut other = world.clone();
    other.ram[63] = 1;
    assert_eq!(line(&world.clone().run(BUDGET)), [8, 0, 0, 12, 3]);
    assert_eq!(line(&other.run(BUDGET)), [1, 1, 255, 32, 7]);
    assert_eq!(other.general(2), 1);
}

#[test]
fn a_byte_behind_a_seal_can_change_a_run() {
    let words = [cap3(19, 1, 1, 2), cload(3, 1, 0, 0, 0)];
    let sealed = Cap { sealed: true, otype: 5, ..cap_a() };
    let world = World::new(&words).with_cap(1, sealed).with_cap(2, tagged(5, 1, SEAL));
    assert!(seen_by(&world).ram[0]);
    let mut other = world.clone();
    other.ram[0] = 7;
    let (first, second) = (world.clone().run(2), other.run(2));
    assert_eq!((first.stop, second.stop), (0, 0));
    assert_eq!((first.machine.general[3], second.machine.general[3]), (0, 7));
}

#[test]
fn a_byte_behind_a_loaded_capability_can_change_a_run() {
    let words = [clc(1, 1, 0, 0), cload(3, 1, 0, 0, 0)];
    let world = World::new(&words).with_cap(1, tagged(RAM_BASE, 32, LOAD_CAP));
    let world = world.with_line(0, tagged(RAM_BASE + 200, 1, LOAD));
    let seen = seen_by(&world);
    assert!(seen.ram[200] && !seen.ram[199] && !seen.ram[201]);
    let mut other = world.clone();
    other.ram[200] = 7;
    let (first, second) = (world.clone().run(2), other.run(2));
    assert_eq!((first.stop, second.stop), (0, 0));
    assert_eq!((first.machine.general[3], second.machine.general[3]), (0, 7));
}

#[test]
fn a_loadable_tag_can_change_a_run() {
    let world = World::new(&[clc(2, 1, 0, 0), cap2(4, 3, 2)]);
    let world = world.with_cap(1, tagged(RAM_BASE, 32, LOAD_CAP));
    assert!(seen_by(&world).tags[0]);
    let mut other = world.clone();
    other.tags[0] = 1;
    let (first, second) = (world.clone().run(2), other.run(2));
    assert_eq!((first.machine.general[3], second.machine.general[3]), (0, 1));
}

#[test]
fn an_executable_byte_can_change_a_run() {
    let world = World::new(&[NOP, NOP]);
    assert!(seen_by(&world).flash[7]);
    let mut other = world.clone();
    other.flash[7] = 13;
    assert_eq!(line(&world.clone().run(3)), [0, 0, 0, 0, 3]);
    assert_eq!(line(&other.run(3)), [8, 0, 0, 4, 1]);
}

/// Changes one readable byte of RAM and says whether the run's answer changed.
fn readable_byte_shows(random: &mut Random) -> bool {
    let world = random_world(random);
    let seen = seen_by(&world);
    let readable: Vec<usize> = (0..world.ram.len()).filter(|at| seen.ram[*at]).collect();
    if readable.is_empty() {
        return false;
    }
    let mut other = world.clone();
    other.ram[*random.pick(&readable)] ^= 0x55;
    let (first, second) = (world.clone().run(BUDGET), other.run(BUDGET));
    second.stop < 20 && first != second
}

#[test]
fn among_random_pairs_a_readable_byte_shows_in_some() {
    let mut random = Random::new(12);
    let shown = (0..20_000).filter(|_| readable_byte_shows(&mut random)).count();
    assert!(shown > 300, "{shown}");
}
