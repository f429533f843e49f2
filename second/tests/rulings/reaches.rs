//! Rulings D1 and D2.

use crate::common::*;
use second::*;

fn reach_of(world: &World) -> Reach {
    reach(&world.machine, &world.ram, &world.tags)
}

/// A world whose PCC grants nothing.
fn bare() -> World {
    let mut world = World::new(&[]);
    world.machine.pcc = Cap::default();
    world
}

#[test]
fn d1_nothing_reaches_nothing() {
    let empty = reach(&Machine::default(), &[], &[]);
    assert!(empty.members.is_empty());
    assert!(!empty.can_read(0) && !empty.can_load_tag(RAM_BASE));
    let mut world = bare().with_line(0, tagged(RAM_BASE, 64, ALL));
    world.machine.caps[4] = Cap { tag: false, ..tagged(0, u64::MAX, ALL) };
    world.machine.pending = Some(world.machine.caps[4]);
    assert!(reach_of(&world).members.is_empty());
}

#[test]
fn d1_length_0_covers_no_byte() {
    let reach = reach_of(&bare().with_cap(1, tagged(RAM_BASE, 0, ALL)));
    assert_eq!(reach.members.len(), 1);
    assert!(!reach.can_read(RAM_BASE) && !reach.can_load_tag(RAM_BASE));
}

#[test]
fn d1_a_range_covers_its_bytes_and_no_other() {
    let reach = reach_of(&bare().with_cap(1, tagged(RAM_BASE + 3, 5, LOAD)));
    let covered: Vec<u64> = (0..16).filter(|at| reach.can_read(RAM_BASE + at)).collect();
    assert_eq!(covered, [3, 4, 5, 6, 7]);
    let last = reach_of(&bare().with_cap(1, tagged(u64::MAX, 1, LOAD)));
    assert!(last.can_read(u64::MAX) && !last.can_read(u64::MAX - 1) && !last.can_read(0));
}

#[test]
fn d1_a_line_counts_only_where_wholly_in_range() {
    let inner = tagged(5, 6, LOAD);
    for (base, length, whole) in [(0, 32, true), (0, 31, false), (1, 32, false), (1, 63, false)] {
        let through = tagged(RAM_BASE + base, length, LOAD_CAP);
        let reach = reach_of(&bare().with_cap(1, through).with_line(0, inner));
        assert_eq!(reach.members.contains(&inner), whole);
        assert_eq!(reach.can_load_tag(RAM_BASE), whole);
    }
}

#[test]
fn d1_only_load_capability_leads_on() {
    let inner = tagged(5, 6, LOAD);
    let through = |perms| bare().with_cap(1, tagged(RAM_BASE, 32, perms)).with_line(0, inner);
    let without = reach_of(&through(ALL & !LOAD_CAP));
    assert!(!without.members.contains(&inner) && !without.can_load_tag(RAM_BASE));
    assert!(reach_of(&through(LOAD_CAP)).members.contains(&inner));
}

#[test]
fn d1_an_untagged_line_is_no_member() {
    let through = tagged(RAM_BASE, 64, LOAD_CAP);
    let inner = Cap { tag: false, ..tagged(5, 6, LOAD) };
    let reach = reach_of(&bare().with_cap(1, through).with_line(0, inner));
    assert_eq!(reach.members, [through]);
}

#[test]
fn d2_a_long_chain_of_lines_is_followed_to_its_end() {
    let line_at = |line: u64| tagged(RAM_BASE + 32 * line, 32, LOAD_CAP);
    let mut world = bare().with_cap(1, line_at(199));
    (world.ram, world.tags) = (vec![0; 6_400], vec![0; 200]);
    for line in 1..200 {
        world = world.with_line(line as usize, line_at(line - 1));
    }
    let expected: Vec<Cap> = (0..200).rev().map(line_at).collect();
    assert_eq!(reach_of(&world).members, expected);
}

#[test]
fn d2_sealed_members_lead_on_from_line_to_line() {
    let last = tagged(9, 9, STORE);
    let middle = Cap { sealed: true, ..tagged(RAM_BASE + 64, 32, LOAD_CAP) };
    let first = Cap { sealed: true, ..tagged(RAM_BASE + 224, 32, LOAD_CAP) };
    let mut world = bare().with_line(7, middle).with_line(2, last).with_line(1, tagged(1, 1, 1));
    for place in 0..3 {
        world.machine.caps[5] = if place == 0 { first } else { Cap::default() };
        world.machine.pcc = if place == 1 { first } else { Cap::default() };
        world.machine.pending = if place == 2 { Some(first) } else { None };
        assert_eq!(reach_of(&world).members, [first, middle, last]);
    }
}

#[test]
fn d2_a_ring_of_lines_ends() {
    let (one, two) = (tagged(RAM_BASE + 32, 32, LOAD_CAP), tagged(RAM_BASE, 32, LOAD_CAP));
    let world = bare().with_line(0, one).with_line(1, two).with_cap(3, one);
    assert_eq!(reach_of(&world).members, [one, two]);
}

#[test]
fn d2_execute_reads_and_store_alone_reads_nothing() {
    for (perms, reads) in [(EXECUTE, true), (LOAD, true), (LOAD_CAP, true), (STORE, false)] {
        let reach = reach_of(&bare().with_cap(1, tagged(64, 1, perms)));
        assert_eq!(reach.can_read(64), reads);
    }
    let stores = tagged(RAM_BASE, 64, STORE | STORE_CAP | STORE_LOCAL | SEAL | IS_GLOBAL);
    let reach = reach_of(&bare().with_cap(1, stores));
    assert!(!reach.can_read(RAM_BASE) && !reach.can_load_tag(RAM_BASE));
}
