//! Rulings B1 to B5.

use crate::common::*;
use second::*;

/// A world of these sizes.
fn sized(flash: usize, ram: usize, tags: usize) -> World {
    let (flash, ram, tags) = (vec![0; flash], vec![0; ram], vec![0; tags]);
    World { machine: Machine::default(), flash, ram, tags }
}

/// The refusal, which must give everything back as it came, at every budget.
fn refused(world: &World) -> u32 {
    let mut numbers = Vec::new();
    for budget in [0, 1, u32::MAX] {
        let mut after = world.clone();
        let outcome = after.run(budget);
        assert_eq!(after, *world);
        assert_eq!(line(&outcome)[1..], [0; 4]);
        numbers.push(outcome.stop);
    }
    assert!(numbers.iter().all(|number| *number == numbers[0]));
    numbers[0]
}

#[test]
fn b1_sizes() {
    for flash in [0, 32, 65_536] {
        for ram in [0, 32, 65_536] {
            assert_eq!(sized(flash, ram, ram / 32).run(0).stop, 0);
        }
    }
    for wrong in [1, 4, 31, 33, 65_535, 65_537, 65_568] {
        assert_eq!(refused(&sized(wrong, 0, 0)), 20);
        assert_eq!(refused(&sized(0, wrong, wrong / 32)), 20);
    }
    for (ram, tags) in [(0, 1), (32, 0), (32, 2), (65_536, 2_047)] {
        assert_eq!(refused(&sized(0, ram, tags)), 20);
    }
}

/// A world with every refusal at once, but for the sizes.
fn all_wrong() -> World {
    let mut world = sized(32, 64, 2);
    world.tags[1] = 2;
    world.machine.caps[3] = tagged(u64::MAX, 2, 1 << 31);
    world.machine.general[0] = 1;
    world.machine.cause = 0xABCD;
    world
}

#[test]
fn b2_refusals_come_in_order_at_every_budget() {
    let mut world = all_wrong();
    world.flash.pop();
    assert_eq!(refused(&world), 20);
    let mut world = all_wrong();
    assert_eq!(refused(&world), 21);
    world.tags[1] = 1;
    assert_eq!(refused(&world), 22);
    world.machine.caps[3].length = 1;
    assert_eq!(refused(&world), 24);
    world.machine.caps[3].perms = PERMS_MASK;
    assert_eq!(refused(&world), 24);
    world.machine.general[0] = 0;
    assert_eq!(world.run(0).stop, 0);
    assert_eq!(world.machine.cause, 0xABCD);
}

/// Puts a capability in each place of a machine in turn.
fn in_each_place(cap: Cap) -> Vec<Machine> {
    let mut machines = Vec::new();
    for number in 0..32 {
        let mut machine = Machine::default();
        machine.caps[number] = cap;
        machines.push(machine);
    }
    machines.push(Machine { pcc: cap, ..Machine::default() });
    machines.push(Machine { pending: Some(cap), ..Machine::default() });
    machines
}

#[test]
fn b3_22_looks_at_tagged_capabilities_alone() {
    let over = tagged(u64::MAX, 2, 0);
    for machine in in_each_place(over) {
        assert_eq!(refused(&World { machine, ..sized(0, 0, 0) }), 22);
    }
    // base + length = 2^64 is legal, and an untagged register may hold anything.
    for fine in [tagged(u64::MAX, 1, 0), Cap { tag: false, ..over }] {
        for machine in in_each_place(fine) {
            assert_eq!(World { machine, ..sized(0, 0, 0) }.run(0).stop, 0);
        }
    }
}

#[test]
fn b3_22_looks_at_tagged_lines() {
    let over = tagged(1 << 63, (1 << 63) + 1, 0);
    for line in 0..4 {
        let world = sized(0, 128, 4).with_line(line, over);
        assert_eq!(refused(&world), 22);
        assert_eq!(world.with_line(line, Cap { tag: false, ..over }).run(0).stop, 0);
        let fine = Cap { length: 1 << 63, ..over };
        assert_eq!(sized(0, 128, 4).with_line(line, fine).run(0).stop, 0);
    }
}

#[test]
fn b3_24_looks_at_every_register_tagged_or_not() {
    for tag in [false, true] {
        let wide_otype = Cap { tag, otype: 1 << 24, ..Cap::default() };
        let wide_perms = Cap { tag, perms: 1 << 31, ..Cap::default() };
        for wide in [wide_otype, wide_perms] {
            for machine in in_each_place(wide) {
                assert_eq!(refused(&World { machine, ..sized(0, 0, 0) }), 24);
            }
        }
        let full = Cap { tag, otype: OTYPE_MASK, perms: PERMS_MASK, spare: 255, ..Cap::default() };
        for machine in in_each_place(full) {
            assert_eq!(World { machine, ..sized(0, 0, 0) }.run(0).stop, 0);
        }
    }
    let mut machine = Machine::default();
    machine.general[0] = 1 << 40;
    assert_eq!(refused(&World { machine, ..sized(0, 0, 0) }), 24);
}

#[test]
fn b4_a_pending_jump_takes_effect_after_its_slot_whatever_it_is() {
    let whole = Cap { offset: 8, ..tagged(0, 32, EXECUTE) };
    let untagged = Cap { tag: false, ..whole };
    let sealed = Cap { sealed: true, ..whole };
    let closed = Cap { perms: LOAD, ..whole };
    let causes = [CAUSE_TAG, CAUSE_SEAL, CAUSE_PERMIT_EXECUTE];
    for (pending, cause) in [untagged, sealed, closed].into_iter().zip(causes) {
        let mut world = World::new(&[daddiu(1, 1, 1)]);
        world.machine.pending = Some(pending);
        assert_eq!(line(&world.run(9)), [1, u64::from(cause), 255, 8, 1]);
        assert_eq!((world.machine.pcc, world.machine.pending), (pending, None));
        assert_eq!(world.general(1), 1);
    }
}

#[test]
fn b5_stop_0_reports_place_0_and_steps_count_completed_ones() {
    let mut world = World::new(&[NOP, NOP, BREAK]);
    assert_eq!(line(&world.run(2)), [0, 0, 0, 0, 2]);
    assert_eq!(line(&world.run(2)), [8, 0, 0, 8, 0]);
    assert_eq!(line(&world.run(0)), [0, 0, 0, 0, 0]);
}
