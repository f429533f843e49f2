//! The bench examples of 01 and the empty cases.

use crate::common::*;
use second::*;

/// The first word through A, then BREAK, so that a made step shows as stop 8.
fn through_a(word: u32, a: Cap) -> World {
    World::new(&[word, BREAK]).with_cap(1, a)
}

/// Both through run and through the bench line.
fn assert_line(world: &World, expected: [u64; 5]) {
    let mut run_world = world.clone();
    run_world.ram.resize(32_768, 0);
    run_world.tags.resize(1_024, 0);
    assert_eq!(line(&run_world.run(1_000)), expected);
    assert_eq!(world.bench_line(), expected);
}

const PASSES: [u64; 5] = [8, 0, 0, 4, 1];
const LENGTH_ON_C1: [u64; 5] = [1, 1, 1, 0, 0];

#[test]
fn book_of_the_version_alone() {
    assert_eq!(bench_line(&[1], &[]), [1, 2, 255, 0, 0]);
}

#[test]
fn pcc_of_four_bytes() {
    let mut world = World::new(&[NOP]);
    assert_eq!(world.flash, vec![0; 32]);
    world.machine.pcc = tagged(0, 4, EXECUTE);
    assert_line(&world, [1, 1, 255, 4, 1]);
}

#[test]
fn pcc_of_eight_bytes_and_break() {
    let mut world = World::new(&[0, 0x0000_000D]);
    world.machine.pcc = tagged(0, 8, EXECUTE);
    assert_line(&world, [8, 0, 0, 4, 1]);
}

#[test]
fn doubleword_at_56_passes() {
    assert_line(&through_a(cload(2, 1, 0, 56, 3), cap_a()), PASSES);
}

#[test]
fn doubleword_at_57_is_length_though_misaligned() {
    assert_line(&through_a(cload(2, 1, 0, 57, 3), cap_a()), LENGTH_ON_C1);
}

#[test]
fn doubleword_at_52_is_misaligned() {
    assert_line(&through_a(cload(2, 1, 0, 52, 3), cap_a()), [2, 0, 0, 0, 0]);
}

#[test]
fn byte_at_offset_60_and_rt_minus_8_is_byte_52() {
    let a = Cap { offset: 60, ..cap_a() };
    let mut world = through_a(cload(2, 1, 3, 0, 0), a).with(3, (-8i64) as u64);
    world.ram[52] = 0x5A;
    assert_line(&world, PASSES);
    world.step();
    assert_eq!(world.general(2), 0x5A);
}

#[test]
fn byte_at_rt_minus_1_is_length() {
    let world = through_a(cload(2, 1, 3, 0, 0), cap_a()).with(3, u64::MAX);
    assert_line(&world, LENGTH_ON_C1);
}

#[test]
fn offset_below_two_to_the_64_and_rt_8_is_length() {
    let a = Cap { offset: 0u64.wrapping_sub(8), ..cap_a() };
    let world = through_a(cload(2, 1, 3, 0, 0), a).with(3, 8);
    assert_line(&world, LENGTH_ON_C1);
}

#[test]
fn byte_in_length_0_is_length() {
    let a = Cap { length: 0, ..cap_a() };
    assert_line(&through_a(cload(2, 1, 0, 0, 0), a), LENGTH_ON_C1);
}

#[test]
fn doubleword_at_the_end_of_addresses_is_in_no_memory() {
    let a = Cap { base: 0u64.wrapping_sub(8), length: 8, ..cap_a() };
    assert_line(&through_a(cload(2, 1, 0, 0, 3), a), [5, 0, 0, 0, 0]);
}

#[test]
fn byte_store_clears_the_tag_of_its_line_and_no_other() {
    let mut world = through_a(cstore(2, 1, 0, 40, 0), cap_a()).with(2, 0x1234);
    world.tags = vec![1; 8];
    assert_line(&world, PASSES);
    world.step();
    assert_eq!(world.tags, [1, 0, 1, 1, 1, 1, 1, 1]);
    assert_eq!(world.ram[40], 0x34);
    assert!(world.ram.iter().enumerate().all(|(at, &byte)| at == 40 || byte == 0));
}

#[test]
fn empty_book_and_empty_flash() {
    assert_eq!(bench_line(&[], &[]), [30, 0, 0, 0, 0]);
}

#[test]
fn book_that_grants_nothing_stops_at_once_with_any_flash() {
    for length in [0, 32, 65_536] {
        assert_eq!(bench_line(&[1], &vec![0; length]), [1, 2, 255, 0, 0]);
    }
}

#[test]
fn all_sizes_0() {
    let machine = Machine::default();
    let outcome = run(&machine, &[], &mut [], &mut [], 0);
    assert_eq!(outcome, Outcome::default());
    let outcome = run(&machine, &[], &mut [], &mut [], 1_000);
    assert_eq!(line(&outcome), [1, 2, 255, 0, 0]);
    assert_eq!(outcome.machine, Machine { cause: 0x02FF, ..machine });
}

#[test]
fn budget_of_1000_is_made() {
    let mut world = World::new(&[beq(0, 0, -1), NOP]);
    assert_eq!(world.bench_line(), [0, 0, 0, 0, 1_000]);
    assert_eq!(line(&world.run(7)), [0, 0, 0, 0, 7]);
    assert_eq!(world.machine.pcc.offset, 4);
    assert_eq!(world.machine.pending.map(|cap| cap.offset), Some(0));
}

#[test]
fn step_is_a_run_of_one() {
    let world = World::new(&[NOP, BREAK]);
    let (mut ram, mut tags) = (world.ram.clone(), world.tags.clone());
    let outcome = step(&world.machine, &world.flash, &mut ram, &mut tags);
    assert_eq!(line(&outcome), [0, 0, 0, 0, 1]);
    assert_eq!(outcome.machine.pcc.offset, 4);
}
