//! Rulings A10 to A18.

use crate::common::*;
use second::*;

/// The word as the slot of a taken branch.
fn in_slot(word: u32) -> World {
    let mut world = World::new(&[beq(0, 0, 3), word]);
    world.step();
    world
}

#[test]
fn a10_branches_and_jumps_in_a_slot_are_stop_7() {
    // The branch is not taken, C31 is closed, the unused fields are not zero.
    let words = [bne(0, 0, 1), beq(0, 1, 0), cap1(22, 31), cap2(23, 31, 31)];
    for word in words.into_iter().chain([cbtu(31, -1), cbts(0, 9)]) {
        assert!(is_branch_or_jump(word));
        assert_eq!(stop_of(&in_slot(word)), (7, 0, 0));
    }
    for word in [cap1(22, 1) | 0xFFFF, cap2(23, 1, 2) | 0x7FF] {
        assert_eq!(stop_of(&World::new(&[word])), (4, 0, 0));
        assert_eq!(stop_of(&in_slot(word)), (7, 0, 0));
    }
}

#[test]
fn a10_other_mips_jumps_are_reserved_also_in_a_slot() {
    let (j, jal, jr, jalr) = (2 << 26, 3 << 26, special(8, 0, 1, 0), special(9, 31, 1, 0));
    let (blez, bgtz, regimm) = (6 << 26, 7 << 26, 1 << 26);
    let (beql, bnel, bc2) = (20 << 26, 21 << 26, 18 << 26 | 29 << 21);
    for word in [j, jal, jr, jalr, blez, bgtz, regimm, beql, bnel, bc2] {
        assert!(!is_branch_or_jump(word));
        assert_eq!(stop_of(&in_slot(word)), (4, 0, 0));
        assert_eq!(stop_of(&World::new(&[word])), (4, 0, 0));
    }
}

#[test]
fn a10_ccall_and_creturn_are_no_jumps() {
    assert_eq!(stop_of(&in_slot(cap2(26, 4, 5))), (1, CAUSE_CALL, 4));
    assert_eq!(stop_of(&in_slot(cap1(27, 0))), (1, CAUSE_RETURN, 255));
}

/// A PCC whose every field shows whether it was kept.
fn marked_pcc(length: u64) -> Cap {
    Cap { otype: 0x123456, spare: 0xAB, ..tagged(32, length, ALL) }
}

#[test]
fn a11_cgetpcc_gives_the_pc_of_itself() {
    let mut world = World::new(&[NOP, NOP, NOP, NOP, NOP, NOP, NOP, NOP, NOP, cap1(7, 1)]);
    world.machine.pcc = Cap { offset: 4, ..marked_pcc(32) };
    world.step();
    assert_eq!(world.cap(1), Cap { offset: 4, ..marked_pcc(32) });
}

#[test]
fn a11_cgetpcc_in_a_slot_gives_the_old_pcc() {
    let target = tagged(0, 32, EXECUTE | IS_GLOBAL);
    let mut world = World::new(&[cap1(22, 1), cap1(7, 2)]).with_cap(1, target);
    let old = world.machine.pcc;
    world.step();
    world.step();
    assert_eq!(world.cap(2), Cap { offset: 4, ..old });
    assert_eq!(world.machine.pcc, target);
}

#[test]
fn a11_cjalr_links_pc_plus_8_and_keeps_the_rest() {
    let target = tagged(0, 32, EXECUTE | IS_GLOBAL);
    let mut world = World::new(&[NOP; 16]).with_cap(1, target);
    world.flash[36..40].copy_from_slice(&cap2(23, 2, 1).to_be_bytes());
    world.machine.pcc = Cap { offset: 4, ..marked_pcc(32) };
    world.step();
    assert_eq!(world.cap(2), Cap { offset: 12, ..marked_pcc(32) });
}

#[test]
fn a11_branch_keeps_every_other_field_of_pcc() {
    for word in [beq(0, 0, 2), cbtu(1, 2), bne(1, 0, 2)] {
        let mut world = World::new(&[NOP; 16]).with(1, 1);
        world.flash[36..40].copy_from_slice(&word.to_be_bytes());
        world.machine.pcc = Cap { offset: 4, ..marked_pcc(32) };
        world.step();
        assert_eq!(world.machine.pending, Some(Cap { offset: 16, ..marked_pcc(32) }));
        world.step();
        assert_eq!(world.machine.pcc, Cap { offset: 16, ..marked_pcc(32) });
    }
}

#[test]
fn a12_creturn_names_no_register_and_ccall_makes_no_access_check() {
    assert_eq!(exception_of(&World::new(&[cap1(27, 0)])), (CAUSE_RETURN, NO_REGISTER));
    for cs in 0..32 {
        assert_eq!(exception_of(&World::new(&[cap2(26, cs, 31)])), (CAUSE_CALL, cs));
    }
}

#[test]
fn a13_cfromptr_moves_the_base_and_keeps_the_offset() {
    let source = Cap { offset: 9, otype: 4, spare: 6, ..tagged(100, 50, LOAD) };
    let world = World::new(&[cap3(16, 2, 1, 3)]).with_cap(1, source);
    let mut made = world.clone().with(3, 50);
    made.step();
    assert_eq!(made.cap(2), Cap { base: 150, length: 0, ..source });
    assert_eq!(exception_of(&world.with(3, 51)), (CAUSE_LENGTH, 1));
}

#[test]
fn a13_cfromptr_of_0_makes_only_the_access_checks() {
    let marked = Cap { sealed: true, otype: 1, spare: 1, length: 1, ..Cap::default() };
    for tag in [false, true] {
        let source = Cap { tag, ..marked };
        let world = World::new(&[cap3(16, 2, 1, 3)]).with_cap(1, source);
        let mut world = world.with_cap(2, source);
        world.step();
        assert_eq!(world.cap(2), Cap::default());
    }
    let world = World::new(&[cap3(16, 31, 30, 3)]);
    assert_eq!(exception_of(&world), (CAUSE_ACCESS_EPCC, 31));
    let world = World::new(&[cap3(16, 2, 30, 3)]);
    assert_eq!(exception_of(&world), (CAUSE_ACCESS_KDC, 30));
}

#[test]
fn a14_cincbase_by_0_is_a_plain_move() {
    for (tag, sealed) in [(false, false), (false, true), (true, false), (true, true)] {
        let source = Cap { tag, sealed, spare: 5, otype: 6, ..tagged(7, 8, 9) };
        let mut world = World::new(&[cap3(12, 2, 1, 0)]).with_cap(1, source);
        world.step();
        assert_eq!(world.cap(2), source);
    }
}

#[test]
fn a14_cincbase_raises_tag_before_seal() {
    let both = Cap { sealed: true, ..Cap::default() };
    let world = World::new(&[cap3(12, 2, 1, 3)]).with(3, 1);
    assert_eq!(exception_of(&world.clone().with_cap(1, both)), (CAUSE_TAG, 1));
    let sealed = Cap { tag: true, ..both };
    assert_eq!(exception_of(&world.clone().with_cap(1, sealed)), (CAUSE_SEAL, 1));
    let short = Cap { sealed: false, ..sealed };
    assert_eq!(exception_of(&world.with_cap(1, short)), (CAUSE_LENGTH, 1));
}

#[test]
fn a14_cincbase_up_to_two_to_the_64_gives_base_0() {
    let source = tagged(0u64.wrapping_sub(8), 8, LOAD);
    let mut world = World::new(&[cap3(12, 2, 1, 3)]).with_cap(1, source).with(3, 8);
    world.step();
    assert_eq!(world.cap(2), tagged(0, 0, LOAD));
}

#[test]
fn a15_offsets_raise_seal_only_where_tagged_and_sealed() {
    for number in [14, 15] {
        let untagged = Cap { sealed: true, offset: 1, otype: 2, spare: 3, ..Cap::default() };
        let world = World::new(&[cap3(number, 2, 1, 3)]).with(3, 5);
        let mut made = world.clone().with_cap(1, untagged);
        made.step();
        let offset = if number == 14 { 5 } else { 6 };
        assert_eq!(made.cap(2), Cap { offset, ..untagged });
        let sealed = world.with_cap(1, Cap { tag: true, ..untagged });
        assert_eq!(exception_of(&sealed), (CAUSE_SEAL, 1));
    }
}

#[test]
fn a16_ctoptr_wants_the_tag_of_ct_first() {
    let world = World::new(&[cap3(17, 3, 1, 2)]).with(3, 9);
    assert_eq!(exception_of(&world), (CAUSE_TAG, 2));
    let mut made = world.clone().with_cap(2, tagged(50, 0, 0));
    made.step();
    assert_eq!(made.general(3), 0);
    let sealed = Cap { sealed: true, offset: 3, ..tagged(20, 0, 0) };
    let mut made = world.with_cap(2, tagged(50, 0, 0)).with_cap(1, sealed);
    made.step();
    assert_eq!(made.general(3), 0u64.wrapping_sub(27));
}

#[test]
fn a16_ctoptr_checks_access_to_cb_then_ct() {
    let world = World::new(&[cap3(17, 3, 29, 30)]);
    assert_eq!(exception_of(&world), (CAUSE_ACCESS_KCC, 29));
    let world = World::new(&[cap3(17, 3, 1, 30)]);
    assert_eq!(exception_of(&world), (CAUSE_ACCESS_KDC, 30));
}

#[test]
fn a17_cchecktype_names_cs() {
    let sealed = |otype| Cap { sealed: true, otype, ..tagged(0, 0, 0) };
    let world = World::new(&[cap2(21, 1, 2)]).with_cap(1, sealed(4)).with_cap(2, sealed(5));
    assert_eq!(exception_of(&world), (CAUSE_TYPE, 1));
    world.with_cap(1, sealed(5)).step();
}

#[test]
fn a17_ccheckperm_does_not_look_at_the_seal() {
    let sealed = Cap { sealed: true, ..tagged(0, 0, LOAD) };
    let world = World::new(&[cap2(20, 1, 2)]).with_cap(1, sealed);
    world.clone().with(2, u64::from(LOAD)).step();
    let wanting = world.with(2, u64::from(LOAD | STORE));
    assert_eq!(exception_of(&wanting), (CAUSE_USER_DEFINED, 1));
}

#[test]
fn a17_both_length_tests_of_cseal_name_ct() {
    let world = World::new(&[cap3(18, 3, 1, 2)]).with_cap(1, tagged(0, 0, 0));
    let past_length = Cap { offset: 4, ..tagged(0, 4, SEAL) };
    assert_eq!(exception_of(&world.clone().with_cap(2, past_length)), (CAUSE_LENGTH, 2));
    let past_width = tagged(1 << 24, 4, SEAL);
    assert_eq!(exception_of(&world.clone().with_cap(2, past_width)), (CAUSE_LENGTH, 2));
    let mut made = world.with_cap(2, Cap { base: (1 << 24) - 1, ..past_width });
    made.step();
    assert_eq!(made.cap(3), Cap { sealed: true, otype: 0xFF_FFFF, ..tagged(0, 0, 0) });
}

#[test]
fn a18_untagged_registers_are_compared_by_their_cursors() {
    let at = |tag, offset| Cap { tag, base: 10, offset, sealed: true, ..Cap::default() };
    let ask = |kind, first, second| {
        let world = World::new(&[cap3(28, 3, 1, 2) | kind]).with(3, u64::MAX);
        let mut world = world.with_cap(1, first).with_cap(2, second);
        world.step();
        world.general(3)
    };
    let (low, high) = (at(false, 1), at(false, 2));
    assert_eq!((ask(0, low, low), ask(0, low, high), ask(1, low, high)), (1, 0, 1));
    assert_eq!((ask(4, low, high), ask(4, high, low), ask(5, low, low)), (1, 0, 1));
    // An untagged register is less than any tagged one.
    let tagged_low = at(true, 0);
    assert_eq!((ask(0, high, tagged_low), ask(1, high, tagged_low)), (0, 1));
    for kind in 2..6 {
        assert_eq!((ask(kind, high, tagged_low), ask(kind, tagged_low, high)), (1, 0));
    }
}
