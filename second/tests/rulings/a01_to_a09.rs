//! Rulings A1 to A9.

use crate::common::*;
use second::*;

#[test]
fn a01_ccall_with_a_selector_is_reserved() {
    assert_eq!(stop_of(&World::new(&[cap2(26, 1, 2)])), (1, CAUSE_CALL, 1));
    for selector in 1..32 {
        let word = cap3(26, 1, 2, selector);
        assert_eq!(stop_of(&World::new(&[word])), (4, 0, 0));
    }
    for low in 1..64 {
        let word = cap2(26, 1, 2) | low;
        assert_eq!(stop_of(&World::new(&[word])), (4, 0, 0));
    }
}

#[test]
fn a02_cjalr_onto_itself_jumps_to_the_old_value() {
    let target = Cap { spare: 9, offset: 16, ..tagged(0, 32, EXECUTE | IS_GLOBAL) };
    let mut world = World::new(&[cap2(23, 5, 5)]).with_cap(5, target);
    world.step();
    assert_eq!(world.machine.pending, Some(target));
    assert_eq!(world.cap(5), Cap { offset: 8, ..World::new(&[NOP]).machine.pcc });
}

#[test]
fn a03_cincoffset_by_0_of_a_sealed_capability_raises_seal_on_cb() {
    let sealed = Cap { sealed: true, ..tagged(0, 32, 0) };
    let world = World::new(&[cap3(15, 1, 5, 0)]).with_cap(5, sealed);
    assert_eq!(exception_of(&world), (CAUSE_SEAL, 5));
}

#[test]
fn a03_cincoffset_adds_mod_two_to_the_64() {
    let source = Cap { offset: u64::MAX, spare: 3, ..tagged(8, 32, 5) };
    let mut world = World::new(&[cap3(15, 1, 5, 2)]).with_cap(5, source).with(2, 3);
    world.step();
    assert_eq!(world.cap(1), Cap { offset: 2, ..source });
}

#[test]
fn a04_cbts_counts_words_in_its_length_test() {
    // 0 + 8 + 4 is within 32 bytes, 0 + 4 * 8 + 4 is not.
    let world = World::new(&[cbts(1, 8)]).with_cap(1, tagged(0, 0, 0));
    assert_eq!(exception_of(&world), (CAUSE_LENGTH, NO_REGISTER));
    let mut world = World::new(&[cbts(1, 7)]).with_cap(1, tagged(0, 0, 0));
    assert_eq!(line(&world.run(9)), [1, 1, 255, 32, 2]);
}

#[test]
fn a04_cbts_on_an_unset_tag_tests_no_length() {
    let mut world = World::new(&[cbts(1, 0x7FFF), BREAK]);
    assert_eq!(line(&world.run(9)), [8, 0, 0, 4, 1]);
    assert_eq!(world.machine.pending, None);
}

#[test]
fn a05_target_below_0_is_taken_and_the_fetch_raises() {
    let slot = daddiu(1, 1, 7);
    for (word, tag) in [(cbtu(1, -2), false), (cbts(1, -2), true)] {
        let cap = Cap { tag, ..Cap::default() };
        let mut world = World::new(&[word, slot]).with_cap(1, cap);
        let place = 0u64.wrapping_sub(4);
        assert_eq!(line(&world.run(9)), [1, 1, 255, place, 2]);
        assert_eq!(world.general(1), 7);
    }
}

#[test]
fn a05_length_at_the_branch_names_no_register() {
    let world = World::new(&[cbtu(9, 8)]);
    assert_eq!(exception_of(&world), (CAUSE_LENGTH, NO_REGISTER));
}

#[test]
fn a06_beq_and_bne_make_no_length_test() {
    let slot = daddiu(3, 3, 1);
    for word in [beq(1, 1, 0x7FFF), bne(1, 0, 0x7FFF)] {
        let mut world = World::new(&[word, slot]).with(1, 5);
        assert_eq!(line(&world.run(9)), [1, 1, 255, 0x2_0000, 2]);
        assert_eq!(world.general(3), 1);
    }
    let mut world = World::new(&[beq(0, 0, -2), slot]);
    assert_eq!(line(&world.run(9)), [1, 1, 255, 0u64.wrapping_sub(4), 2]);
}

/// CPtrCmp of two tagged cursors.
fn compare(kind: u32, first: u64, second: u64) -> u64 {
    let at = |base| tagged(base, 0, 0);
    let world = World::new(&[cap3(28, 3, 1, 2) | kind]);
    let mut world = world.with_cap(1, at(first)).with_cap(2, at(second));
    world.step();
    world.general(3)
}

#[test]
fn a07_signed_compare_turns_at_two_to_the_63() {
    let (clt, cle) = (2, 3);
    assert_eq!(compare(clt, 1, 1 << 33), 1);
    assert_eq!(compare(clt, 1 << 33, 1), 0);
    assert_eq!(compare(cle, 1 << 33, 1), 0);
    assert_eq!(compare(clt, 1 << 63, 1), 1);
    assert_eq!(compare(clt, (1 << 63) - 1, 1 << 63), 0);
    assert_eq!(compare(cle, 1 << 63, 1 << 63), 1);
}

#[test]
fn a07_unsigned_compare_does_not_turn() {
    let (ceq, cne, cltu, cleu) = (0, 1, 4, 5);
    assert_eq!(compare(cltu, 1 << 63, 1), 0);
    assert_eq!(compare(cltu, 1, 1 << 63), 1);
    assert_eq!(compare(cleu, 7, 7), 1);
    assert_eq!(compare(cleu, 8, 7), 0);
    assert_eq!((compare(ceq, 7, 7), compare(ceq, 7, 8)), (1, 0));
    assert_eq!((compare(cne, 7, 7), compare(cne, 7, 8)), (0, 1));
}

#[test]
fn a08_ccheckperm_takes_all_64_bits() {
    for bit in 31..64 {
        let world = World::new(&[cap2(20, 1, 2)]).with_cap(1, tagged(0, 0, ALL));
        let world = world.with(2, 1 << bit);
        assert_eq!(exception_of(&world), (CAUSE_USER_DEFINED, 1));
    }
    let world = World::new(&[cap2(20, 1, 2)]).with_cap(1, tagged(0, 0, ALL));
    world.with(2, u64::from(ALL)).step();
}

#[test]
fn a08_candperm_takes_bits_0_to_30() {
    let source = Cap { spare: 1, ..tagged(0, 0, 0x7000_000F) };
    let world = World::new(&[cap3(10, 3, 1, 2)]).with_cap(1, source);
    let mut world = world.with(2, 0xFFFF_FFFF_9000_0003);
    world.step();
    assert_eq!(world.cap(3), Cap { perms: 0x1000_0003, ..source });
}

/// CUnseal C3 from C1 of otype 5 by C2.
fn unseal_by(authority: Cap) -> World {
    let sealed = Cap { sealed: true, otype: 5, spare: 7, ..tagged(64, 8, ALL) };
    World::new(&[cap3(19, 3, 1, 2)]).with_cap(1, sealed).with_cap(2, authority)
}

#[test]
fn a09_cunseal_compares_an_exact_sum() {
    // The sum is 2^64 + 5; taken mod 2^64 the Type test would pass.
    let authority = Cap { offset: 13, ..tagged(0u64.wrapping_sub(8), 8, SEAL) };
    assert_eq!(exception_of(&unseal_by(authority)), (CAUSE_TYPE, 2));
}

#[test]
fn a09_cunseal_tests_type_then_permit_seal_then_length() {
    let wrong_type = Cap { offset: 4, ..tagged(0, 4, 0) };
    assert_eq!(exception_of(&unseal_by(wrong_type)), (CAUSE_TYPE, 2));
    let no_seal = Cap { offset: 5, ..wrong_type };
    assert_eq!(exception_of(&unseal_by(no_seal)), (CAUSE_PERMIT_SEAL, 2));
    let no_length = Cap { perms: SEAL, length: 5, ..no_seal };
    assert_eq!(exception_of(&unseal_by(no_length)), (CAUSE_LENGTH, 2));
    let mut world = unseal_by(Cap { length: 6, ..no_length });
    world.step();
    let expected = Cap { spare: 7, ..tagged(64, 8, ALL & !IS_GLOBAL) };
    assert_eq!(world.cap(3), expected);
}
