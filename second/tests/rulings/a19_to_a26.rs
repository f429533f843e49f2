//! Rulings A19 to A26.

use crate::common::*;
use second::*;

#[test]
fn a19_the_cause_register_wants_access_epcc_and_names_no_register() {
    for word in [cap1(8, 1), cap1(9, 1)] {
        let world = World::new(&[word]).with_pcc(ALL & !(1 << ACCESS_EPCC));
        assert_eq!(exception_of(&world), (0x1A, 255));
    }
}

#[test]
fn a19_the_cause_is_in_15_to_8_and_the_register_in_7_to_0() {
    let mut world = World::new(&[cap3(13, 1, 2, 0)]);
    world.run(1);
    assert_eq!(world.machine.cause, 0x0202);
    let mut world = World::new(&[cap1(8, 1), cap1(9, 2), cap1(8, 3)]).with_pcc(ACCESS_ALL);
    world.machine.cause = 0x1205;
    world.machine.general[2] = 0xFFFF_FFFF_FFFF_8034;
    world.step();
    assert_eq!(world.general(1), 0x1205);
    world.step();
    world.step();
    assert_eq!((world.machine.cause, world.general(3)), (0x8034, 0x8034));
}

#[test]
fn a19_a_stop_other_than_1_leaves_the_cause_register() {
    let words = [BREAK, 1, beq(0, 0, 0), cload(1, 1, 0, 1, 3), cstore(1, 1, 0, 1, 3)];
    for word in words.into_iter().chain([cload(1, 1, 0, 8, 3), cstore(1, 2, 0, 0, 3)]) {
        let mut world = World::new(&[word]).with_cap(1, tagged(1 << 30, 64, ALL));
        world.machine.caps[2] = tagged(0, 64, ALL);
        world.machine.cause = 0x1234;
        world.machine.pending = Some(Cap::default());
        let (stop, _, _) = stop_of(&world);
        assert!((2..=8).contains(&stop));
    }
}

#[test]
fn a20_a_write_to_general_0_vanishes_after_the_checks() {
    let mut world = World::new(&[cap2(0, 0, 1), daddiu(0, 0, 5), lbu(0, 0, 1)]);
    world = world.with_cap(1, tagged(77, 0, 0)).with_cap(0, cap_a());
    world.ram[1] = 9;
    let outcome = world.run(3);
    assert_eq!((outcome.stop, world.general(0)), (0, 0));
    let world = World::new(&[cap2(0, 0, 27)]);
    assert_eq!(exception_of(&world), (CAUSE_ACCESS_KR1C, 27));
    let world = World::new(&[ld(0, 0, 64)]).with_cap(0, cap_a());
    assert_eq!(exception_of(&world), (CAUSE_LENGTH, 0));
}

#[test]
fn a21_clc_wants_load_capability_alone() {
    let world = World::new(&[clc(2, 1, 0, 32)]);
    let others = tagged(RAM_BASE, 64, ALL & !LOAD_CAP);
    assert_eq!(exception_of(&world.clone().with_cap(1, others)), (0x14, 1));
    let stored = Cap { sealed: true, otype: 3, spare: 4, offset: 5, ..tagged(6, 7, 8) };
    let world = world.with_cap(1, tagged(RAM_BASE, 64, LOAD_CAP));
    let mut world = world.with_line(1, stored);
    world.step();
    assert_eq!(world.cap(2), stored);
}

#[test]
fn a21_csc_wants_store_capability_alone() {
    let world = World::new(&[csc(2, 1, 0, 32)]);
    let others = tagged(RAM_BASE, 64, ALL & !STORE_CAP);
    assert_eq!(exception_of(&world.clone().with_cap(1, others)), (0x15, 1));
    let stored = Cap { spare: 4, offset: 5, ..tagged(6, 7, IS_GLOBAL) };
    let world = world.with_cap(1, tagged(RAM_BASE, 64, STORE_CAP));
    let mut world = world.with_cap(2, stored);
    let expected = world.clone().with_line(1, stored);
    world.step();
    assert_eq!((world.ram, world.tags), (expected.ram, expected.tags));
}

#[test]
fn a21_the_store_local_test_looks_at_cs_and_names_cb() {
    let world = World::new(&[csc(2, 1, 0, 0)]).with_cap(1, tagged(RAM_BASE, 64, STORE_CAP));
    let local = tagged(0, 0, ALL & !IS_GLOBAL);
    assert_eq!(exception_of(&world.clone().with_cap(2, local)), (0x16, 1));
    // An untagged local one is data; a global one may go anywhere.
    world.clone().with_cap(2, Cap { tag: false, ..local }).step();
    world.clone().with_cap(2, tagged(0, 0, IS_GLOBAL)).step();
    let open = tagged(RAM_BASE, 64, STORE_CAP | STORE_LOCAL);
    world.with_cap(1, open).with_cap(2, local).step();
}

#[test]
fn a21_clc_and_csc_immediates_count_bytes() {
    let through = Cap { offset: 64, ..tagged(RAM_BASE, 256, ALL) };
    let world = World::new(&[clc(2, 1, 0, -32)]).with_cap(1, through);
    let mut world = world.with_line(1, tagged(1, 2, 3));
    world.step();
    assert_eq!(world.cap(2), tagged(1, 2, 3));
    for (word, stop) in [(clc(2, 1, 0, 1), 2), (csc(2, 1, 0, 1), 3), (csc(2, 1, 0, -1), 3)] {
        let world = World::new(&[word]).with_cap(1, through);
        assert_eq!(stop_of(&world), (stop, 0, 0));
    }
}

#[test]
fn a22_the_mips_accesses_report_register_0() {
    for (word, cause) in [(ld(1, 5, 0), 0x12), (lbu(1, 5, 0), 0x12)] {
        let world = World::new(&[word]).with_cap(0, tagged(RAM_BASE, 64, STORE));
        assert_eq!(exception_of(&world), (cause, 0));
    }
    for word in [sd(1, 5, 0), sb(1, 5, 0)] {
        let world = World::new(&[word]).with_cap(0, tagged(RAM_BASE, 64, LOAD));
        assert_eq!(exception_of(&world), (0x13, 0));
    }
}

#[test]
fn a22_the_mips_accesses_count_the_offset_of_c0() {
    let through = Cap { offset: 16, ..cap_a() };
    let world = World::new(&[sd(1, 5, 8), ld(2, 5, 8), lbu(3, 5, 9)]).with_cap(0, through);
    let mut world = world.with(1, 0x1122_3344_5566_7788).with(5, (-16i64) as u64);
    assert_eq!(world.run(3).stop, 0);
    assert_eq!(world.ram[8..16], 0x1122_3344_5566_7788u64.to_be_bytes());
    assert_eq!((world.general(2), world.general(3)), (0x1122_3344_5566_7788, 0x22));
}

#[test]
fn a22_alignment_comes_before_memory_and_flash() {
    let far = tagged(1 << 32, 64, ALL);
    for (word, stop) in [(cload(2, 1, 0, 4, 3), 2), (cstore(2, 1, 0, 4, 3), 3)] {
        assert_eq!(stop_of(&World::new(&[word]).with_cap(1, far)), (stop, 0, 0));
    }
    for word in [cload(2, 1, 0, 8, 3), cstore(2, 1, 0, 8, 3), clc(2, 1, 0, 0), csc(2, 1, 0, 0)] {
        assert_eq!(stop_of(&World::new(&[word]).with_cap(1, far)), (5, 0, 0));
    }
    let flash = tagged(0, 64, ALL);
    for word in [cstore(2, 1, 0, 8, 3), cstore(2, 1, 0, 9, 0), csc(2, 1, 0, 0)] {
        assert_eq!(stop_of(&World::new(&[word]).with_cap(1, flash)), (6, 0, 0));
    }
    let word = cstore(2, 1, 0, 4, 3);
    assert_eq!(stop_of(&World::new(&[word]).with_cap(1, flash)), (3, 0, 0));
}

#[test]
fn a23_cjr_and_cjalr_test_in_order() {
    for word in [cap1(22, 1), cap2(23, 2, 1)] {
        let of = |cap| stop_of(&World::new(&[word]).with_cap(1, cap));
        // The offset + 4 is 2^64 + 2, exactly past any length; taken mod 2^64 it is 2.
        let cap = Cap { sealed: true, offset: 0u64.wrapping_sub(2), length: 32, ..Cap::default() };
        assert_eq!(of(cap), (1, CAUSE_TAG, 1));
        let cap = Cap { tag: true, ..cap };
        assert_eq!(of(cap), (1, CAUSE_SEAL, 1));
        let cap = Cap { sealed: false, ..cap };
        assert_eq!(of(cap), (1, CAUSE_PERMIT_EXECUTE, 1));
        let cap = Cap { perms: EXECUTE, ..cap };
        assert_eq!(of(cap), (1, CAUSE_GLOBAL, 1));
        let cap = Cap { perms: EXECUTE | IS_GLOBAL, ..cap };
        assert_eq!(of(cap), (1, CAUSE_LENGTH, 1));
        assert_eq!(of(Cap { offset: 29, ..cap }), (1, CAUSE_LENGTH, 1));
        assert_eq!(of(Cap { offset: 2, ..cap }), (2, 0, 0));
        // It is base + offset that is aligned, not the offset.
        assert_eq!(of(Cap { base: 2, offset: 0, ..cap }), (2, 0, 0));
        World::new(&[word]).with_cap(1, Cap { base: 2, offset: 2, ..cap }).step();
    }
}

#[test]
fn a23_a_target_in_no_memory_shows_at_its_fetch() {
    for word in [cap1(22, 1), cap2(23, 2, 1)] {
        let far = Cap { offset: 8, ..tagged(1 << 32, 64, EXECUTE | IS_GLOBAL) };
        let mut world = World::new(&[word]).with_cap(1, far);
        assert_eq!(line(&world.run(9)), [5, 0, 0, 8, 2]);
        assert_eq!(world.machine.pcc, far);
    }
}

#[test]
fn a24_a_fault_in_fetch_comes_before_7() {
    let pending = Some(Cap { offset: 99, ..Cap::default() });
    let mut world = World::new(&[beq(0, 0, 0)]);
    world.machine.pending = pending;
    assert_eq!(stop_of(&world), (7, 0, 0));
    world.machine.pcc.perms = 0;
    assert_eq!(stop_of(&world), (1, CAUSE_PERMIT_EXECUTE, 255));
    world.machine.pcc = Cap { offset: 1, ..tagged(0, 32, EXECUTE) };
    assert_eq!(stop_of(&world), (2, 0, 0));
    world.machine.pcc = tagged(1 << 32, 32, EXECUTE);
    assert_eq!(stop_of(&world), (5, 0, 0));
}

#[test]
fn a24_a_slot_that_cannot_be_fetched_keeps_the_pending_jump() {
    let mut world = World::new(&[beq(0, 0, 3)]);
    world.machine.pcc.length = 4;
    assert_eq!(line(&world.run(9)), [1, 1, 255, 4, 1]);
    assert_eq!(world.machine.pending.map(|cap| cap.offset), Some(16));
    assert_eq!(world.machine.pcc.offset, 4);
}

#[test]
fn a24_the_place_does_not_count_the_base() {
    let mut world = World::new(&[NOP, NOP, NOP, NOP, NOP, NOP, NOP, NOP, NOP, BREAK]);
    world.machine.pcc = tagged(32, 32, EXECUTE);
    assert_eq!(line(&world.run(9)), [8, 0, 0, 4, 1]);
}

#[test]
fn a25_reserved_words() {
    let (ssnop, ehb, sll, srl) = (0x40, 0xC0, 0x0001_0840, 0x0001_0842);
    let (dsll, dsll_by_0) = (special(56, 1, 0, 2), special(0, 1, 0, 2));
    let drotrv = special(22, 1, 2, 3) | 0x40;
    let dsllv = special(20, 1, 2, 3) | 0x40;
    let add = daddu(1, 2, 3) | 0x400;
    let lui = immediate(15, 1, 2, 3);
    for word in [ssnop, ehb, sll, srl, dsll, dsll_by_0, drotrv, dsllv, add, lui] {
        assert_eq!(stop_of(&World::new(&[word])), (4, 0, 0));
    }
    for word in [6, 7, 8, 0x20].map(|low| cap3(28, 1, 2, 3) | low) {
        assert_eq!(stop_of(&World::new(&[word])), (4, 0, 0));
    }
    for word in [29, 30, 31].map(|number| cap1(number, 0)) {
        assert_eq!(stop_of(&World::new(&[word])), (4, 0, 0));
    }
    let (signed_8, store_2, return_1) = (cload_signed(1, 1, 0, 0, 3), 58 << 26 | 4, cap1(27, 1));
    for word in [signed_8, store_2, store_2 | 3, return_1, cap1(27, 0) | 1] {
        assert_eq!(stop_of(&World::new(&[word])), (4, 0, 0));
    }
}

#[test]
fn a25_break_with_any_code_is_break() {
    for code in [0, 1, 31, 0xF_FFFF] {
        assert_eq!(stop_of(&World::new(&[code << 6 | 13])), (8, 0, 0));
    }
}

/// The result in general register 3 of a word on registers 1 and 2.
fn result(word: u32, first: u64, second: u64) -> u64 {
    let mut world = World::new(&[word]).with(1, first).with(2, second);
    world.step();
    world.general(3)
}

#[test]
fn a26_shift_amounts_are_the_low_6_bits_of_rs() {
    let (dsllv, dsrlv) = (special(20, 3, 1, 2), special(22, 3, 1, 2));
    assert_eq!(result(dsllv, 0x1_0000_0044, 3), 0x30);
    assert_eq!(result(dsllv, 63, 3), 1 << 63);
    assert_eq!(result(dsllv, 64, 3), 3);
    assert_eq!(result(dsrlv, 0xFFC4, 0x8000_0000_0000_0030), 0x0800_0000_0000_0003);
    assert_eq!(result(dsrlv, 63, u64::MAX), 1);
}

#[test]
fn a26_how_immediates_are_extended() {
    let (andi, ori, lui) = (12, 13, 15);
    assert_eq!(result(immediate(lui, 0, 3, 0x8000), 0, 0), 0xFFFF_FFFF_8000_0000);
    assert_eq!(result(immediate(lui, 0, 3, 0x7FFF), 0, 0), 0x7FFF_0000);
    assert_eq!(result(immediate(andi, 1, 3, -1), u64::MAX, 0), 0xFFFF);
    assert_eq!(result(immediate(ori, 1, 3, -1), 1 << 63, 0), 0x8000_0000_0000_FFFF);
    assert_eq!(result(daddiu(3, 1, -1), 0, 0), u64::MAX);
    assert_eq!(result(daddiu(3, 1, 0x7FFF), 1, 0), 0x8000);
}
