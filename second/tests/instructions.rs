//! What the instructions do where nothing stops them.

use crate::common::*;
use second::random::Random;
use second::*;

#[test]
fn registers_of_mips() {
    let of = |function, first: u64, second: u64| {
        let mut world = World::new(&[special(function, 3, 1, 2)]).with(1, first).with(2, second);
        world.step();
        world.general(3)
    };
    assert_eq!((of(45, u64::MAX, 2), of(47, 1, 2)), (1, u64::MAX));
    assert_eq!((of(36, 12, 10), of(37, 12, 10), of(38, 12, 10)), (8, 14, 6));
    assert_eq!((of(42, u64::MAX, 0), of(42, 0, u64::MAX), of(42, 5, 5)), (1, 0, 0));
    assert_eq!((of(43, u64::MAX, 0), of(43, 0, u64::MAX), of(43, 5, 5)), (0, 1, 0));
}

#[test]
fn fields_of_any_register_are_read() {
    for tag in [false, true] {
        let cap = Cap { tag, sealed: true, perms: 0x7ABC_DEF1, otype: 0xFEDCBA, ..Cap::default() };
        let cap = Cap { base: 11, length: 12, offset: 13, ..cap };
        let values = [11, 12, 13, 0x7ABC_DEF1, u64::from(tag), 1, 0xFEDCBA];
        for (number, value) in (0..).zip(values) {
            let mut world = World::new(&[cap2(number, 5, 6)]).with(5, u64::MAX).with_cap(6, cap);
            world.step();
            assert_eq!(world.general(5), value);
        }
    }
}

#[test]
fn loads_are_big_endian_and_extend() {
    let mut world = World::new(&[]).with_cap(1, cap_a());
    world.ram[..8].copy_from_slice(&0x81A2_83F4_8596_A7B8u64.to_be_bytes());
    let mut of = |word: u32| {
        world.flash = flash_of(&[word]);
        world.machine.pcc = tagged(0, 32, EXECUTE);
        world.step();
        world.general(2)
    };
    assert_eq!((of(cload(2, 1, 0, 0, 0)), of(cload(2, 1, 0, 7, 0))), (0x81, 0xB8));
    assert_eq!((of(cload(2, 1, 0, 2, 1)), of(cload(2, 1, 0, 4, 2))), (0x83F4, 0x8596_A7B8));
    assert_eq!(of(cload(2, 1, 0, 0, 3)), 0x81A2_83F4_8596_A7B8);
    assert_eq!(of(cload_signed(2, 1, 0, 0, 0)), 0xFFFF_FFFF_FFFF_FF81);
    assert_eq!(of(cload_signed(2, 1, 0, 2, 1)), 0xFFFF_FFFF_FFFF_83F4);
    assert_eq!(of(cload_signed(2, 1, 0, 4, 2)), 0xFFFF_FFFF_8596_A7B8);
}

#[test]
fn stores_take_the_low_bytes_and_clear_one_tag() {
    for code in 0..4 {
        let size = 1 << code;
        let world = World::new(&[cstore(2, 1, 0, 40, code)]).with_cap(1, cap_a());
        let mut world = world.with(2, 0x1122_3344_5566_7788);
        world.tags = vec![1; 8];
        world.step();
        let mut expected = vec![0; 256];
        let low = &0x1122_3344_5566_7788u64.to_be_bytes()[8 - size..];
        expected[40..40 + size].copy_from_slice(low);
        assert_eq!((world.ram, world.tags), (expected, vec![1, 0, 1, 1, 1, 1, 1, 1]));
    }
}

#[test]
fn a_trapped_store_clears_no_tag() {
    let words = [cstore(2, 1, 0, 60, 3), cstore(2, 1, 0, 57, 3), csc(2, 1, 0, 1)];
    for word in words {
        let mut world = World::new(&[word]).with_cap(1, tagged(RAM_BASE, 64, ALL));
        world.tags = vec![1; 8];
        stop_of(&world);
    }
}

#[test]
fn a_capability_load_from_flash_is_untagged() {
    let mut world = World::new(&[clc(2, 1, 0, 0)]).with_cap(1, tagged(0, 32, LOAD_CAP));
    world.step();
    let line: [u8; 32] = world.flash[..32].try_into().unwrap();
    assert_eq!(world.cap(2), Cap::from_bytes(&line, false));
}

#[test]
fn data_loads_from_flash_and_code_in_ram() {
    let mut world = World::new(&[cload(2, 1, 0, 4, 2), 0xCAFE_F00D]);
    world = world.with_cap(1, tagged(0, 32, LOAD));
    world.step();
    assert_eq!(world.general(2), 0xCAFE_F00D);
    world.ram[32..36].copy_from_slice(&daddiu(3, 0, 7).to_be_bytes());
    world.machine.pcc = tagged(RAM_BASE + 32, 4, EXECUTE);
    world.step();
    assert_eq!(world.general(3), 7);
}

#[test]
fn an_access_may_end_where_the_memory_ends() {
    let all = tagged(0, u64::MAX, ALL);
    let last = RAM_BASE + 256 - 32;
    let world = World::new(&[clc(2, 1, 3, 0)]).with_cap(1, all);
    world.clone().with(3, last).step();
    assert_eq!(stop_of(&world.clone().with(3, last + 32)), (5, 0, 0));
    assert_eq!(stop_of(&world.clone().with(3, RAM_BASE - 32)), (5, 0, 0));
    assert_eq!(stop_of(&world.with(3, 32)), (5, 0, 0));
    let none = World::new(&[clc(2, 1, 3, 0)]).with_cap(1, all).with(3, RAM_BASE);
    let none = World { ram: Vec::new(), tags: Vec::new(), ..none };
    assert_eq!(stop_of(&none), (5, 0, 0));
}

#[test]
fn deriving_keeps_the_spare_bits() {
    let source = Cap { spare: 0xC3, offset: 4, ..tagged(16, 16, ALL) };
    for number in [10, 11, 12, 13, 14, 15, 16, 18] {
        let third = if number == 11 { 0 } else { 2 };
        let world = World::new(&[cap3(number, 3, 1, third)]).with_cap(1, source).with(2, 8);
        let mut world = world.with_cap(2, tagged(0, 64, SEAL));
        world.step();
        assert_eq!(world.cap(3).spare, 0xC3, "{number}");
        assert_ne!(world.cap(3), Cap { spare: 0xC3, ..Cap::default() });
    }
}

#[test]
fn seal_and_unseal() {
    let source = Cap { otype: 99, spare: 7, offset: 3, ..tagged(16, 16, ALL) };
    let authority = Cap { offset: 4, ..tagged(1_000, 5, SEAL | IS_GLOBAL) };
    let world = World::new(&[cap3(18, 3, 1, 2), cap3(19, 4, 3, 2)]).with_cap(1, source);
    let mut world = world.with_cap(2, authority);
    world.step();
    assert_eq!(world.cap(3), Cap { sealed: true, otype: 1_004, ..source });
    world.step();
    assert_eq!(world.cap(4), Cap { otype: 0, ..source });
}

#[test]
fn the_slot_runs_under_the_old_pcc_before_the_jump() {
    // The target has Access_EPCC, the old PCC has not: the slot is told so.
    let target = tagged(0, 32, EXECUTE | IS_GLOBAL | ACCESS_ALL);
    let words = [cap1(22, 1), cap1(8, 2), BREAK];
    let mut world = World::new(&words).with_cap(1, target);
    assert_eq!(line(&world.run(9)), [1, 0x1A, 255, 4, 1]);
    assert_eq!(world.machine.pending, Some(target));
    let mut world = World::new(&[cap1(22, 1), daddiu(1, 1, 1), BREAK]);
    world = world.with_cap(1, Cap { offset: 8, ..target });
    assert_eq!(line(&world.run(9)), [8, 0, 0, 8, 2]);
    assert_eq!((world.general(1), world.machine.pcc.perms), (1, target.perms));
}

#[test]
fn untaken_branches_leave_nothing_pending() {
    let words = [bne(0, 0, 3), beq(0, 1, 3), cbts(9, 3), cbtu(8, 3)];
    let mut world = World::new(&words).with(1, 1).with_cap(8, tagged(0, 0, 0));
    assert_eq!(line(&world.run(4)), [0, 0, 0, 0, 4]);
    assert_eq!((world.machine.pending, world.machine.pcc.offset), (None, 16));
}

#[test]
fn a_run_is_its_steps_one_by_one() {
    let mut random = Random::new(31);
    for _ in 0..3_000 {
        let words: Vec<u32> = (0..16).map(|_| decodable(&mut random)).collect();
        let mut world = World::new(&words).with_cap(0, cap_a()).with_pcc(ALL);
        world.machine.caps[1] = Cap { offset: 32, ..tagged(RAM_BASE, 256, ALL) };
        world.machine.caps[2] = world.machine.pcc;
        let mut stepped = world.clone();
        let outcome = world.run(40);
        let mut steps = 0;
        let last = loop {
            let one = stepped.run(1);
            if one.stop != 0 || steps + 1 == 40 {
                break one;
            }
            steps += 1;
        };
        let expected = Outcome { steps: steps + last.steps, ..last };
        assert_eq!((outcome, world), (expected, stepped));
    }
}

/// A random word that is no reserved one, on registers 0 to 3.
fn decodable(random: &mut Random) -> u32 {
    loop {
        let majors = [0, 4, 5, 12, 18, 18, 25, 36, 40, 50, 54, 55, 58, 62, 63];
        let word = random.pick(&majors) << 26 | random.next() as u32 & 0x03E3_18FF;
        if decode(word) != Instruction::Reserved {
            return word;
        }
    }
}
