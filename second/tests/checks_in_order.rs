//! The checks of each instruction in the order of 004: every fault at once, mended one by one.

use crate::common::*;
use second::*;

/// What stops the word, and what mends it.
type Rung = ((u32, u32, u32), fn(&mut World));

/// Climbs from a world with every fault to one whose step is made.
fn climb(mut world: World, rungs: &[Rung]) -> World {
    for (number, (stop, mend)) in rungs.iter().enumerate() {
        assert_eq!(stop_of(&world), *stop, "rung {number}");
        mend(&mut world);
    }
    world.step();
    world
}

fn open(world: &mut World, permission: u32) {
    world.machine.pcc.perms |= 1 << permission;
}

fn tag(world: &mut World, register: usize) {
    world.machine.caps[register].tag = true;
}

fn turn_seal(world: &mut World, register: usize) {
    world.machine.caps[register].sealed ^= true;
}

fn grant(world: &mut World, register: usize, permission: u32) {
    world.machine.caps[register].perms |= 1 << permission;
}

/// A sealed untagged register with no permission.
fn faulty() -> Cap {
    Cap { sealed: true, ..Cap::default() }
}

#[test]
fn fetch() {
    let mut world = World::new(&[NOP]);
    world.machine.pcc = Cap { sealed: true, offset: 1, ..tagged(1 << 40, 4, 0) };
    world.machine.pcc.tag = false;
    climb(
        world,
        &[
            ((1, 2, 255), |world| world.machine.pcc.tag = true),
            ((1, 3, 255), |world| world.machine.pcc.sealed = false),
            ((1, 0x11, 255), |world| world.machine.pcc.perms = EXECUTE),
            ((1, 1, 255), |world| world.machine.pcc.length = 8),
            ((2, 0, 0), |world| world.machine.pcc.offset = 4),
            ((5, 0, 0), |world| world.machine.pcc.base = 0),
        ],
    );
}

#[test]
fn fetch_aligns_base_plus_pc() {
    let mut world = World::new(&[NOP]);
    world.machine.pcc = tagged(2, 16, EXECUTE);
    assert_eq!(stop_of(&world), (2, 0, 0));
    world.machine.pcc.offset = 2;
    world.step();
    assert_eq!(world.machine.pcc.offset, 6);
}

#[test]
fn fetch_at_the_end_of_addresses() {
    let mut world = World::new(&[NOP]);
    let pcc = Cap { offset: 4, ..tagged(0u64.wrapping_sub(8), 8, EXECUTE) };
    world.machine.pcc = pcc;
    assert_eq!(stop_of(&world), (5, 0, 0));
    world.machine.pcc = Cap { offset: 5, ..pcc };
    assert_eq!(stop_of(&world), (1, 1, 255));
    world.machine.pcc = Cap { offset: u64::MAX, ..pcc };
    assert_eq!(stop_of(&world), (1, 1, 255));
}

#[test]
fn data_load() {
    let far = Cap { base: 1 << 32, ..faulty() };
    let world = World::new(&[cload(2, 30, 3, 4, 3)]).with(3, 5).with_cap(30, far);
    climb(
        world,
        &[
            ((1, 0x1B, 30), |world| open(world, ACCESS_KDC)),
            ((1, 2, 30), |world| tag(world, 30)),
            ((1, 3, 30), |world| turn_seal(world, 30)),
            ((1, 0x12, 30), |world| grant(world, 30, PERMIT_LOAD)),
            ((1, 1, 30), |world| world.machine.caps[30].length = 17),
            ((2, 0, 0), |world| world.machine.general[3] = 4),
            ((5, 0, 0), |world| world.machine.caps[30].base = RAM_BASE + 8),
        ],
    );
}

#[test]
fn it_is_base_plus_o_that_is_aligned() {
    let world = World::new(&[cload(2, 1, 0, 4, 3)]);
    assert_eq!(stop_of(&world.clone().with_cap(1, tagged(8, 12, LOAD))), (2, 0, 0));
    world.with_cap(1, tagged(4, 12, LOAD)).step();
}

#[test]
fn data_store() {
    let world = World::new(&[cstore(2, 29, 3, 4, 3)]).with(3, 5).with_cap(29, faulty());
    climb(
        world,
        &[
            ((1, 0x1C, 29), |world| open(world, ACCESS_KCC)),
            ((1, 2, 29), |world| tag(world, 29)),
            ((1, 3, 29), |world| turn_seal(world, 29)),
            ((1, 0x13, 29), |world| grant(world, 29, PERMIT_STORE)),
            ((1, 1, 29), |world| world.machine.caps[29].length = 17),
            ((3, 0, 0), |world| world.machine.general[3] = 4),
            ((6, 0, 0), |world| world.machine.caps[29].base = 1 << 32),
            ((5, 0, 0), |world| world.machine.caps[29].base = RAM_BASE),
        ],
    );
}

#[test]
fn stores_count_the_offset_of_cb() {
    for word in [cstore(2, 1, 0, 0, 3), csc(2, 1, 0, 0), cload(2, 1, 0, 0, 3), clc(2, 1, 0, 0)] {
        let past = Cap { offset: 64, ..tagged(RAM_BASE, 64, ALL) };
        let world = World::new(&[word]).with_cap(1, past);
        assert_eq!(stop_of(&world), (1, 1, 1));
        World::new(&[word]).with_cap(1, Cap { offset: 32, ..past }).step();
    }
}

#[test]
fn capability_load() {
    let world = World::new(&[clc(27, 28, 3, -1)]).with_cap(28, faulty());
    climb(
        world,
        &[
            ((1, 0x1D, 27), |world| open(world, ACCESS_KR1C)),
            ((1, 0x1E, 28), |world| open(world, ACCESS_KR2C)),
            ((1, 2, 28), |world| tag(world, 28)),
            ((1, 3, 28), |world| turn_seal(world, 28)),
            ((1, 0x14, 28), |world| grant(world, 28, PERMIT_LOAD_CAPABILITY)),
            ((1, 1, 28), |world| world.machine.caps[28].length = 64),
            ((1, 1, 28), |world| world.machine.caps[28].offset = 2),
            ((2, 0, 0), |world| world.machine.general[3] = 31),
            ((5, 0, 0), |world| world.machine.caps[28].base = RAM_BASE),
        ],
    );
}

#[test]
fn capability_store() {
    let mut world = World::new(&[csc(28, 27, 3, -1)]).with_cap(27, faulty());
    world.machine.caps[28] = tagged(0, 0, 0);
    climb(
        world,
        &[
            ((1, 0x1E, 28), |world| open(world, ACCESS_KR2C)),
            ((1, 0x1D, 27), |world| open(world, ACCESS_KR1C)),
            ((1, 2, 27), |world| tag(world, 27)),
            ((1, 3, 27), |world| turn_seal(world, 27)),
            ((1, 0x15, 27), |world| grant(world, 27, PERMIT_STORE_CAPABILITY)),
            ((1, 0x16, 27), |world| grant(world, 27, PERMIT_STORE_LOCAL_CAPABILITY)),
            ((1, 1, 27), |world| world.machine.caps[27].length = 64),
            ((1, 1, 27), |world| world.machine.caps[27].offset = 2),
            ((3, 0, 0), |world| world.machine.general[3] = 31),
            ((5, 0, 0), |world| world.machine.caps[27].base = RAM_BASE),
        ],
    );
}

#[test]
fn candperm_and_csetlen() {
    for number in [10, 13] {
        let word = cap3(number, 31, 30, 3);
        let world = World::new(&[word]).with_cap(30, faulty());
        let made = climb(
            world,
            &[
                ((1, 0x1A, 31), |world| open(world, ACCESS_EPCC)),
                ((1, 0x1B, 30), |world| open(world, ACCESS_KDC)),
                ((1, 2, 30), |world| tag(world, 30)),
                ((1, 3, 30), |world| turn_seal(world, 30)),
            ],
        );
        assert_eq!(made.cap(31), tagged(0, 0, 0));
    }
    let world = World::new(&[cap3(13, 2, 1, 3)]).with_cap(1, tagged(0, 4, 0));
    world.clone().with(3, 4).step();
    assert_eq!(stop_of(&world.with(3, 5)), (1, 1, 1));
}

#[test]
fn cincbase_and_cfromptr() {
    for number in [12, 16] {
        let world = World::new(&[cap3(number, 31, 30, 3)]).with_cap(30, faulty()).with(3, 2);
        let made = climb(
            world,
            &[
                ((1, 0x1A, 31), |world| open(world, ACCESS_EPCC)),
                ((1, 0x1B, 30), |world| open(world, ACCESS_KDC)),
                ((1, 2, 30), |world| tag(world, 30)),
                ((1, 3, 30), |world| turn_seal(world, 30)),
                ((1, 1, 30), |world| world.machine.caps[30].length = 2),
            ],
        );
        assert_eq!(made.cap(31), tagged(2, 0, 0));
    }
}

#[test]
fn cseal() {
    let mut world = World::new(&[cap3(18, 31, 30, 29)]).with_cap(30, faulty());
    world.machine.caps[29] = Cap { base: 1 << 24, ..faulty() };
    let made = climb(
        world,
        &[
            ((1, 0x1A, 31), |world| open(world, ACCESS_EPCC)),
            ((1, 0x1B, 30), |world| open(world, ACCESS_KDC)),
            ((1, 0x1C, 29), |world| open(world, ACCESS_KCC)),
            ((1, 2, 30), |world| tag(world, 30)),
            ((1, 2, 29), |world| tag(world, 29)),
            ((1, 3, 30), |world| turn_seal(world, 30)),
            ((1, 3, 29), |world| turn_seal(world, 29)),
            ((1, 0x17, 29), |world| grant(world, 29, PERMIT_SEAL)),
            ((1, 1, 29), |world| world.machine.caps[29].length = 1),
            ((1, 1, 29), |world| world.machine.caps[29].base = 5),
        ],
    );
    assert_eq!(made.cap(31), Cap { sealed: true, otype: 5, ..tagged(0, 0, 0) });
}

#[test]
fn cunseal() {
    let mut world = World::new(&[cap3(19, 31, 30, 29)]).with_cap(29, faulty());
    world.machine.caps[30] = Cap { otype: 5, ..Cap::default() };
    let made = climb(
        world,
        &[
            ((1, 0x1A, 31), |world| open(world, ACCESS_EPCC)),
            ((1, 0x1B, 30), |world| open(world, ACCESS_KDC)),
            ((1, 0x1C, 29), |world| open(world, ACCESS_KCC)),
            ((1, 2, 30), |world| tag(world, 30)),
            ((1, 2, 29), |world| tag(world, 29)),
            ((1, 3, 30), |world| turn_seal(world, 30)),
            ((1, 3, 29), |world| turn_seal(world, 29)),
            ((1, 4, 29), |world| world.machine.caps[29].base = 5),
            ((1, 0x17, 29), |world| grant(world, 29, PERMIT_SEAL)),
            ((1, 1, 29), |world| world.machine.caps[29].length = 1),
        ],
    );
    assert_eq!(made.cap(31), tagged(0, 0, 0));
}

#[test]
fn ccheckperm_and_cchecktype() {
    let world = World::new(&[cap2(20, 30, 3)]).with_cap(30, faulty()).with(3, 2);
    climb(
        world,
        &[
            ((1, 0x1B, 30), |world| open(world, ACCESS_KDC)),
            ((1, 2, 30), |world| tag(world, 30)),
            ((1, 8, 30), |world| grant(world, 30, PERMIT_EXECUTE)),
        ],
    );
    let world = World::new(&[cap2(21, 30, 29)]).with_cap(30, Cap { otype: 5, ..Cap::default() });
    climb(
        world,
        &[
            ((1, 0x1B, 30), |world| open(world, ACCESS_KDC)),
            ((1, 0x1C, 29), |world| open(world, ACCESS_KCC)),
            ((1, 2, 30), |world| tag(world, 30)),
            ((1, 2, 29), |world| tag(world, 29)),
            ((1, 3, 30), |world| turn_seal(world, 30)),
            ((1, 3, 29), |world| turn_seal(world, 29)),
            ((1, 4, 30), |world| world.machine.caps[29].otype = 5),
        ],
    );
}

#[test]
fn cjalr() {
    let world = World::new(&[cap2(23, 31, 30)]).with_cap(30, Cap { base: 2, ..faulty() });
    climb(
        world,
        &[
            ((1, 0x1A, 31), |world| open(world, ACCESS_EPCC)),
            ((1, 0x1B, 30), |world| open(world, ACCESS_KDC)),
            ((1, 2, 30), |world| tag(world, 30)),
            ((1, 3, 30), |world| turn_seal(world, 30)),
            ((1, 0x11, 30), |world| grant(world, 30, PERMIT_EXECUTE)),
            ((1, 0x10, 30), |world| grant(world, 30, GLOBAL)),
            ((1, 1, 30), |world| world.machine.caps[30].length = 4),
            ((2, 0, 0), |world| world.machine.caps[30].base = 4),
        ],
    );
}

/// Each word with a capability operand x, by itself; the others are C1 to C3 and r0.
fn words_with(x: u32) -> Vec<u32> {
    let mut words: Vec<u32> = (0..7).map(|number| cap2(number, 1, x)).collect();
    words.extend([7, 22].map(|number| cap1(number, x)));
    words.extend([10, 12, 13, 14, 15, 16].map(|number| cap3(number, x, 1, 0)));
    words.extend([10, 12, 13, 14, 15, 16].map(|number| cap3(number, 1, x, 0)));
    words.extend([cap2(11, x, 1), cap2(11, 1, x), cap3(17, 1, x, 2), cap3(17, 1, 2, x)]);
    for number in [18, 19] {
        words.extend([cap3(number, x, 1, 2), cap3(number, 1, x, 2), cap3(number, 1, 2, x)]);
    }
    words.extend([cap2(20, x, 0), cap2(21, x, 1), cap2(21, 1, x), cap2(23, x, 1), cap2(23, 1, x)]);
    words.extend([cbtu(x, 0), cbts(x, 0), cap3(28, 1, x, 2), cap3(28, 1, 2, x)]);
    words.extend([cload(1, x, 0, 0, 0), cstore(1, x, 0, 0, 0)]);
    words.extend([clc(x, 1, 0, 0), clc(1, x, 0, 0), csc(x, 1, 0, 0), csc(1, x, 0, 0)]);
    words
}

#[test]
fn every_capability_operand_is_checked_for_access_first() {
    let bits = [(27, ACCESS_KR1C), (28, ACCESS_KR2C), (29, ACCESS_KCC), (30, ACCESS_KDC)];
    for (register, bit) in bits.into_iter().chain([(31, ACCESS_EPCC)]) {
        // Cause 0x1A is Access_EPCC, permission 10, and so on upward.
        let cause = 0x1A + bit - ACCESS_EPCC;
        for word in words_with(register) {
            let mut world = World::new(&[word]);
            world.machine.pcc.perms = ALL & !(1 << bit);
            assert_eq!(stop_of(&world), (1, cause, register), "{word:08x}");
            world.machine.pcc.perms = EXECUTE | 1 << bit;
            assert_ne!(world.run(1).cause, cause, "{word:08x}");
        }
    }
}

#[test]
fn of_two_closed_registers_the_leftmost_is_named() {
    let mut words =
        [10, 12, 13, 14, 15, 16, 18, 19].map(|number| cap3(number, 31, 30, 29)).to_vec();
    words.extend([cap2(11, 31, 30), cap2(21, 31, 30), cap2(23, 31, 30)]);
    words.extend([cap3(17, 1, 31, 30), cap3(28, 1, 31, 30), clc(31, 30, 0, 0), csc(31, 30, 0, 0)]);
    for word in words {
        assert_eq!(stop_of(&World::new(&[word])), (1, 0x1A, 31), "{word:08x}");
    }
}

#[test]
fn other_registers_are_open_to_every_pcc() {
    for register in 0..27 {
        for word in words_with(register) {
            let mut world = World::new(&[word]);
            world.machine.pcc.perms = EXECUTE;
            assert!(world.run(1).cause < 0x1A);
        }
    }
}
