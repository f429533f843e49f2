//! What is written reads back the same: capabilities, lines and books.

use crate::common::*;
use second::random::Random;
use second::*;

/// A capability with random fields in width; now and then a field is 0 or full.
fn random_cap(random: &mut Random) -> Cap {
    let mut wide = || match random.below(6) {
        0 => 0,
        1 => u64::MAX,
        2 => random.below(1 << 12),
        _ => random.next(),
    };
    Cap {
        perms: wide() as u32 & PERMS_MASK,
        otype: wide() as u32 & OTYPE_MASK,
        spare: wide() as u8,
        base: wide(),
        length: wide(),
        offset: wide(),
        tag: random.chance(2),
        sealed: random.chance(2),
    }
}

/// The same, with a range a tagged capability may have.
fn legal_cap(random: &mut Random) -> Cap {
    let mut cap = random_cap(random);
    if cap.tagged_past_end() {
        cap.length = 0u64.wrapping_sub(cap.base);
    }
    cap
}

fn random_line(random: &mut Random) -> [u8; 32] {
    let mut bytes = [0; 32];
    bytes.fill_with(|| random.next() as u8);
    bytes
}

#[test]
fn zero_capability_is_zero_bytes() {
    assert_eq!(Cap::default().to_bytes(), [0; 32]);
    assert_eq!(Cap::from_bytes(&[0; 32], false), Cap::default());
}

#[test]
fn the_four_doublewords() {
    let cap = Cap { spare: 0xA1, otype: 0xB2C3D4, perms: 0x4000_0001, ..Cap::default() };
    let cap = Cap { sealed: true, base: 0x10, offset: 0u64.wrapping_sub(1), length: 0x20, ..cap };
    let words = [0xA1B2_C3D4_8000_0003u64, 0x0F, 0x10, 0x20];
    assert_eq!(cap.to_bytes().to_vec(), words.map(u64::to_be_bytes).concat());
}

#[test]
fn capabilities_read_back() {
    let mut random = Random::new(1);
    for _ in 0..50_000 {
        let cap = random_cap(&mut random);
        assert_eq!(Cap::from_bytes(&cap.to_bytes(), cap.tag), cap);
    }
}

#[test]
fn any_32_bytes_come_back() {
    let mut random = Random::new(2);
    for _ in 0..50_000 {
        let bytes = random_line(&mut random);
        assert_eq!(Cap::from_bytes(&bytes, random.chance(2)).to_bytes(), bytes);
    }
}

#[test]
fn untagged_registers_carry_any_256_bits() {
    let mut random = Random::new(3);
    let through = tagged(RAM_BASE, 256, LOAD_CAP | STORE_CAP);
    let flash = tagged(0, 64, LOAD_CAP);
    for _ in 0..2_000 {
        let words = [clc(1, 3, 0, 32), csc(1, 2, 0, 64), clc(4, 2, 0, 64), csc(4, 2, 0, 96)];
        let mut world = World::new(&[words.as_slice(), &[0; 12]].concat());
        world = world.with_cap(2, through).with_cap(3, flash);
        let bytes = random_line(&mut random);
        world.flash[32..64].copy_from_slice(&bytes);
        world.tags = vec![1; 8];
        assert_eq!(world.run(4).stop, 0);
        assert_eq!((&world.ram[64..96], &world.ram[96..128]), (&bytes[..], &bytes[..]));
        assert_eq!(world.tags, [1, 1, 0, 0, 1, 1, 1, 1]);
    }
}

#[test]
fn tagged_registers_come_back_from_memory_with_their_tag() {
    let mut random = Random::new(4);
    let through = tagged(RAM_BASE, 256, LOAD_CAP | STORE_CAP | STORE_LOCAL);
    for _ in 0..2_000 {
        let cap = legal_cap(&mut random);
        let world = World::new(&[csc(1, 2, 0, 64), clc(4, 2, 0, 64)]);
        let mut world = world.with_cap(1, cap).with_cap(2, through);
        assert_eq!(world.run(2).stop, 0);
        assert_eq!(world.cap(4), cap);
        assert_eq!(world.tags[2], u8::from(cap.tag));
    }
}

/// A world that a book can hold.
fn random_world(random: &mut Random) -> World {
    let lines = random.below(12) as usize;
    let mut world = World::new(&[]);
    (world.ram, world.tags) = (vec![0; 32 * lines], vec![0; lines]);
    let one_in = 1 + random.below(8);
    for number in 0..32 {
        if random.chance(one_in) {
            world.machine.caps[number] = legal_cap(random);
        }
        if number > 0 && random.chance(one_in) {
            world.machine.general[number] = random.next();
        }
    }
    world.machine.pcc = legal_cap(random);
    for line in 0..lines {
        match random.below(4) {
            0 => world = world.with_line(line, legal_cap(random)),
            1 => world.ram[32 * line..32 * line + 32].copy_from_slice(&random_line(random)),
            2 => world.ram[32 * line + random.below(32) as usize] = 1,
            _ => {}
        }
    }
    world
}

fn book_of(world: &World) -> Vec<u8> {
    let mut out = vec![0xEE; 4_096];
    let length = write_book(&world.machine, &world.ram, &world.tags, &mut out).unwrap();
    assert!(out[length..].iter().all(|byte| *byte == 0xEE));
    out.truncate(length);
    out
}

/// A world of the same sizes, read from the book over whatever was there.
fn read_back(book: &[u8], lines: usize) -> Result<World, u32> {
    let mut world = World::new(&[]);
    (world.ram, world.tags) = (vec![0xDD; 32 * lines], vec![1; lines]);
    let unread = (world.ram.clone(), world.tags.clone());
    let answer = read_book(book, 0, &mut world.ram, &mut world.tags);
    if answer.is_err() {
        assert_eq!((&world.ram, &world.tags), (&unread.0, &unread.1));
    }
    world.machine = answer?;
    Ok(world)
}

#[test]
fn the_empty_world_is_the_version_byte() {
    let mut world = World::new(&[]);
    world.machine.pcc = Cap::default();
    assert_eq!(book_of(&world), [1]);
    (world.ram, world.tags) = (Vec::new(), Vec::new());
    assert_eq!(book_of(&world), [1]);
    assert_eq!(read_back(&[1], 0), Ok(world));
}

#[test]
fn books_read_back() {
    let mut random = Random::new(5);
    for _ in 0..3_000 {
        let world = random_world(&mut random);
        let book = book_of(&world);
        assert_eq!(read_back(&book, world.tags.len()), Ok(world));
    }
}

#[test]
fn a_book_exactly_as_long_as_the_buffer_fits() {
    let mut random = Random::new(6);
    for _ in 0..300 {
        let world = random_world(&mut random);
        let book = book_of(&world);
        let mut exact = vec![0; book.len()];
        let answer = write_book(&world.machine, &world.ram, &world.tags, &mut exact);
        assert_eq!((answer, &exact), (Ok(book.len()), &book));
        let mut short = vec![7; book.len() - 1];
        let answer = write_book(&world.machine, &world.ram, &world.tags, &mut short);
        assert_eq!((answer, short), (Err(36), vec![7; book.len() - 1]));
    }
}

#[test]
fn damaged_books_are_refused_whole_or_read_to_what_can_be_written() {
    let mut random = Random::new(7);
    let (mut refused, mut accepted) = (0, 0);
    for _ in 0..6_000 {
        let world = random_world(&mut random);
        let mut book = book_of(&world);
        let at = random.below(book.len() as u64) as usize;
        match random.below(3) {
            0 => book.truncate(at),
            1 => book[at] = random.next() as u8,
            _ => book.insert(at, random.next() as u8),
        }
        match read_back(&book, world.tags.len()) {
            Err(number) => {
                assert!([22, 30, 31, 32, 33, 34].contains(&number));
                refused += 1;
            }
            Ok(read) => {
                assert_eq!(read_back(&book_of(&read), world.tags.len()), Ok(read));
                accepted += 1;
            }
        }
    }
    assert!(refused > 1_000 && accepted > 500, "{refused} {accepted}");
}
