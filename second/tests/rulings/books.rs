//! Rulings C1 to C6.

use crate::common::*;
use second::*;
use std::process::Command;

const RAM: usize = 128;

/// A book of these bodies.
fn book(bodies: &[Vec<u8>]) -> Vec<u8> {
    let mut book = vec![1];
    for body in bodies {
        book.extend_from_slice(&(body.len() as u16).to_be_bytes());
        book.extend_from_slice(body);
    }
    book
}

fn cap_body(number: u8, tag: u8, base: u64, length: u64) -> Vec<u8> {
    let mut body = vec![1, number, tag, 0, 0, 0, 0, 0, 0, 0, 0, 0];
    body.extend([base, length, 0].iter().flat_map(|field| field.to_be_bytes()));
    body
}

fn general_body(number: u8, value: u64) -> Vec<u8> {
    let mut body = vec![2, number];
    body.extend(value.to_be_bytes());
    body
}

fn line_body(address: u64, tag: u8, cap: &Cap) -> Vec<u8> {
    let mut body = vec![3];
    body.extend(address.to_be_bytes());
    body.push(tag);
    body.extend(cap.to_bytes());
    body
}

/// Reads into memories of 0xFF and 1, which a refusal must leave so.
fn read(bytes: &[u8]) -> Result<Machine, u32> {
    let (mut ram, mut tags) = (vec![0xFF; RAM], vec![1; RAM / 32]);
    let answer = read_book(bytes, 32, &mut ram, &mut tags);
    if answer.is_err() {
        assert_eq!((ram, tags), (vec![0xFF; RAM], vec![1; RAM / 32]));
    }
    answer
}

fn refusal(bodies: &[Vec<u8>]) -> u32 {
    read(&book(bodies)).unwrap_err()
}

#[test]
fn c1_20_comes_before_30() {
    for (flash, ram, tags) in [(31, 32, 1), (32, 33, 1), (32, 32, 2), (65_568, 32, 1)] {
        let (mut ram, mut tags) = (vec![7; ram], vec![7; tags]);
        assert_eq!(read_book(&[], flash, &mut ram, &mut tags), Err(20));
        assert!(ram.iter().chain(&tags).all(|byte| *byte == 7));
    }
    assert_eq!(read(&[]), Err(30));
    assert_eq!(read(&[0]), Err(30));
    assert_eq!(read(&[2]), Err(30));
}

#[test]
fn c1_a_cut_record_is_31_also_of_an_unknown_kind() {
    assert_eq!(read(&[1, 0]), Err(31));
    assert_eq!(read(&[1, 0, 0]), Err(31));
    assert_eq!(read(&[1, 0, 2, 9]), Err(31));
    assert_eq!(read(&[1, 0, 10, 2, 1]), Err(31));
    assert_eq!(read(&[1, 0, 1, 9]), Err(32));
    assert_eq!(refusal(&[vec![0; 36]]), 32);
    assert_eq!(refusal(&[vec![4; 65_535]]), 32);
}

#[test]
fn c1_a_wrong_length_is_31_and_the_first_faulty_record_counts() {
    let mut long = general_body(0, 0);
    long.push(0);
    assert_eq!(refusal(&[long.clone()]), 31);
    assert_eq!(refusal(&[vec![1; 35]]), 31);
    assert_eq!(refusal(&[vec![3; 41]]), 31);
    assert_eq!(refusal(&[general_body(0, 0), long.clone()]), 34);
    assert_eq!(refusal(&[general_body(1, 0), long]), 31);
}

#[test]
fn c2_fields_out_of_range_of_kind_1() {
    assert!(read(&book(&[cap_body(32, 1, 0, 0)])).is_ok());
    assert_eq!(refusal(&[cap_body(33, 0, 0, 0)]), 34);
    assert_eq!(refusal(&[cap_body(255, 0, 0, 0)]), 34);
    // Byte 2 is the tag, 3 sealed, 8 the top of the permissions.
    for (at, fine, wrong) in [(2, 1, 2), (3, 1, 2), (8, 0x7F, 0x80)] {
        let mut body = cap_body(0, 0, 0, 0);
        body[at] = fine;
        assert!(read(&book(&[body.clone()])).is_ok());
        body[at] = wrong;
        assert_eq!(refusal(&[body]), 34);
    }
    // Spare and otype may be anything.
    let mut body = cap_body(0, 0, 0, 0);
    body[4..8].copy_from_slice(&[0xFE, 0xDC, 0xBA, 0x98]);
    let machine = read(&book(&[body])).unwrap();
    assert_eq!((machine.caps[0].spare, machine.caps[0].otype), (0xFE, 0xDCBA98));
}

#[test]
fn c2_fields_out_of_range_of_kinds_2_and_3() {
    assert_eq!(refusal(&[general_body(0, 0)]), 34);
    assert_eq!(refusal(&[general_body(32, 0)]), 34);
    assert!(read(&book(&[general_body(31, 9)])).is_ok());
    let end = RAM_BASE + RAM as u64;
    for address in [0, 32, RAM_BASE - 32, RAM_BASE + 1, RAM_BASE + 16, end, end - 1, u64::MAX] {
        assert_eq!(refusal(&[line_body(address, 0, &Cap::default())]), 34);
    }
    assert_eq!(refusal(&[line_body(RAM_BASE, 2, &Cap::default())]), 34);
    assert!(read(&book(&[line_body(end - 32, 1, &Cap::default())])).is_ok());
    let answer = read_book(&book(&[line_body(RAM_BASE, 0, &Cap::default())]), 0, &mut [], &mut []);
    assert_eq!(answer, Err(34));
}

#[test]
fn c3_22_is_for_a_tag_of_1_alone_and_comes_before_33() {
    assert_eq!(refusal(&[cap_body(3, 1, 2, u64::MAX)]), 22);
    assert!(read(&book(&[cap_body(3, 1, 1, u64::MAX)])).is_ok());
    assert!(read(&book(&[cap_body(3, 0, 2, u64::MAX)])).is_ok());
    let over = tagged(u64::MAX, 2, 0);
    assert_eq!(refusal(&[line_body(RAM_BASE, 1, &over)]), 22);
    assert!(read(&book(&[line_body(RAM_BASE, 0, &over)])).is_ok());
    let bodies = [cap_body(3, 0, 0, 0), cap_body(3, 1, 2, u64::MAX)];
    assert_eq!(refusal(&bodies), 22);
}

#[test]
fn c3_33_kind_and_number_must_rise_strictly() {
    let line = |at| line_body(RAM_BASE + at, 0, &Cap::default());
    assert_eq!(refusal(&[cap_body(3, 0, 0, 0), cap_body(3, 0, 0, 0)]), 33);
    assert_eq!(refusal(&[cap_body(3, 0, 0, 0), cap_body(2, 0, 0, 0)]), 33);
    assert_eq!(refusal(&[general_body(3, 0), general_body(3, 0)]), 33);
    assert_eq!(refusal(&[line(32), line(0)]), 33);
    assert_eq!(refusal(&[general_body(1, 0), cap_body(30, 0, 0, 0)]), 33);
    assert_eq!(refusal(&[line(0), general_body(30, 0)]), 33);
    // Kinds may be missing.
    assert!(read(&book(&[cap_body(32, 0, 0, 0), line(0), line(96)])).is_ok());
    assert!(read(&book(&[cap_body(0, 0, 0, 0), general_body(1, 0)])).is_ok());
}

#[test]
fn c3_an_accepted_book_sets_all_of_ram_and_tags() {
    let (mut ram, mut tags) = (vec![0xFF; RAM], vec![1; RAM / 32]);
    let cap = Cap { offset: 3, ..tagged(1, 2, 4) };
    let bytes = book(&[general_body(7, 70), line_body(RAM_BASE + 64, 1, &cap)]);
    let machine = read_book(&bytes, 0, &mut ram, &mut tags).unwrap();
    let mut expected = Machine::default();
    expected.general[7] = 70;
    assert_eq!(machine, expected);
    assert_eq!(tags, [0, 0, 1, 0]);
    assert_eq!(ram[64..96], cap.to_bytes());
    assert!(ram[..64].iter().chain(&ram[96..]).all(|byte| *byte == 0));
}

#[test]
fn c4_records_of_zeros_are_read_but_never_written() {
    let zeros = [cap_body(0, 0, 0, 0), cap_body(32, 0, 0, 0), general_body(1, 0)];
    let bytes = book(&[zeros.as_slice(), &[line_body(RAM_BASE, 0, &Cap::default())]].concat());
    let machine = read(&bytes).unwrap();
    assert_eq!(machine, Machine::default());
    let mut out = [9; 4];
    assert_eq!(write_book(&machine, &[0; RAM], &[0; RAM / 32], &mut out), Ok(1));
    assert_eq!(out, [1, 9, 9, 9]);
}

#[test]
fn c4_the_writer_names_a_line_for_its_tag_alone() {
    let (ram, mut tags) = (vec![0; RAM], vec![0; RAM / 32]);
    tags[3] = 1;
    let mut out = [9; 100];
    let length = write_book(&Machine::default(), &ram, &tags, &mut out).unwrap();
    assert_eq!(out[..length], book(&[line_body(RAM_BASE + 96, 1, &Cap::default())]));
}

#[test]
fn c4_the_writer_names_a_register_for_any_one_field() {
    let zero = Cap::default();
    let caps = [Cap { tag: true, ..zero }, Cap { sealed: true, ..zero }, Cap { spare: 1, ..zero }];
    let more = [Cap { otype: 1, ..zero }, Cap { perms: 1, ..zero }, Cap { offset: 1, ..zero }];
    let last = [Cap { base: 1, ..zero }, Cap { length: 1, ..zero }];
    for cap in caps.into_iter().chain(more).chain(last) {
        let machine = Machine { pcc: cap, ..Machine::default() };
        assert_eq!(write_book(&machine, &[], &[], &mut [0; 39]), Ok(39));
    }
}

#[test]
fn c4_sealed_untagged_and_otype_unsealed_are_accepted() {
    let mut sealed = cap_body(4, 0, 0, 0);
    sealed[3] = 1;
    let mut typed = cap_body(5, 1, 0, 0);
    typed[7] = 9;
    let machine = read(&book(&[sealed, typed])).unwrap();
    assert_eq!(machine.caps[4], Cap { sealed: true, ..Cap::default() });
    assert_eq!(machine.caps[5], Cap { otype: 9, ..tagged(0, 0, 0) });
}

/// The writer's refusal, which must leave the buffer as it was.
fn write_refusal(world: &World, room: usize) -> u32 {
    let mut out = vec![9; room];
    let answer = write_book(&world.machine, &world.ram, &world.tags, &mut out);
    assert!(out.iter().all(|byte| *byte == 9));
    answer.unwrap_err()
}

#[test]
fn c5_the_writer_refuses_in_order() {
    let mut world = World::new(&[]);
    world.machine.caps[3] = tagged(u64::MAX, 2, 1 << 31);
    world.machine.pending = Some(Cap::default());
    world.machine.cause = 1;
    world.tags.push(2);
    assert_eq!(write_refusal(&world, 0), 20);
    world.tags = vec![2; 8];
    assert_eq!(write_refusal(&world, 0), 21);
    world.tags = vec![0; 8];
    assert_eq!(write_refusal(&world, 0), 22);
    world.machine.caps[3].length = 1;
    assert_eq!(write_refusal(&world, 0), 24);
    world.machine.caps[3].perms = 0;
    assert_eq!(write_refusal(&world, 0), 35);
    world.machine.cause = 0;
    assert_eq!(write_refusal(&world, 0), 35);
    world.machine.pending = None;
    world.machine.cause = 1;
    assert_eq!(write_refusal(&world, 0), 35);
    world.machine.cause = 0;
    // The version, then C3 and PCC with 2 + 36 bytes each.
    assert_eq!(write_refusal(&world, 76), 36);
    let mut out = [9; 77];
    assert_eq!(write_book(&world.machine, &world.ram, &world.tags, &mut out), Ok(77));
}

#[test]
fn c6_the_printer() {
    let folder = std::env::temp_dir().join(format!("second-line-{}", std::process::id()));
    std::fs::create_dir_all(&folder).unwrap();
    let print = |book: Option<&[u8]>, flash: Option<&[u8]>| {
        for (name, bytes) in [("start.book", book), ("flash.bin", flash)] {
            let _ = std::fs::remove_file(folder.join(name));
            if let Some(bytes) = bytes {
                std::fs::write(folder.join(name), bytes).unwrap();
            }
        }
        let program = env!("CARGO_BIN_EXE_second-line");
        let output = Command::new(program).current_dir(&folder).output().unwrap();
        assert!(output.status.success() && output.stderr.is_empty());
        String::from_utf8(output.stdout).unwrap()
    };
    assert_eq!(print(None, None), "30 0 0 0 0\n");
    assert_eq!(print(Some(&[1]), None), "1 2 255 0 0\n");
    assert_eq!(print(Some(&[1]), Some(&[0; 65_536])), "1 2 255 0 0\n");
    assert_eq!(print(None, Some(&[0; 65_537])), "20 0 0 0 0\n");
    assert_eq!(print(Some(&[2; 65_537]), None), "20 0 0 0 0\n");
    assert_eq!(print(Some(&[2; 65_536]), None), "30 0 0 0 0\n");
    assert_eq!(print(Some(&[2]), Some(&[0; 31])), "20 0 0 0 0\n");
    std::fs::remove_dir_all(&folder).unwrap();
}
