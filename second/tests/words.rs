//! Which words are instructions, and which are reserved.

use crate::common::*;
use second::random::Random;
use second::*;

/// The bits of 20..0 that each number of major opcode 18 uses.
fn used_bits(number: u32) -> u32 {
    let (one, two, three) = (0x1F_0000, 0x1F_F800, 0x1F_FFC0);
    match number {
        7..=9 | 22 => one,
        0..=6 | 11 | 20 | 21 | 23 | 26 => two,
        10 | 12..=19 => three,
        24 | 25 => 0x1F_FFFF,
        28 => three | 7,
        _ => 0,
    }
}

#[test]
fn a_non_zero_unused_field_of_18_is_reserved() {
    let mut random = Random::new(21);
    for number in 0..29 {
        let used = used_bits(number);
        for _ in 0..200 {
            let operands = random.next() as u32 & used & !4;
            let word = cap1(number, 0) | operands;
            assert_ne!(decode(word), Instruction::Reserved, "{word:08x}");
            for bit in (0..21).filter(|bit| used >> bit & 1 == 0) {
                assert_eq!(decode(word | 1 << bit), Instruction::Reserved);
            }
        }
    }
}

#[test]
fn numbers_29_to_31_are_reserved() {
    let mut random = Random::new(22);
    for number in 29..32 {
        for _ in 0..200 {
            let word = cap1(number, 0) | random.next() as u32 & 0x1F_FFFF;
            assert_eq!(decode(word), Instruction::Reserved);
        }
    }
}

#[test]
fn other_major_opcodes_are_reserved() {
    let known = [0, 4, 5, 12, 13, 15, 18, 25, 36, 40, 50, 54, 55, 58, 62, 63];
    let mut random = Random::new(23);
    for major in 0..64 {
        let words = (0..200).map(|_| major << 26 | random.next() as u32 & 0x03FF_FFFF);
        let reserved = words.filter(|word| decode(*word) == Instruction::Reserved).count();
        assert_eq!(reserved == 200, !known.contains(&major), "{major}");
    }
}

#[test]
fn words_of_major_opcode_0() {
    let functions = [20, 22, 36, 37, 38, 42, 43, 45, 47];
    assert_eq!(decode(0), Instruction::Nop);
    for function in 0..64 {
        let word = special(function, 1, 2, 3);
        let known = functions.contains(&function) || function == 13;
        assert_eq!(decode(word) != Instruction::Reserved, known, "{function}");
        for shift in 1..32 {
            let shifted = decode(word | shift << 6);
            assert_eq!(shifted != Instruction::Reserved, function == 13);
        }
    }
}

#[test]
fn operands_are_where_01_puts_them() {
    use Instruction::*;
    assert_eq!(decode(special(47, 1, 2, 3)), Dsubu { rd: 1, rs: 2, rt: 3 });
    assert_eq!(decode(special(20, 1, 2, 3)), Dsllv { rd: 1, rt: 3, rs: 2 });
    assert_eq!(decode(immediate(13, 1, 2, -1)), Ori { rt: 2, rs: 1, immediate: 0xFFFF });
    assert_eq!(decode(immediate(15, 0, 2, -1)), Lui { rt: 2, immediate: -1 });
    assert_eq!(decode(sb(1, 2, -3)), Sb { rt: 1, base: 2, offset: -3 });
    assert_eq!(decode(cap3(19, 29, 30, 31)), CUnseal { cd: 29, cs: 30, ct: 31 });
    assert_eq!(decode(cap2(20, 1, 2)), CCheckPerm { cs: 1, rt: 2 });
    assert_eq!(decode(cbts(31, -32_768)), Cbts { cb: 31, offset: -32_768 });
    let kind = Compare::Cltu;
    assert_eq!(decode(cap3(28, 1, 2, 3) | 4), CPtrCmp { rd: 1, cb: 2, ct: 3, kind });
}

#[test]
fn offsets_of_accesses_are_signed_bytes() {
    use Instruction::*;
    let (rd, cb, rt, signed) = (1, 2, 3, false);
    for (offset, size) in [(-128, 1), (127, 2), (-1, 4), (0, 8)] {
        let code = u64::trailing_zeros(size);
        let expected = Load { rd, cb, rt, offset, signed, size };
        assert_eq!(decode(cload(1, 2, 3, i32::from(offset), code)), expected);
        let expected = Store { rs: rd, cb, rt, offset, size };
        assert_eq!(decode(cstore(1, 2, 3, i32::from(offset), code)), expected);
    }
    for offset in [-1_024, -1, 0, 1_023] {
        let expected = Clc { cd: rd, cb, rt, offset };
        assert_eq!(decode(clc(1, 2, 3, i32::from(offset))), expected);
        let expected = Csc { cs: rd, cb, rt, offset };
        assert_eq!(decode(csc(1, 2, 3, i32::from(offset))), expected);
    }
}

#[test]
fn reserved_forms_of_loads_and_stores() {
    for code in 0..4 {
        let reserved = decode(cload_signed(1, 2, 3, 4, code)) == Instruction::Reserved;
        assert_eq!(reserved, code == 3);
        assert_eq!(decode(cstore(1, 2, 3, 4, code) | 4), Instruction::Reserved);
    }
}
