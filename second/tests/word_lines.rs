//! The table of words and their lines.

use second::asm::encode::{format_of, word, FORMATS};
use second::words::{line, table, table_bytes, table_lines};
use std::collections::BTreeSet;

/// The line of an instruction with its operands as numbers, without the word in front.
fn rest(name: &str, operands: &[i64]) -> String {
    let line = line(word(name, operands).unwrap());
    line.split_once(' ').unwrap().1.to_string()
}

#[test]
fn every_instruction_occurs_and_reserved_words_do() {
    let words = table();
    let found: BTreeSet<_> = words.iter().map(|w| format_of(*w).map(|f| f.name)).collect();
    assert_eq!(found.len(), FORMATS.len() + 1);
    let numbers: BTreeSet<u64> = table_lines()
        .lines()
        .map(|line| line.split(' ').nth(1).unwrap().parse().unwrap())
        .collect();
    assert!(numbers.into_iter().eq(0..35));
}

#[test]
fn every_instruction_occurs_with_each_of_its_fixed_bits_flipped() {
    let words: BTreeSet<u32> = table().into_iter().collect();
    for format in FORMATS {
        let flipped =
            |bit: u32| words.iter().any(|w| (w ^ 1 << bit) & !format.mask() == format.fixed);
        assert!((0..32).all(flipped), "{}", format.name);
    }
}

#[test]
fn lines_are_six_numbers_and_reserved_ones_say_no_more() {
    for (word, line) in table().into_iter().zip(table_lines().lines()) {
        let numbers: Vec<u64> = line.split(' ').map(|number| number.parse().unwrap()).collect();
        assert_eq!((numbers.len(), numbers[0]), (6, u64::from(word)));
        assert_eq!(numbers[1] == 0, format_of(word).is_none(), "{word:#010x}");
        assert!(numbers[1] != 0 || numbers[2..5] == [0; 3], "{word:#010x}");
        assert!(numbers[3] < 2 && numbers[5] < 2, "{word:#010x}");
    }
}

#[test]
fn lines_written_by_hand() {
    assert_eq!(line(0), "0 1 0 0 0 0");
    assert_eq!(line(64), "64 0 0 0 0 0");
    assert_eq!(line(0x0000_000D), "13 2 0 0 0 0");
    assert_eq!(line(0x0022_182F), "2234415 3 1 0 0 0");
    assert_eq!(line(0xFFFF_FFFF), "4294967295 10 8 0 18446744073709551615 0");
    assert_eq!(line(0x4AC0_0001), "1254096897 0 0 0 0 1");
}

#[test]
fn numbers_after_the_word_of_mips() {
    assert_eq!(rest("dsrlv", &[1, 2, 3]), "3 8 0 0 0");
    assert_eq!(rest("daddiu", &[1, 2, -1]), "4 0 0 18446744073709551615 0");
    assert_eq!(rest("andi", &[1, 2, 0xFFFF]), "4 2 0 65535 0");
    assert_eq!(rest("ori", &[1, 2, 0x8000]), "4 3 0 32768 0");
    assert_eq!(rest("lui", &[1, 0x7FFF]), "5 0 0 2147418112 0");
    assert_eq!(rest("lui", &[1, 0x8000]), "5 0 0 18446744071562067968 0");
    assert_eq!(rest("beq", &[1, 2, -32_768]), "6 0 1 18446744073709518848 1");
    assert_eq!(rest("bne", &[1, 2, 5]), "6 0 0 5 1");
    assert_eq!(rest("lbu", &[1, -2, 2]), "9 1 0 18446744073709551614 0");
    assert_eq!(rest("sd", &[1, 8, 2]), "10 8 0 8 0");
}

#[test]
fn numbers_after_the_word_of_capability_instructions() {
    assert_eq!(rest("clh", &[1, 2, -128, 3]), "7 2 1 18446744073709551488 0");
    assert_eq!(rest("cld", &[1, 2, 127, 3]), "7 8 0 127 0");
    assert_eq!(rest("csw", &[1, 2, -1, 3]), "8 4 0 18446744073709551615 0");
    assert_eq!(rest("clc", &[1, 2, -1_024, 3]), "11 0 0 18446744073709550592 0");
    assert_eq!(rest("csc", &[1, 2, 1_023, 3]), "12 0 0 1023 0");
    assert_eq!(rest("cgettype", &[1, 2]), "13 6 0 0 0");
    assert_eq!(rest("csetcause", &[1]), "16 0 0 0 0");
    assert_eq!(rest("cunseal", &[1, 2, 3]), "26 0 0 0 0");
    assert_eq!(rest("cjr", &[1]), "29 0 0 0 1");
    assert_eq!(rest("cjalr", &[1, 2]), "30 0 0 0 1");
    assert_eq!(rest("cbtu", &[1, 32_767]), "31 0 0 32767 1");
    assert_eq!(rest("cbts", &[1, -1]), "31 0 1 18446744073709551615 1");
    assert_eq!(rest("ccall", &[1, 2]), "32 0 0 0 0");
    assert_eq!(rest("creturn", &[]), "33 0 0 0 0");
    assert_eq!(rest("cleu", &[1, 2, 3]), "34 5 0 0 0");
}

/// The proved decoder is run on the stored table, and held to the stored lines.
#[test]
fn the_stored_table_is_this_one() {
    let crate_folder = concat!(env!("CARGO_MANIFEST_DIR"), "/../crates/words");
    let stored = |name: &str| std::fs::read(format!("{crate_folder}/{name}")).expect(name);
    assert!(stored("stdin") == table_bytes(), "make crates/words/stdin again by second-words");
    assert!(stored("stdout") == table_lines().into_bytes(), "and crates/words/stdout");
}
