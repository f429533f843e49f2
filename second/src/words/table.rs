//! The words of the table: where a decoder can go wrong, and random ones.

use crate::asm::encode::{Format, FORMATS};
use crate::random::Random;

const SEED: u64 = 864;
const RANDOM_OPERANDS: usize = 8;
const RANDOM_WORDS: usize = 2_000;

/// Registers 1, 2 and 3 in 25..21, 20..16 and 15..11.
const REGISTERS: u32 = 1 << 21 | 2 << 16 | 3 << 11;

/// The words in their order, the same at every call.
pub fn table() -> Vec<u32> {
    let mut random = Random::new(SEED);
    let mut words = Vec::new();
    for format in FORMATS {
        words.extend(with_operands(format, &mut random));
        words.extend(neighbours(format));
        words.extend(with_two_unused_bits(format));
    }
    words.extend(majors());
    words.extend(functions());
    words.extend(shifts_and_breaks());
    words.extend(numbers());
    words.extend(accesses());
    words.extend(comparisons());
    words.extend((0..RANDOM_WORDS).map(|_| random.next() as u32));
    words
}

/// Every operand 0, every one all ones, each in turn at its extremes, and random ones.
fn with_operands(format: &Format, random: &mut Random) -> Vec<u32> {
    let mut operands = vec![0, format.mask()];
    for field in format.fields {
        let top = 1 << (field.width - 1);
        operands.extend([1, top - 1, top, 2 * top - 1].map(|value: u32| value << field.shift));
    }
    operands.extend((0..RANDOM_OPERANDS).map(|_| random.next() as u32 & format.mask()));
    operands.into_iter().map(|operands| format.fixed | operands).collect()
}

/// The word whose operands are 1, 2 and so on.
fn plain(format: &Format) -> u32 {
    let operands = (1..).zip(format.fields).map(|(value, field)| value << field.shift);
    format.fixed | operands.sum::<u32>()
}

/// The plain word, and all that differ from it in one bit.
fn neighbours(format: &Format) -> Vec<u32> {
    let plain = plain(format);
    let mut words = vec![plain];
    words.extend((0..32).map(|bit| plain ^ 1 << bit));
    words
}

/// The plain word with every two unused bits set.
fn with_two_unused_bits(format: &Format) -> Vec<u32> {
    let unused = unused(format);
    let bits: Vec<u32> = (0..32).map(|bit| 1 << bit).filter(|bit| unused & bit != 0).collect();
    let mut words = Vec::new();
    for (index, high) in bits.iter().enumerate() {
        words.extend(bits[..index].iter().map(|low| plain(format) | high | low));
    }
    words
}

/// The bits that hold no operand and do not tell which instruction a word is.
fn unused(format: &Format) -> u32 {
    let telling = match (format.fixed >> 26, format.fixed >> 21 & 31) {
        (0, _) => 0xFC00_003F,
        (18, 28) => 0xFFE0_0007,
        (18, _) => 0xFFE0_0000,
        (50 | 58, _) => 0xFC00_0007,
        _ => 0xFC00_0000,
    };
    !(telling | format.mask())
}

/// Every major opcode, with zeros, ones and neither after it.
fn majors() -> Vec<u32> {
    let fillings = [0, 0x03FF_FFFF, REGISTERS | 0x0555];
    (0..64).flat_map(|major| fillings.map(|filling| major << 26 | filling)).collect()
}

/// Every function of major opcode 0, without and with registers, with 10..6 zero and not.
fn functions() -> Vec<u32> {
    let mut words = Vec::new();
    for function in 0..64 {
        for shift in [0, 1, 16, 31] {
            words.extend([0, REGISTERS].map(|registers| registers | shift << 6 | function));
        }
    }
    words
}

/// Shifts of register 0 into itself (SSNOP by 1, EHB by 3, PAUSE by 5), and BREAK with codes.
fn shifts_and_breaks() -> Vec<u32> {
    let mut words: Vec<u32> = (0..32).map(|shift| shift << 6).collect();
    let codes = [0, 1, 7, 0x3FF, 0x400, 0x5_5555, 0x8_0000, 0xF_FFFF];
    words.extend(codes.map(|code| code << 6 | 13));
    words
}

/// Every number of major opcode 18, alone and with each single bit below it.
fn numbers() -> Vec<u32> {
    let mut words = Vec::new();
    for number in 0..32 {
        let word = 18 << 26 | number << 21;
        words.push(word);
        words.extend((0..21).map(|bit| word | 1 << bit));
    }
    words
}

/// Loads and stores through a capability: every size code and bit 2, with offsets at the extremes.
fn accesses() -> Vec<u32> {
    let mut words = Vec::new();
    for major in [50, 58] {
        for offset in [0, 1, 0x7F, 0x80, 0xFF] {
            let word = major << 26 | REGISTERS | offset << 3;
            words.extend((0..8).map(|low| word | low));
        }
    }
    words
}

/// Every kind of CPtrCmp from 0 to 7, with every filling of the three bits above it.
fn comparisons() -> Vec<u32> {
    let operands = 1 << 16 | 2 << 11 | 3 << 6;
    (0..64).map(|low| 18 << 26 | 28 << 21 | operands | low).collect()
}
