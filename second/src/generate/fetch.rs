//! Runs that stop at the fetch, or at a word that is no instruction.

use super::access::outside_address;
use super::capability::fill_operands;
use super::focus::{pending_cap, ALWAYS};
use super::numbers::longest;
use super::operands::Operands;
use super::stage::{code_address, code_cap, empty_stage, put_words, untag_illegal_lines, Setting};
use super::RunCase;
use crate::asm::encode::{Format, FORMATS};
use crate::random::Random;
use crate::PERMIT_EXECUTE;

/// Words that other MIPS machines know, and near forms of our own.
const STRANGERS: &[u32] = &[
    0x0000_0040, // SSNOP
    0x0000_00C0, // EHB
    0x0000_000C, // SYSCALL
    0x0000_000F, // SYNC
    0x03E0_0008, // JR $31
    0x0320_F809, // JALR $31, $25
    0x0022_1856, // DROTRV
    0x0022_1820, // ADD
    0x0022_1821, // ADDU
    0x0022_182C, // DADD
    0x0022_1827, // NOR
    0x0001_1038, // DSLL
    0x0400_0001, // BLTZ
    0x0411_0001, // BAL
    0x0800_0000, // J 0
    0x0C00_0000, // JAL 0
    0x1800_0001, // BLEZ
    0x1C20_0001, // BGTZ
    0x2001_0001, // ADDI
    0x2401_0001, // ADDIU
    0x2801_0001, // SLTI
    0x3801_0001, // XORI
    0x3C21_0001, // LUI with a source
    0x5000_0001, // BEQL
    0x6401_0001, // DADDIU, a true one
    0x8C01_0000, // LW
    0xAC01_0000, // SW
    0x4A00_0000, // coprocessor 2, number 16
    0x4BA0_0000, // number 29
    0x4BC0_0000, // number 30
    0x4BE0_0000, // number 31
    0x4B82_1906, // CPtrCmp of kind 6
    0x4B82_1907, // CPtrCmp of kind 7
    0x4B41_1040, // CCall with a selector
    0x4B61_0000, // CReturn with a register
    0xC841_1007, // a sign-extending doubleword load
    0xE841_1004, // a store with bit 2 set
    0xFFFF_FFFF,
];

/// A PCC with one or two of its own faults, in a slot or not.
pub fn fetch_fault(random: &mut Random, setting: Setting) -> RunCase {
    let mut run = empty_stage(random, setting);
    let mut address = code_address(random, &run, 2);
    if random.chance(3) {
        address = outside_address(random, &run, 4);
    }
    run.machine.pcc = code_cap(random, address, 1);
    for _ in 0..*random.pick(&[0, 1, 1, 1, 2]) {
        spoil_pcc(random, &mut run);
    }
    put_words(&mut run, address, &[0, 0]);
    untag_illegal_lines(&mut run);
    if setting == Setting::Free && random.chance(2) {
        run.machine.pending = Some(pending_cap(random, &run));
    }
    // A few steps more, so that good code runs off its end.
    run.budget = *random.pick(&[0, 1, 1, 2, 3, 12]);
    run
}

fn spoil_pcc(random: &mut Random, run: &mut RunCase) {
    let pcc = &mut run.machine.pcc;
    match random.below(7) {
        0 => pcc.tag = false,
        1 => pcc.sealed = true,
        2 => pcc.perms &= !(1 << PERMIT_EXECUTE),
        3 => pcc.length = pcc.length.min(pcc.offset.saturating_add(random.below(4))),
        4 => {
            pcc.length = longest(pcc.base);
            pcc.offset = 0u64.wrapping_sub(1 + random.below(8));
        }
        5 => {
            // In range, but not at a multiple of 4.
            pcc.length = longest(pcc.base);
            pcc.offset = pcc.offset.wrapping_add(1 + random.below(3));
        }
        _ => {
            pcc.base = pcc.base.saturating_add(1 + random.below(3));
            pcc.length = pcc.length.min(longest(pcc.base));
        }
    }
}

/// A word that is near this instruction, or else a stranger, alone or in a slot.
pub fn reserved_word(
    random: &mut Random,
    format: &'static Format,
    near: bool,
    setting: Setting,
) -> RunCase {
    let mut run = empty_stage(random, setting);
    let operands = Operands::new(random, format, false);
    fill_operands(random, &mut run, &operands);
    let word = match random.below(8) {
        0 if !near => random.next() as u32,
        1 | 2 if !near => *random.pick(STRANGERS),
        3 if !near => 18 << 26 | random.next() as u32 & 0x03FF_FFFF,
        _ => {
            let unused = unused_bits(random, format);
            operands.word() ^ 1 << random.pick(&unused)
        }
    };
    let mut words = vec![word, 0x0D];
    if setting == Setting::Bench && random.chance(2) {
        words.insert(0, ALWAYS | 1);
    }
    let address = code_address(random, &run, words.len());
    run.machine.pcc = code_cap(random, address, words.len());
    put_words(&mut run, address, &words);
    untag_illegal_lines(&mut run);
    if setting == Setting::Free && random.chance(2) {
        run.machine.pending = Some(pending_cap(random, &run));
    }
    run.budget = *random.pick(&[1, 1, 1, 2]);
    run
}

/// Every instruction once, and the two jumps with unused fields again: in a slot
/// they answer 7 whatever these hold.
pub fn near_formats() -> Vec<&'static Format> {
    let jumps = FORMATS.iter().filter(|format| ["cjr", "cjalr"].contains(&format.name));
    FORMATS.iter().chain(jumps.clone()).chain(jumps).collect()
}

/// Bits of an unused field, or, if there is none, bits that no operand fills.
fn unused_bits(random: &mut Random, format: &Format) -> Vec<u32> {
    let fields = match (format.fixed >> 26, format.name) {
        (_, "nop") => 0..32,
        (0, _) => 6..26,
        (15, _) => 21..26,
        // Below these stands the kind of CPtrCmp.
        (18, _) => 3..21,
        (58, _) | (_, "cld") => 2..3,
        _ => 0..32,
    };
    let free = |bit: &u32| format.mask() >> bit & 1 == 0;
    let unused: Vec<u32> = fields.filter(free).collect();
    if unused.is_empty() || random.chance(8) {
        return (0..32).filter(free).collect();
    }
    unused
}
