//! Words and worlds for the tests.
#![allow(dead_code)]

use second::*;

pub const EXECUTE: u32 = 1 << PERMIT_EXECUTE;
pub const LOAD: u32 = 1 << PERMIT_LOAD;
pub const STORE: u32 = 1 << PERMIT_STORE;
pub const LOAD_CAP: u32 = 1 << PERMIT_LOAD_CAPABILITY;
pub const STORE_CAP: u32 = 1 << PERMIT_STORE_CAPABILITY;
pub const STORE_LOCAL: u32 = 1 << PERMIT_STORE_LOCAL_CAPABILITY;
pub const SEAL: u32 = 1 << PERMIT_SEAL;
pub const IS_GLOBAL: u32 = 1 << GLOBAL;
pub const ALL: u32 = PERMS_MASK;
/// Access to C27 .. C31.
pub const ACCESS_ALL: u32 = 0x7C00;

pub const NOP: u32 = 0;
pub const BREAK: u32 = 0x0000_000D;

/// A MIPS word of major opcode 0.
pub fn special(function: u32, rd: u32, rs: u32, rt: u32) -> u32 {
    rs << 21 | rt << 16 | rd << 11 | function
}

/// A MIPS word with a 16-bit immediate: 25..21, 20..16, 15..0.
pub fn immediate(major: u32, rs: u32, rt: u32, value: i32) -> u32 {
    major << 26 | rs << 21 | rt << 16 | (value as u32 & 0xFFFF)
}

pub fn daddu(rd: u32, rs: u32, rt: u32) -> u32 {
    special(45, rd, rs, rt)
}

pub fn daddiu(rt: u32, rs: u32, value: i32) -> u32 {
    immediate(25, rs, rt, value)
}

pub fn beq(rs: u32, rt: u32, offset: i32) -> u32 {
    immediate(4, rs, rt, offset)
}

pub fn bne(rs: u32, rt: u32, offset: i32) -> u32 {
    immediate(5, rs, rt, offset)
}

pub fn ld(rt: u32, base: u32, offset: i32) -> u32 {
    immediate(55, base, rt, offset)
}

pub fn sd(rt: u32, base: u32, offset: i32) -> u32 {
    immediate(63, base, rt, offset)
}

pub fn lbu(rt: u32, base: u32, offset: i32) -> u32 {
    immediate(36, base, rt, offset)
}

pub fn sb(rt: u32, base: u32, offset: i32) -> u32 {
    immediate(40, base, rt, offset)
}

/// A word of major opcode 18 with its operands in 20..16, 15..11, 10..6.
pub fn cap3(number: u32, first: u32, second: u32, third: u32) -> u32 {
    18 << 26 | number << 21 | first << 16 | second << 11 | third << 6
}

pub fn cap2(number: u32, first: u32, second: u32) -> u32 {
    cap3(number, first, second, 0)
}

pub fn cap1(number: u32, first: u32) -> u32 {
    cap3(number, first, 0, 0)
}

pub fn cbtu(cb: u32, offset: i32) -> u32 {
    cap1(24, cb) | (offset as u32 & 0xFFFF)
}

pub fn cbts(cb: u32, offset: i32) -> u32 {
    cap1(25, cb) | (offset as u32 & 0xFFFF)
}

fn through(major: u32, register: u32, cb: u32, rt: u32) -> u32 {
    major << 26 | register << 21 | cb << 16 | rt << 11
}

/// A data load that extends by zeros; code 0 to 3 is 1, 2, 4, 8 bytes.
pub fn cload(rd: u32, cb: u32, rt: u32, offset: i32, code: u32) -> u32 {
    through(50, rd, cb, rt) | (offset as u32 & 0xFF) << 3 | code
}

/// A data load that extends by the sign.
pub fn cload_signed(rd: u32, cb: u32, rt: u32, offset: i32, code: u32) -> u32 {
    cload(rd, cb, rt, offset, code) | 4
}

pub fn cstore(rs: u32, cb: u32, rt: u32, offset: i32, code: u32) -> u32 {
    through(58, rs, cb, rt) | (offset as u32 & 0xFF) << 3 | code
}

pub fn clc(cd: u32, cb: u32, rt: u32, offset: i32) -> u32 {
    through(54, cd, cb, rt) | (offset as u32 & 0x7FF)
}

pub fn csc(cs: u32, cb: u32, rt: u32, offset: i32) -> u32 {
    through(62, cs, cb, rt) | (offset as u32 & 0x7FF)
}

/// The words as flash, filled up with zero words to whole lines.
pub fn flash_of(words: &[u32]) -> Vec<u8> {
    let mut flash: Vec<u8> = words.iter().flat_map(|word| word.to_be_bytes()).collect();
    flash.resize(flash.len().next_multiple_of(32), 0);
    flash
}

pub fn tagged(base: u64, length: u64, perms: u32) -> Cap {
    Cap { tag: true, perms, base, length, ..Cap::default() }
}

/// Cap A of the bench examples.
pub fn cap_a() -> Cap {
    tagged(RAM_BASE, 64, LOAD | STORE)
}

/// A machine with its memories.
#[derive(Clone, PartialEq, Eq, Debug)]
pub struct World {
    pub machine: Machine,
    pub flash: Vec<u8>,
    pub ram: Vec<u8>,
    pub tags: Vec<u8>,
}

impl World {
    /// The words in flash, PCC over all of it with Execute and Global, 256 bytes of RAM.
    pub fn new(words: &[u32]) -> World {
        let flash = flash_of(words);
        let pcc = tagged(0, flash.len() as u64, EXECUTE | IS_GLOBAL);
        let machine = Machine { pcc, ..Machine::default() };
        World { machine, flash, ram: vec![0; 256], tags: vec![0; 8] }
    }

    /// The same with one capability register set.
    pub fn with_cap(mut self, register: usize, cap: Cap) -> World {
        self.machine.caps[register] = cap;
        self
    }

    /// The same with one general register set.
    pub fn with(mut self, register: usize, value: u64) -> World {
        self.machine.general[register] = value;
        self
    }

    /// The same with more permissions in PCC.
    pub fn with_pcc(mut self, perms: u32) -> World {
        self.machine.pcc.perms |= perms;
        self
    }

    /// The same with the capability, and its tag, in a line of RAM.
    pub fn with_line(mut self, line: usize, cap: Cap) -> World {
        self.ram[32 * line..32 * line + 32].copy_from_slice(&cap.to_bytes());
        self.tags[line] = u8::from(cap.tag);
        self
    }

    /// Runs and keeps the machine that comes back.
    pub fn run(&mut self, budget: u32) -> Outcome {
        let outcome = run(&self.machine, &self.flash, &mut self.ram, &mut self.tags, budget);
        self.machine = outcome.machine.clone();
        outcome
    }

    /// Runs one step that must be made.
    pub fn step(&mut self) {
        let outcome = self.run(1);
        assert_eq!((outcome.stop, outcome.steps), (0, 1), "{outcome:?}");
    }

    pub fn cap(&self, register: usize) -> Cap {
        self.machine.caps[register]
    }

    pub fn general(&self, register: usize) -> u64 {
        self.machine.general[register]
    }

    /// The bench line with the book that the writer makes of this world.
    pub fn bench_line(&self) -> [u64; 5] {
        let mut out = vec![0; 65_536];
        let length = write_book(&self.machine, &self.ram, &self.tags, &mut out).unwrap();
        bench_line(&out[..length], &self.flash)
    }
}

/// Stop, cause, register, place and steps of an outcome.
pub fn line(outcome: &Outcome) -> [u64; 5] {
    let cause = u64::from(outcome.cause);
    let register = u64::from(outcome.register);
    [u64::from(outcome.stop), cause, register, outcome.place, u64::from(outcome.steps)]
}

/// The first stop of the world's run, which must leave all but the cause as it was.
pub fn stop_of(world: &World) -> (u32, u32, u32) {
    let mut after = world.clone();
    let outcome = after.run(1);
    let mut expected = world.clone();
    if outcome.stop == STOP_CAPABILITY {
        expected.machine.cause = (outcome.cause << 8 | outcome.register) as u16;
    }
    assert_ne!(outcome.stop, STOP_DONE);
    assert_eq!(after, expected);
    assert_eq!((outcome.place, outcome.steps), (world.machine.pcc.offset, 0));
    (outcome.stop, outcome.cause, outcome.register)
}

/// The cause and register of a capability exception at the first step.
pub fn exception_of(world: &World) -> (u32, u32) {
    let (stop, cause, register) = stop_of(world);
    assert_eq!(stop, STOP_CAPABILITY);
    (cause, register)
}
