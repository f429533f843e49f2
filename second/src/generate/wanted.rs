//! The outcomes that the cases aim at: each instruction with each of its faults.

use crate::asm::encode::{Field, Format, Kind, FORMATS};
use crate::random::Random;
use crate::{
    GLOBAL, PERMIT_EXECUTE, PERMIT_LOAD, PERMIT_LOAD_CAPABILITY, PERMIT_SEAL, PERMIT_STORE,
    PERMIT_STORE_CAPABILITY,
};

/// Something to be wrong with an instruction. A position counts the capability
/// operands of the instruction from 0.
#[derive(Clone, Copy, PartialEq, Eq, Debug)]
pub enum Fault {
    /// The operand at this position is this register, and PCC lacks its bit.
    Access(usize, usize),
    /// CGetCause or CSetCause under a PCC without Access_EPCC.
    Cause,
    Tag(usize),
    /// The seal is not as the instruction wants it.
    Seal(usize),
    Type,
    /// The last capability operand lacks this permission.
    Permission(u32),
    StoreLocal,
    UserDefined,
    Length,
    Misaligned,
    Neither,
    Flash,
}

/// An instruction, up to two things to be wrong with it, and how it stands.
#[derive(Clone, Copy, PartialEq, Eq, Debug)]
pub struct Target {
    pub format: &'static Format,
    pub faults: [Option<Fault>; 2],
    /// In a slot.
    pub slot: bool,
    /// Two of its operands are one register.
    pub alias: bool,
}

impl Target {
    fn new(format: &'static Format, first: Option<Fault>, second: Option<Fault>) -> Target {
        Target { format, faults: [first, second], slot: false, alias: false }
    }
}

/// Deals its items in random order, all of them before any comes again.
pub struct Deck<T> {
    items: Vec<T>,
    dealt: usize,
    rounds: u32,
}

impl<T: Copy> Deck<T> {
    pub fn new(items: Vec<T>) -> Deck<T> {
        let dealt = items.len();
        Deck { items, dealt, rounds: 0 }
    }

    pub fn deal(&mut self, random: &mut Random) -> T {
        if self.dealt == self.items.len() {
            self.shuffle(random);
            self.dealt = 0;
            self.rounds += 1;
        }
        self.dealt += 1;
        self.items[self.dealt - 1]
    }

    /// True while the deck goes round for the first, third, fifth time.
    pub fn odd_round(&self) -> bool {
        self.rounds % 2 == 1
    }

    fn shuffle(&mut self, random: &mut Random) {
        for last in (1..self.items.len()).rev() {
            let other = random.below(last as u64 + 1) as usize;
            self.items.swap(last, other);
        }
    }
}

/// Each instruction with success and each fault; what varies most comes more often.
pub fn targets() -> Vec<Target> {
    let mut targets = Vec::new();
    for format in FORMATS {
        let success = Target::new(format, None, None);
        targets.push(Target { slot: true, ..success });
        targets.push(Target { alias: true, ..success });
        let has_range = own_faults(format.name).contains(&Fault::Length);
        // Loads and stores of data are many and much alike.
        let data = format.memory && !["clc", "csc"].contains(&format.name);
        let range_times = if data { 4 } else { 8 };
        let successes = if has_range { range_times } else { 4 };
        targets.extend(vec![success; successes]);
        for fault in faults(format) {
            let times = match fault {
                Fault::Access(..) => 1,
                Fault::Length => range_times,
                _ => 2,
            };
            targets.extend(vec![Target::new(format, Some(fault), None); times]);
        }
    }
    targets
}

/// Each instruction with each two of its faults, to see which one comes first.
pub fn pair_targets() -> Vec<Target> {
    let mut targets = Vec::new();
    for format in FORMATS {
        let faults = faults(format);
        for (index, first) in faults.iter().enumerate() {
            let others = &faults[index + 1..];
            let seconds = others.iter().filter(|second| pair_is_new(first, second));
            targets.extend(seconds.map(|second| Target::new(format, Some(*first), Some(*second))));
        }
    }
    targets
}

/// Of the five registers of an access fault one is enough in a pair.
fn pair_is_new(first: &Fault, second: &Fault) -> bool {
    match (first, second) {
        (Fault::Access(one, 27), Fault::Access(other, 31)) => one != other,
        (Fault::Access(..), Fault::Access(..)) => false,
        (Fault::Access(position, register), _) => *register == 28 + position,
        _ => true,
    }
}

/// Every fault an instruction can have.
pub fn faults(format: &Format) -> Vec<Fault> {
    let mut faults = access_faults(format);
    faults.extend_from_slice(own_faults(format.name));
    faults
}

pub fn is_capability(field: &&Field) -> bool {
    field.kind == Kind::Capability
}

fn access_faults(format: &Format) -> Vec<Fault> {
    let mut faults = Vec::new();
    // CCall raises before it looks at a register.
    if format.name == "ccall" {
        return faults;
    }
    for position in 0..format.fields.iter().filter(is_capability).count() {
        for register in 27..32 {
            faults.push(Fault::Access(position, register));
        }
    }
    faults
}

fn own_faults(name: &str) -> &'static [Fault] {
    use Fault::*;
    match name {
        "cgetcause" | "csetcause" => &[Cause],
        "candperm" => &[Tag(1), Seal(1)],
        "cincbase" | "csetlen" | "cfromptr" => &[Tag(1), Seal(1), Length],
        "csetoffset" | "cincoffset" => &[Seal(1)],
        "ctoptr" => &[Tag(1)],
        "cseal" => &[Tag(1), Tag(2), Seal(1), Seal(2), Permission(PERMIT_SEAL), Length],
        "cunseal" => &[Tag(1), Tag(2), Seal(1), Seal(2), Type, Permission(PERMIT_SEAL), Length],
        "ccheckperm" => &[Tag(0), UserDefined],
        "cchecktype" => &[Tag(0), Tag(1), Seal(0), Seal(1), Type],
        "cjr" => {
            &[Tag(0), Seal(0), Permission(PERMIT_EXECUTE), Permission(GLOBAL), Length, Misaligned]
        }
        "cjalr" => {
            &[Tag(1), Seal(1), Permission(PERMIT_EXECUTE), Permission(GLOBAL), Length, Misaligned]
        }
        "cbtu" | "cbts" => &[Length],
        _ => load_or_store_faults(name),
    }
}

fn load_or_store_faults(name: &str) -> &'static [Fault] {
    use Fault::*;
    match name {
        "lbu" | "clbu" | "clb" => &[Tag(0), Seal(0), Permission(PERMIT_LOAD), Length, Neither],
        "ld" | "clhu" | "clwu" | "cld" | "clh" | "clw" => {
            &[Tag(0), Seal(0), Permission(PERMIT_LOAD), Length, Misaligned, Neither]
        }
        "sb" | "csb" => &[Tag(0), Seal(0), Permission(PERMIT_STORE), Length, Neither, Flash],
        "sd" | "csh" | "csw" | "csd" => {
            &[Tag(0), Seal(0), Permission(PERMIT_STORE), Length, Misaligned, Neither, Flash]
        }
        "clc" => {
            &[Tag(1), Seal(1), Permission(PERMIT_LOAD_CAPABILITY), Length, Misaligned, Neither]
        }
        "csc" => &[
            Tag(1),
            Seal(1),
            Permission(PERMIT_STORE_CAPABILITY),
            StoreLocal,
            Length,
            Misaligned,
            Neither,
            Flash,
        ],
        _ => &[],
    }
}
