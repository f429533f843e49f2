//! The operands of an instruction while its word is being chosen.

use super::wanted::is_capability;
use crate::asm::encode::{put, Format, Kind};
use crate::random::Random;

/// The operands of one instruction, each a number for its field.
#[derive(Clone, Debug)]
pub struct Operands {
    pub format: &'static Format,
    pub numbers: Vec<i64>,
}

impl Operands {
    /// Registers and any immediate. Clean ones are not general register 0, and
    /// no two of the capability registers are the same.
    pub fn new(random: &mut Random, format: &'static Format, clean: bool) -> Operands {
        let mut operands = Operands { format, numbers: Vec::new() };
        for field in format.fields {
            let (least, greatest) = field.range();
            let number = match field.kind {
                Kind::General if clean => 1 + random.below(31) as i64,
                Kind::General => random.below(32) as i64,
                Kind::Capability => operands.other_capability(random, clean),
                _ => least + random.below((greatest - least) as u64 + 1) as i64,
            };
            operands.numbers.push(number);
        }
        operands
    }

    /// A register not named yet, or once in eight any; seldom a reserved one.
    fn other_capability(&self, random: &mut Random, clean: bool) -> i64 {
        let named: Vec<i64> = (0..self.numbers.len())
            .filter(|index| is_capability(&&self.format.fields[*index]))
            .map(|index| self.numbers[index])
            .collect();
        let any = !clean && random.chance(8);
        loop {
            let limit = if random.chance(4) { 32 } else { 27 };
            let number = random.below(limit) as i64;
            if any || !named.contains(&number) {
                return number;
            }
        }
    }

    /// Makes one register operand the same as another of its kind.
    pub fn make_alias(&mut self, random: &mut Random) {
        for kind in [Kind::Capability, Kind::General] {
            let same: Vec<usize> = (0..self.numbers.len())
                .filter(|index| self.format.fields[*index].kind == kind)
                .collect();
            if same.len() > 1 {
                let first = random.below(same.len() as u64 - 1) as usize;
                self.numbers[same[first]] = self.numbers[same[first + 1]];
            }
        }
    }

    /// The place among the operands of the capability at this position.
    fn capability_index(&self, position: usize) -> Option<usize> {
        let mut indices =
            (0..self.numbers.len()).filter(|index| is_capability(&&self.format.fields[*index]));
        indices.nth(position)
    }

    /// The capability register at a position; LD, SD, LBU and SB use C0.
    pub fn capability(&self, position: usize) -> usize {
        match self.capability_index(position) {
            Some(index) => self.numbers[index] as usize,
            None => 0,
        }
    }

    pub fn set_capability(&mut self, position: usize, register: usize) {
        if let Some(index) = self.capability_index(position) {
            self.numbers[index] = register as i64;
        }
    }

    /// The position of the last capability operand, 0 if there is none.
    pub fn last_position(&self) -> usize {
        self.format.fields.iter().filter(is_capability).count().saturating_sub(1)
    }

    /// The last general register named, which is the one rules read.
    pub fn general(&self) -> usize {
        self.last_of(Kind::General)
    }

    pub fn last_of(&self, kind: Kind) -> usize {
        let index = self.format.fields.iter().rposition(|field| field.kind == kind);
        index.map_or(0, |index| self.numbers[index] as usize)
    }

    /// Replaces the immediate, kept within its field.
    pub fn set_immediate(&mut self, value: i64) {
        for (field, number) in self.format.fields.iter().zip(&mut self.numbers) {
            if matches!(field.kind, Kind::Signed | Kind::Branch) {
                *number = value.clamp(field.range().0, field.range().1);
            }
        }
    }

    pub fn word(&self) -> u32 {
        let mut word = self.format.fixed;
        for (field, number) in self.format.fields.iter().zip(&self.numbers) {
            word |= put(field, *number).unwrap_or(0);
        }
        word
    }
}
