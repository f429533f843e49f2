//! Flash, RAM and the tags of its lines.

use crate::cap::Cap;
use crate::cause::Fault;

pub const RAM_BASE: u64 = 1_048_576;
pub const LINE: u64 = 32;
/// The largest flash and the largest RAM.
pub const MEMORY_MOST: usize = 65_536;

/// The memories lent for a run.
pub struct Memory<'a> {
    pub flash: &'a [u8],
    pub ram: &'a mut [u8],
    pub tags: &'a mut [u8],
}

/// Where an aligned access lies; the number counts bytes in that memory.
#[derive(Clone, Copy, PartialEq, Eq, Debug)]
pub enum Found {
    Flash(usize),
    Ram(usize),
    Neither,
}

impl Memory<'_> {
    /// An aligned access lies in one memory or in neither.
    pub fn find(&self, address: u64, size: u64) -> Found {
        if within(address, size, self.flash.len()) {
            return Found::Flash(address as usize);
        }
        if address >= RAM_BASE && within(address - RAM_BASE, size, self.ram.len()) {
            return Found::Ram((address - RAM_BASE) as usize);
        }
        Found::Neither
    }

    /// The bytes of an aligned read.
    pub fn bytes(&self, address: u64, size: u64) -> Result<&[u8], Fault> {
        let size_here = size as usize;
        match self.find(address, size) {
            Found::Flash(at) => Ok(&self.flash[at..at + size_here]),
            Found::Ram(at) => Ok(&self.ram[at..at + size_here]),
            Found::Neither => Err(Fault::NoMemory),
        }
    }

    /// The unsigned big-endian number of an aligned read.
    pub fn load(&self, address: u64, size: u64) -> Result<u64, Fault> {
        match *self.bytes(address, size)? {
            [a, b, c, d] => Ok(u64::from(u32::from_be_bytes([a, b, c, d]))),
            [a, b, c, d, e, f, g, h] => Ok(u64::from_be_bytes([a, b, c, d, e, f, g, h])),
            ref bytes => Ok(bytes.iter().fold(0, |sum, &byte| sum << 8 | u64::from(byte))),
        }
    }

    /// Stores the low bytes of the value and clears the tag of that line.
    pub fn store(&mut self, address: u64, size: u64, value: u64) -> Result<(), Fault> {
        let at = self.find_to_store(address, size)?;
        let low = &value.to_be_bytes()[8 - size as usize..];
        self.ram[at..at + size as usize].copy_from_slice(low);
        self.tags[at / LINE as usize] = 0;
        Ok(())
    }

    /// A line of flash has no tag: its capability is untagged.
    pub fn load_cap(&self, address: u64) -> Result<Cap, Fault> {
        let mut line = [0; 32];
        line.copy_from_slice(self.bytes(address, LINE)?);
        let tag = match self.find(address, LINE) {
            Found::Ram(at) => self.tags[at / LINE as usize] == 1,
            _ => false,
        };
        Ok(Cap::from_bytes(&line, tag))
    }

    /// Stores a capability and sets the line's tag to the register's.
    pub fn store_cap(&mut self, address: u64, cap: &Cap) -> Result<(), Fault> {
        let at = self.find_to_store(address, LINE)?;
        self.ram[at..at + LINE as usize].copy_from_slice(&cap.to_bytes());
        self.tags[at / LINE as usize] = u8::from(cap.tag);
        Ok(())
    }

    /// In neither memory is 5, in flash 6 (ruling A22).
    fn find_to_store(&self, address: u64, size: u64) -> Result<usize, Fault> {
        match self.find(address, size) {
            Found::Ram(at) => Ok(at),
            Found::Flash(_) => Err(Fault::StoreIntoFlash),
            Found::Neither => Err(Fault::NoMemory),
        }
    }
}

/// True where start .. start + size lies in a memory of this length.
fn within(start: u64, size: u64, length: usize) -> bool {
    u128::from(start) + u128::from(size) <= length as u128
}

/// The 32 bytes of a RAM line, counted from 0.
pub fn line_bytes(ram: &[u8], line: usize) -> [u8; 32] {
    let mut bytes = [0; 32];
    bytes.copy_from_slice(&ram[line * LINE as usize..(line + 1) * LINE as usize]);
    bytes
}
