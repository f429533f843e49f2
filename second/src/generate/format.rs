//! The case file.
//!
//! Numbers are big-endian. The file is a list of cases up to its end. A case is
//! a length of 4 bytes and a body of that length. A body is
//!
//! - kind 1, run: byte 1, budget (4), machine, flash, RAM, tags;
//! - kind 2, read: byte 2, book, length of the flash (4), RAM and tags as they
//!   were before;
//! - kind 3, write: byte 3, machine, RAM, tags, the output buffer as it was
//!   before (its length is the buffer's);
//! - kind 4, bench: byte 4, book, flash.
//!
//! A machine is
//!
//! - the cause register (2);
//! - a count (1) of general registers, each a number (1, 0 to 31) and a value (8);
//! - a count (1) of capabilities, each a number (1: 0 to 31 is that register, 32
//!   PCC, 33 the pending jump) and tag (1), sealed (1), spare (1), otype (4),
//!   permissions (4), base (8), length (8), offset (8).
//!
//! Registers not named are zero; without number 33 nothing is pending. An otype
//! or a permission field may be past its width, and general register 0 may be
//! named: the machine is then one to refuse.
//!
//! Flash, RAM, tags, book and output buffer are each
//!
//! - length (4), a byte that fills it (1), a count (4) of pieces;
//! - each piece a place (4), a length (2) and that many bytes, put over the fill.
//!
//! Lengths need not be legal sizes, and a tag byte may be above 1.

use super::{BenchCase, Case, ReadCase, RunCase, WriteCase};
use crate::{Cap, Machine};

const PCC_NUMBER: u8 = 32;
const PENDING_NUMBER: u8 = 33;
const PIECE: usize = 32;
/// No case needs a longer memory; a file that asks for one is broken.
const LONGEST: usize = 1 << 20;

/// The file of these cases.
pub fn encode(cases: &[Case]) -> Vec<u8> {
    let mut file = Vec::new();
    for case in cases {
        let body = encode_case(case);
        file.extend_from_slice(&(body.len() as u32).to_be_bytes());
        file.extend_from_slice(&body);
    }
    file
}

fn encode_case(case: &Case) -> Vec<u8> {
    let mut body = Vec::new();
    match case {
        Case::Run(run) => {
            body.push(1);
            body.extend_from_slice(&run.budget.to_be_bytes());
            put_machine(&mut body, &run.machine);
            put_memory(&mut body, &run.flash);
            put_memory(&mut body, &run.ram);
            put_memory(&mut body, &run.tags);
        }
        Case::Read(read) => {
            body.push(2);
            put_memory(&mut body, &read.book);
            body.extend_from_slice(&(read.flash_length as u32).to_be_bytes());
            put_memory(&mut body, &read.ram);
            put_memory(&mut body, &read.tags);
        }
        Case::Write(write) => {
            body.push(3);
            put_machine(&mut body, &write.machine);
            put_memory(&mut body, &write.ram);
            put_memory(&mut body, &write.tags);
            put_memory(&mut body, &write.out);
        }
        Case::Bench(bench) => {
            body.push(4);
            put_memory(&mut body, &bench.book);
            put_memory(&mut body, &bench.flash);
        }
    }
    body
}

/// The capability as the file and the checksum hold it: 35 bytes.
pub fn cap_bytes(cap: &Cap) -> Vec<u8> {
    let mut bytes = vec![u8::from(cap.tag), u8::from(cap.sealed), cap.spare];
    bytes.extend_from_slice(&cap.otype.to_be_bytes());
    bytes.extend_from_slice(&cap.perms.to_be_bytes());
    bytes.extend_from_slice(&cap.base.to_be_bytes());
    bytes.extend_from_slice(&cap.length.to_be_bytes());
    bytes.extend_from_slice(&cap.offset.to_be_bytes());
    bytes
}

fn put_machine(body: &mut Vec<u8>, machine: &Machine) {
    body.extend_from_slice(&machine.cause.to_be_bytes());
    let general: Vec<usize> = (0..32).filter(|number| machine.general[*number] != 0).collect();
    body.push(general.len() as u8);
    for number in general {
        body.push(number as u8);
        body.extend_from_slice(&machine.general[number].to_be_bytes());
    }
    let mut caps: Vec<(u8, Cap)> = Vec::new();
    for number in 0..32 {
        caps.push((number as u8, machine.caps[number]));
    }
    caps.push((PCC_NUMBER, machine.pcc));
    caps.retain(|(_, cap)| *cap != Cap::default());
    if let Some(pending) = machine.pending {
        caps.push((PENDING_NUMBER, pending));
    }
    body.push(caps.len() as u8);
    for (number, cap) in caps {
        body.push(number);
        body.extend_from_slice(&cap_bytes(&cap));
    }
}

fn put_memory(body: &mut Vec<u8>, memory: &[u8]) {
    let fill = commonest(memory);
    let mut pieces = Vec::new();
    for (index, piece) in memory.chunks(PIECE).enumerate() {
        if piece.iter().any(|byte| *byte != fill) {
            pieces.push((index * PIECE, piece));
        }
    }
    body.extend_from_slice(&(memory.len() as u32).to_be_bytes());
    body.push(fill);
    body.extend_from_slice(&(pieces.len() as u32).to_be_bytes());
    for (place, piece) in pieces {
        body.extend_from_slice(&(place as u32).to_be_bytes());
        body.extend_from_slice(&(piece.len() as u16).to_be_bytes());
        body.extend_from_slice(piece);
    }
}

/// The byte that fills the most of a memory, so that few pieces are left.
fn commonest(memory: &[u8]) -> u8 {
    let mut counts = [0; 256];
    for byte in memory {
        counts[usize::from(*byte)] += 1;
    }
    (0..=255).max_by_key(|byte| counts[usize::from(*byte)]).unwrap_or(0)
}

/// The cases of a file, or what is wrong with it.
pub fn decode(file: &[u8]) -> Result<Vec<Case>, String> {
    let mut cases = Vec::new();
    let mut reader = Reader { bytes: file, place: 0 };
    while reader.place < file.len() {
        let length = reader.number(4)? as usize;
        let body = reader.take(length)?;
        let number = cases.len();
        cases.push(decode_case(body).map_err(|error| format!("case {number}: {error}"))?);
    }
    Ok(cases)
}

fn decode_case(body: &[u8]) -> Result<Case, String> {
    let mut reader = Reader { bytes: body, place: 0 };
    let case = match reader.number(1)? {
        1 => {
            let budget = reader.number(4)? as u32;
            let machine = reader.machine()?;
            let (flash, ram, tags) = (reader.memory()?, reader.memory()?, reader.memory()?);
            Case::Run(RunCase { machine, flash, ram, tags, budget })
        }
        2 => {
            let book = reader.memory()?;
            let flash_length = reader.number(4)? as usize;
            let (ram, tags) = (reader.memory()?, reader.memory()?);
            Case::Read(ReadCase { book, flash_length, ram, tags })
        }
        3 => {
            let machine = reader.machine()?;
            let (ram, tags, out) = (reader.memory()?, reader.memory()?, reader.memory()?);
            Case::Write(WriteCase { machine, ram, tags, out })
        }
        4 => {
            let (book, flash) = (reader.memory()?, reader.memory()?);
            Case::Bench(BenchCase { book, flash })
        }
        kind => return Err(format!("unknown kind {kind}")),
    };
    if reader.place != body.len() {
        return Err("bytes after the case".to_string());
    }
    Ok(case)
}

/// The bytes and how far they are read.
struct Reader<'a> {
    bytes: &'a [u8],
    place: usize,
}

impl<'a> Reader<'a> {
    fn take(&mut self, length: usize) -> Result<&'a [u8], String> {
        if length > self.bytes.len() - self.place {
            return Err(format!("cut at byte {}", self.place));
        }
        let taken = &self.bytes[self.place..self.place + length];
        self.place += length;
        Ok(taken)
    }

    /// A number of up to 8 bytes.
    fn number(&mut self, size: usize) -> Result<u64, String> {
        let bytes = self.take(size)?;
        Ok(bytes.iter().fold(0, |number, byte| number << 8 | u64::from(*byte)))
    }

    fn flag(&mut self) -> Result<bool, String> {
        match self.number(1)? {
            0 => Ok(false),
            1 => Ok(true),
            other => Err(format!("{other} is not 0 or 1")),
        }
    }

    fn cap(&mut self) -> Result<Cap, String> {
        Ok(Cap {
            tag: self.flag()?,
            sealed: self.flag()?,
            spare: self.number(1)? as u8,
            otype: self.number(4)? as u32,
            perms: self.number(4)? as u32,
            base: self.number(8)?,
            length: self.number(8)?,
            offset: self.number(8)?,
        })
    }

    fn machine(&mut self) -> Result<Machine, String> {
        let mut machine = Machine { cause: self.number(2)? as u16, ..Machine::default() };
        for _ in 0..self.number(1)? {
            let number = self.number(1)? as usize;
            let value = self.number(8)?;
            let register = machine.general.get_mut(number).ok_or("no such general register")?;
            *register = value;
        }
        for _ in 0..self.number(1)? {
            let number = self.number(1)? as u8;
            let cap = self.cap()?;
            match number {
                PCC_NUMBER => machine.pcc = cap,
                PENDING_NUMBER => machine.pending = Some(cap),
                0..=31 => machine.caps[usize::from(number)] = cap,
                _ => return Err(format!("no capability register {number}")),
            }
        }
        Ok(machine)
    }

    fn memory(&mut self) -> Result<Vec<u8>, String> {
        let length = self.number(4)? as usize;
        if length > LONGEST {
            return Err(format!("a memory of {length} bytes"));
        }
        let mut memory = vec![self.number(1)? as u8; length];
        for _ in 0..self.number(4)? {
            let place = self.number(4)? as usize;
            let size = self.number(2)? as usize;
            let bytes = self.take(size)?;
            let part = memory.get_mut(place..place + size).ok_or("a piece outside its memory")?;
            part.copy_from_slice(bytes);
        }
        Ok(memory)
    }
}
