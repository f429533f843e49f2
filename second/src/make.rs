//! The book maker: a readable text to a start book and a flash.
//!
//! One statement a line; `#` starts a comment. Numbers are decimal or 0x
//! hexadecimal, may be negative, and underscores in them are ignored.
//!
//! ```text
//! ram 64                          # bytes of RAM, 32,768 if not said
//! pcc base=0 length=64 perms=execute+global
//! c1 base=0x100000 length=64 offset=8 perms=load+store
//! c2 tag=0 sealed=1 otype=5 spare=1 perms=0x7fff
//! $2 = -8                         # a general register, $1 to $31
//! line 0x100000 bytes 00 11 2233  # a RAM line in hexadecimal, the rest zero
//! line 0x100020 cap base=0x100000 length=32 perms=load
//!
//! start:                          # a label
//!     cld $1, $2, 0($c1)          # an instruction, see the assembler
//!     beq $1, $0, start
//!     nop
//!     break
//! .word 0x0000000d, 7             # 32-bit words of flash
//! .byte 1, 2, 255                 # bytes of flash
//! .align 4                        # zero bytes up to a multiple
//! ```
//!
//! A capability's fields are tag, sealed, otype, spare, perms, base, length and
//! offset; a field not named is 0, but tag is 1. Permissions are names or
//! numbers joined by `+`: global, execute, load, store, load_capability,
//! store_capability, store_local, seal, access_epcc, access_kdc, access_kcc,
//! access_kr1c, access_kr2c, all. A line of bytes is untagged unless `tag=1`
//! stands before `bytes`. Flash fills from address 0 and is padded with zeros to
//! a multiple of 32. Registers and lines not named are zero.

use crate::asm::{self, Labels};
use crate::{Cap, Machine, LINE, RAM_BASE};
use std::collections::BTreeSet;

const LONGEST: u64 = 65_536;
const BENCH_RAM: u64 = 32_768;

/// Permission names and their bit numbers, 004 table 3.2.
const PERMISSIONS: &[(&str, u32)] = &[
    ("global", 0),
    ("execute", 1),
    ("load", 2),
    ("store", 3),
    ("load_capability", 4),
    ("store_capability", 5),
    ("store_local", 6),
    ("seal", 7),
    ("access_epcc", 10),
    ("access_kdc", 11),
    ("access_kcc", 12),
    ("access_kr1c", 13),
    ("access_kr2c", 14),
];

/// What a case text makes.
#[derive(Clone, PartialEq, Eq, Debug)]
pub struct Made {
    pub book: Vec<u8>,
    pub flash: Vec<u8>,
}

/// A RAM line as written, with the number of the text line that wrote it.
struct Line {
    written_at: usize,
    address: u64,
    tag: bool,
    bytes: [u8; 32],
}

/// An instruction kept back until every label is known.
struct Waiting {
    written_at: usize,
    place: u64,
    text: String,
}

struct Maker {
    machine: Machine,
    ram_length: u64,
    lines: Vec<Line>,
    flash: Vec<u8>,
    labels: Labels,
    waiting: Vec<Waiting>,
    /// Names given so far, so that nothing is named twice.
    named: BTreeSet<String>,
}

/// Reads a whole case text; an error names the line it stands on.
pub fn make(text: &str) -> Result<Made, String> {
    let mut maker = Maker {
        machine: Machine::default(),
        ram_length: BENCH_RAM,
        lines: Vec::new(),
        flash: Vec::new(),
        labels: Labels::new(),
        waiting: Vec::new(),
        named: BTreeSet::new(),
    };
    for (index, line) in text.lines().enumerate() {
        let written_at = index + 1;
        maker.read_line(written_at, line).map_err(|error| at(written_at, error))?;
    }
    maker.fill_in_instructions()?;
    maker.finish()
}

fn at(written_at: usize, error: String) -> String {
    format!("line {written_at}: {error}")
}

impl Maker {
    fn read_line(&mut self, written_at: usize, line: &str) -> Result<(), String> {
        let mut text = line.split('#').next().unwrap_or("").trim();
        if let Some((label, rest)) = text.split_once(':') {
            self.label(label.trim())?;
            text = rest.trim();
        }
        if text.is_empty() {
            return Ok(());
        }
        let (first, rest) = match text.split_once(char::is_whitespace) {
            Some((first, rest)) => (first.to_ascii_lowercase(), rest.trim()),
            None => (text.to_ascii_lowercase(), ""),
        };
        match first.as_str() {
            "ram" => self.ram(rest),
            "line" => self.ram_line(written_at, rest),
            ".word" => self.data(rest, 4),
            ".byte" => self.data(rest, 1),
            ".align" => self.align(rest),
            _ if first.starts_with('.') => Err(format!("'{first}' is not understood")),
            _ if first.starts_with('$') => self.general(text),
            _ if is_capability_name(&first) => self.capability(&first, rest),
            _ => self.instruction(written_at, text),
        }
    }

    /// Refuses a second statement about the same thing.
    fn name_once(&mut self, name: String) -> Result<(), String> {
        if self.named.contains(&name) {
            return Err(format!("{name} is named twice"));
        }
        self.named.insert(name);
        Ok(())
    }

    fn label(&mut self, label: &str) -> Result<(), String> {
        if !asm::is_label(label) {
            return Err(format!("'{label}' is not a label"));
        }
        self.name_once(format!("label '{label}'"))?;
        self.labels.insert(label.to_string(), self.flash.len() as u64);
        Ok(())
    }

    fn ram(&mut self, text: &str) -> Result<(), String> {
        self.name_once("ram".to_string())?;
        let length = asm::number_64(text)?;
        if length > LONGEST || length % LINE != 0 {
            return Err(format!("{length} bytes of RAM is not a multiple of 32 up to {LONGEST}"));
        }
        self.ram_length = length;
        Ok(())
    }

    fn general(&mut self, text: &str) -> Result<(), String> {
        let (register, value) = text.split_once('=').ok_or("write $1 = value".to_string())?;
        let number = asm::general_register(register)?;
        if number == 0 {
            return Err("$0 is always 0".to_string());
        }
        self.name_once(format!("${number}"))?;
        self.machine.general[number as usize] = asm::number_64(value)?;
        Ok(())
    }

    fn capability(&mut self, name: &str, text: &str) -> Result<(), String> {
        self.name_once(name.to_string())?;
        let cap = capability_fields(text)?;
        if name == "pcc" {
            self.machine.pcc = cap;
            return Ok(());
        }
        let number = asm::capability_register(&format!("${name}"))?;
        self.machine.caps[number as usize] = cap;
        Ok(())
    }

    fn ram_line(&mut self, written_at: usize, text: &str) -> Result<(), String> {
        let (address, rest) = text.split_once(char::is_whitespace).unwrap_or((text, ""));
        let address = asm::number_64(address)?;
        self.name_once(format!("line {address}"))?;
        let (tag, bytes) = line_contents(rest.trim())?;
        refuse_past_the_end(&Cap::from_bytes(&bytes, tag))?;
        self.lines.push(Line { written_at, address, tag, bytes });
        Ok(())
    }

    fn data(&mut self, text: &str, size: usize) -> Result<(), String> {
        for piece in text.split(',') {
            let value = asm::number(piece)?;
            let limit = 1i128 << (8 * size);
            if value >= limit || value < -limit / 2 {
                return Err(format!("{value} does not fit in {size} bytes"));
            }
            let bytes = (value as u64).to_be_bytes();
            self.put_flash(&bytes[8 - size..])?;
        }
        Ok(())
    }

    fn align(&mut self, text: &str) -> Result<(), String> {
        let step = asm::number_64(text)?;
        if step == 0 || step > LONGEST {
            return Err(format!("cannot align to {step}"));
        }
        while self.flash.len() as u64 % step != 0 {
            self.put_flash(&[0])?;
        }
        Ok(())
    }

    fn instruction(&mut self, written_at: usize, text: &str) -> Result<(), String> {
        let place = self.flash.len() as u64;
        if place % 4 != 0 {
            return Err(format!("an instruction at {place}, not a multiple of 4 (see .align)"));
        }
        self.waiting.push(Waiting { written_at, place, text: text.to_string() });
        self.put_flash(&[0; 4])
    }

    fn put_flash(&mut self, bytes: &[u8]) -> Result<(), String> {
        if (self.flash.len() + bytes.len()) as u64 > LONGEST {
            return Err(format!("more than {LONGEST} bytes of flash"));
        }
        self.flash.extend_from_slice(bytes);
        Ok(())
    }

    fn fill_in_instructions(&mut self) -> Result<(), String> {
        for waiting in &self.waiting {
            let word = asm::assemble(&waiting.text, waiting.place, &self.labels)
                .map_err(|error| at(waiting.written_at, error))?;
            let place = waiting.place as usize;
            self.flash[place..place + 4].copy_from_slice(&word.to_be_bytes());
        }
        Ok(())
    }

    fn finish(mut self) -> Result<Made, String> {
        let mut ram = vec![0u8; self.ram_length as usize];
        let mut tags = vec![0u8; (self.ram_length / LINE) as usize];
        for line in &self.lines {
            let index = line_index(line.address, self.ram_length)
                .map_err(|error| at(line.written_at, error))?;
            ram[index * 32..index * 32 + 32].copy_from_slice(&line.bytes);
            tags[index] = u8::from(line.tag);
        }
        while self.flash.len() as u64 % LINE != 0 {
            self.flash.push(0);
        }
        // Version, 33 capabilities, 31 general registers, every line of RAM.
        let mut book = vec![0u8; 1 + 33 * 38 + 31 * 12 + tags.len() * 44];
        let length = crate::write_book(&self.machine, &ram, &tags, &mut book)
            .map_err(|refusal| format!("the book writer refuses with {refusal}"))?;
        book.truncate(length);
        Ok(Made { book, flash: self.flash })
    }
}

fn is_capability_name(word: &str) -> bool {
    let digits = word.strip_prefix('c').unwrap_or("");
    let numbered = !digits.is_empty() && digits.bytes().all(|byte| byte.is_ascii_digit());
    word == "pcc" || numbered
}

fn line_index(address: u64, ram_length: u64) -> Result<usize, String> {
    let inside = address >= RAM_BASE && address - RAM_BASE < ram_length;
    if !inside || (address - RAM_BASE) % LINE != 0 {
        return Err(format!("{address} is not the address of a line of {ram_length} bytes of RAM"));
    }
    Ok(((address - RAM_BASE) / LINE) as usize)
}

/// The tag and the bytes of a line: `[tag=1] bytes HEX` or `cap FIELD=VALUE ...`.
fn line_contents(text: &str) -> Result<(bool, [u8; 32]), String> {
    if let Some(fields) = text.strip_prefix("cap") {
        let cap = capability_fields(fields)?;
        return Ok((cap.tag, cap.to_bytes()));
    }
    let (before, digits) =
        text.split_once("bytes").ok_or("a line needs 'bytes' or 'cap'".to_string())?;
    let tag = match before.trim() {
        "" | "tag=0" => false,
        "tag=1" => true,
        other => return Err(format!("'{other}' is not tag=0 or tag=1")),
    };
    Ok((tag, line_bytes(digits)?))
}

fn line_bytes(text: &str) -> Result<[u8; 32], String> {
    let digits: Vec<char> =
        text.chars().filter(|letter| !letter.is_whitespace() && *letter != '_').collect();
    if digits.len() % 2 != 0 || digits.len() > 64 {
        return Err(format!("{} digits are not the pairs of up to 32 bytes", digits.len()));
    }
    let mut bytes = [0u8; 32];
    for (index, letter) in digits.iter().enumerate() {
        let digit = letter.to_digit(16).ok_or(format!("'{letter}' is not a hexadecimal digit"))?;
        bytes[index / 2] = bytes[index / 2] * 16 + digit as u8;
    }
    Ok(bytes)
}

/// The capability that `field=value` pieces name; tagged unless tag=0.
fn capability_fields(text: &str) -> Result<Cap, String> {
    let mut cap = Cap { tag: true, ..Cap::default() };
    for piece in text.split_whitespace() {
        let (field, value) =
            piece.split_once('=').ok_or(format!("'{piece}' is not field=value"))?;
        set_field(&mut cap, field, value)?;
    }
    refuse_past_the_end(&cap)?;
    Ok(cap)
}

fn set_field(cap: &mut Cap, field: &str, value: &str) -> Result<(), String> {
    match field.to_ascii_lowercase().as_str() {
        "tag" => cap.tag = small(field, value, 1)? == 1,
        "sealed" => cap.sealed = small(field, value, 1)? == 1,
        "otype" => cap.otype = small(field, value, (1 << 24) - 1)?,
        "spare" => cap.spare = small(field, value, 255)? as u8,
        "perms" => cap.perms = permissions(value)?,
        "base" => cap.base = asm::number_64(value)?,
        "length" => cap.length = asm::number_64(value)?,
        "offset" => cap.offset = asm::number_64(value)?,
        _ => return Err(format!("'{field}' is not a field of a capability")),
    }
    Ok(())
}

fn small(field: &str, value: &str, greatest: u32) -> Result<u32, String> {
    let number = asm::number(value)?;
    if number < 0 || number > i128::from(greatest) {
        return Err(format!("{field} {number} is not from 0 to {greatest}"));
    }
    Ok(number as u32)
}

fn permissions(text: &str) -> Result<u32, String> {
    let all = (1u32 << 31) - 1;
    let mut perms = 0;
    for piece in text.split('+') {
        let name = piece.to_ascii_lowercase();
        let bit = PERMISSIONS.iter().find(|(known, _)| *known == name);
        perms |= match bit {
            Some((_, bit)) => 1 << bit,
            None if name == "all" => all,
            None if piece.starts_with(|first: char| first.is_ascii_digit()) => {
                small("perms", piece, all)?
            }
            None => return Err(format!("'{piece}' is not a permission")),
        };
    }
    Ok(perms)
}

/// No book can hold a tagged capability that reaches past 2^64.
fn refuse_past_the_end(cap: &Cap) -> Result<(), String> {
    if cap.tag && u128::from(cap.base) + u128::from(cap.length) > 1 << 64 {
        return Err("a tagged capability with base + length above 2^64".to_string());
    }
    Ok(())
}
