//! The start book: its reader and its writer.

use crate::cap::{Cap, PERMS_MASK};
use crate::cause::*;
use crate::machine::Machine;
use crate::memory::{line_bytes, LINE, RAM_BASE};
use crate::refusal::{check_sizes, check_state, refuse_unless};

const VERSION: u8 = 1;
const KIND_CAP: u8 = 1;
const KIND_GENERAL: u8 = 2;
const KIND_LINE: u8 = 3;
/// The number of PCC in a record of kind 1.
const PCC_NUMBER: u8 = 32;

/// One record of a book.
enum Record {
    Cap { number: u8, cap: Cap },
    General { number: u8, value: u64 },
    Line { address: u64, tag: u8, bytes: [u8; 32] },
}

/// Reads a book; a refusal changes no byte.
pub fn read_book(
    book: &[u8],
    flash_length: usize,
    ram: &mut [u8],
    tags: &mut [u8],
) -> Result<Machine, u32> {
    // 20 comes before 30 (ruling C1).
    check_sizes(flash_length, ram.len(), tags.len())?;
    refuse_unless(book.first() == Some(&VERSION), REFUSE_VERSION)?;
    let records = read_records(book, ram.len())?;
    ram.fill(0);
    tags.fill(0);
    let mut machine = Machine::default();
    for record in records {
        set_record(record, &mut machine, ram, tags);
    }
    Ok(machine)
}

/// All records, or the refusal of the first faulty one.
fn read_records(book: &[u8], ram_length: usize) -> Result<Vec<Record>, u32> {
    let mut reader = Reader { book, position: 1 };
    let mut records = Vec::new();
    let mut last_key = (0, 0);
    while let Some(body) = reader.next_body()? {
        let record = read_record(body, ram_length)?;
        refuse_unless(!record.past_end(), REFUSE_RANGE)?;
        // The pair of kind and number or address must rise strictly (ruling C3).
        refuse_unless(record.key() > last_key, REFUSE_ORDER)?;
        last_key = record.key();
        records.push(record);
    }
    Ok(records)
}

/// Holds the book and its place in it.
struct Reader<'a> {
    book: &'a [u8],
    position: usize,
}

impl<'a> Reader<'a> {
    /// The body of the next record, none at the end; 31 if it is cut or empty.
    fn next_body(&mut self) -> Result<Option<&'a [u8]>, u32> {
        let rest = &self.book[self.position..];
        if rest.is_empty() {
            return Ok(None);
        }
        refuse_unless(rest.len() >= 2, REFUSE_CUT)?;
        let length = usize::from(rest[0]) << 8 | usize::from(rest[1]);
        refuse_unless(length > 0 && rest.len() >= 2 + length, REFUSE_CUT)?;
        self.position += 2 + length;
        Ok(Some(&rest[2..2 + length]))
    }
}

/// Unknown kind is 32 whatever its length, then 31, then 34 (ruling C1).
fn read_record(body: &[u8], ram_length: usize) -> Result<Record, u32> {
    let length = match body[0] {
        KIND_CAP => 36,
        KIND_GENERAL => 10,
        KIND_LINE => 42,
        _ => return Err(REFUSE_KIND),
    };
    refuse_unless(body.len() == length, REFUSE_CUT)?;
    match body[0] {
        KIND_CAP => read_cap(body),
        KIND_GENERAL => read_general(body),
        _ => read_line(body, ram_length),
    }
}

/// Spare and otype may be anything (ruling C2).
fn read_cap(body: &[u8]) -> Result<Record, u32> {
    let perms = number(&body[8..12]);
    let in_range = body[1] <= PCC_NUMBER && body[2] <= 1 && body[3] <= 1;
    refuse_unless(in_range && perms <= u64::from(PERMS_MASK), REFUSE_FIELD)?;
    let cap = Cap {
        tag: body[2] == 1,
        sealed: body[3] == 1,
        spare: body[4],
        otype: number(&body[5..8]) as u32,
        perms: perms as u32,
        base: number(&body[12..20]),
        length: number(&body[20..28]),
        offset: number(&body[28..36]),
    };
    Ok(Record::Cap { number: body[1], cap })
}

fn read_general(body: &[u8]) -> Result<Record, u32> {
    refuse_unless((1..=31).contains(&body[1]), REFUSE_FIELD)?;
    Ok(Record::General { number: body[1], value: number(&body[2..10]) })
}

fn read_line(body: &[u8], ram_length: usize) -> Result<Record, u32> {
    let (address, tag) = (number(&body[1..9]), body[9]);
    let in_ram = address >= RAM_BASE && address - RAM_BASE < ram_length as u64;
    refuse_unless(in_ram && address % LINE == 0 && tag <= 1, REFUSE_FIELD)?;
    Ok(Record::Line { address, tag, bytes: line_bytes(&body[10..42], 0) })
}

/// The big-endian number of up to eight bytes.
fn number(bytes: &[u8]) -> u64 {
    bytes.iter().fold(0, |sum, &byte| sum << 8 | u64::from(byte))
}

impl Record {
    /// 22 is for a tag of 1 alone (ruling C3).
    fn past_end(&self) -> bool {
        match self {
            Record::Cap { cap, .. } => cap.tagged_past_end(),
            Record::General { .. } => false,
            Record::Line { tag, bytes, .. } => Cap::from_bytes(bytes, *tag == 1).tagged_past_end(),
        }
    }

    fn key(&self) -> (u8, u64) {
        match self {
            Record::Cap { number, .. } => (KIND_CAP, u64::from(*number)),
            Record::General { number, .. } => (KIND_GENERAL, u64::from(*number)),
            Record::Line { address, .. } => (KIND_LINE, *address),
        }
    }
}

fn set_record(record: Record, machine: &mut Machine, ram: &mut [u8], tags: &mut [u8]) {
    match record {
        Record::Cap { number: PCC_NUMBER, cap } => machine.pcc = cap,
        Record::Cap { number, cap } => machine.set_cap(number, cap),
        Record::General { number, value } => machine.set_general(number, value),
        Record::Line { address, tag, bytes } => {
            let at = (address - RAM_BASE) as usize;
            ram[at..at + LINE as usize].copy_from_slice(&bytes);
            tags[at / LINE as usize] = tag;
        }
    }
}

/// Writes a book and answers its length; a refusal writes nothing.
pub fn write_book(
    machine: &Machine,
    ram: &[u8],
    tags: &[u8],
    out: &mut [u8],
) -> Result<usize, u32> {
    check_sizes(0, ram.len(), tags.len())?;
    check_state(machine, ram, tags)?;
    // 35 is for any pending jump, an all-zero one too (ruling C5).
    refuse_unless(machine.pending.is_none() && machine.cause == 0, REFUSE_STATE)?;
    let book = book_bytes(machine, ram, tags);
    // A book exactly as long as the buffer fits (ruling C5).
    refuse_unless(book.len() <= out.len(), REFUSE_SPACE)?;
    out[..book.len()].copy_from_slice(&book);
    Ok(book.len())
}

/// Names the registers with a non-zero field and the lines that are tagged or not all zero.
fn book_bytes(machine: &Machine, ram: &[u8], tags: &[u8]) -> Vec<u8> {
    let mut book = vec![VERSION];
    for (number, cap) in (0..).zip(machine.caps.iter().chain([&machine.pcc])) {
        if *cap != Cap::default() {
            add_record(&mut book, &cap_body(number, cap));
        }
    }
    for (number, &value) in (0..).zip(&machine.general) {
        if value != 0 {
            let body = [&[KIND_GENERAL, number], value.to_be_bytes().as_slice()].concat();
            add_record(&mut book, &body);
        }
    }
    for (line, &tag) in tags.iter().enumerate() {
        let bytes = line_bytes(ram, line);
        if tag != 0 || bytes != [0; 32] {
            let address = RAM_BASE + LINE * line as u64;
            let head = [[KIND_LINE].as_slice(), &address.to_be_bytes(), &[tag]].concat();
            add_record(&mut book, &[head.as_slice(), &bytes].concat());
        }
    }
    book
}

fn cap_body(number: u8, cap: &Cap) -> Vec<u8> {
    let mut body = vec![KIND_CAP, number, u8::from(cap.tag), u8::from(cap.sealed), cap.spare];
    body.extend_from_slice(&cap.otype.to_be_bytes()[1..]);
    body.extend_from_slice(&cap.perms.to_be_bytes());
    for field in [cap.base, cap.length, cap.offset] {
        body.extend_from_slice(&field.to_be_bytes());
    }
    body
}

fn add_record(book: &mut Vec<u8>, body: &[u8]) {
    book.extend_from_slice(&(body.len() as u16).to_be_bytes());
    book.extend_from_slice(body);
}
