//! The refusals a run, the book reader and the book writer share.

use crate::cap::Cap;
use crate::cause::*;
use crate::machine::Machine;
use crate::memory::{line_bytes, LINE, MEMORY_MOST};

/// 20: flash and RAM are multiples of 32 up to 65,536, tags one byte a line (ruling B1).
pub fn check_sizes(flash: usize, ram: usize, tags: usize) -> Result<(), u32> {
    let right = memory_size(flash) && memory_size(ram) && tags == ram / LINE as usize;
    refuse_unless(right, REFUSE_SIZE)
}

/// 21, then 22, then 24, on sizes already found right.
pub fn check_state(machine: &Machine, ram: &[u8], tags: &[u8]) -> Result<(), u32> {
    refuse_unless(tags.iter().all(|&tag| tag <= 1), REFUSE_TAG_BYTE)?;
    // 22 looks at tagged capabilities alone (ruling B3).
    let registers_past_end = machine.all_caps().any(Cap::tagged_past_end);
    let past_end = registers_past_end || line_past_end(ram, tags);
    refuse_unless(!past_end, REFUSE_RANGE)?;
    // 24 looks at every register, tagged or not (ruling B3).
    let past_width = machine.all_caps().any(Cap::field_past_width);
    refuse_unless(!past_width && machine.general[0] == 0, REFUSE_MACHINE_FIELD)
}

fn memory_size(size: usize) -> bool {
    size <= MEMORY_MOST && size % LINE as usize == 0
}

fn line_past_end(ram: &[u8], tags: &[u8]) -> bool {
    let tagged = (0..tags.len()).filter(|&line| tags[line] == 1);
    let mut caps = tagged.map(|line| Cap::from_bytes(&line_bytes(ram, line), true));
    caps.any(|cap| cap.tagged_past_end())
}

/// Answers the refusal number unless the condition holds.
pub fn refuse_unless(holds: bool, number: u32) -> Result<(), u32> {
    if holds {
        return Ok(());
    }
    Err(number)
}
