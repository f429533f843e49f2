//! A run made step by step, and what its steps can answer.

use super::table::{ACCESS_CAUSES, ROWS};
use second::asm::encode::format_of;
use second::generate::RunCase;
use second::{run, step, Machine, Outcome, RAM_BASE};
use std::collections::BTreeSet;

/// One step as it was made: the word and the machine before it, what it gave.
pub struct Step<'a> {
    pub name: &'static str,
    pub word: u32,
    pub before: &'a Machine,
    pub outcome: &'a Outcome,
    /// The word lies in RAM and was changed since the run began.
    pub changed: bool,
}

/// The word a machine would fetch, if nothing stops the fetch.
fn fetched(machine: &Machine, flash: &[u8], ram: &[u8]) -> Option<(u64, u32)> {
    let pcc = &machine.pcc;
    let in_range = u128::from(pcc.offset) + 4 <= u128::from(pcc.length);
    if !pcc.tag || pcc.sealed || pcc.perms & 2 == 0 || !in_range {
        return None;
    }
    let address = pcc.base.checked_add(pcc.offset)?;
    let word = read_word(address, flash, ram)?;
    (address % 4 == 0).then_some((address, word))
}

fn read_word(address: u64, flash: &[u8], ram: &[u8]) -> Option<u32> {
    let (memory, start) =
        if address >= RAM_BASE { (ram, address - RAM_BASE) } else { (flash, address) };
    let start = usize::try_from(start).ok()?;
    let bytes = memory.get(start..start.checked_add(4)?)?;
    Some(u32::from_be_bytes(bytes.try_into().ok()?))
}

/// Makes a run step by step, shows each step, and checks it against the whole.
pub fn each_step(case: &RunCase, mut see: impl FnMut(&Step)) {
    let (mut ram, mut tags) = (case.ram.clone(), case.tags.clone());
    let mut machine = case.machine.clone();
    let mut made = 0;
    let mut last = Outcome::default();
    while made < case.budget {
        let word = fetched(&machine, &case.flash, &ram);
        let old = word.and_then(|(address, _)| read_word(address, &case.flash, &case.ram));
        let name = match word {
            None => "fetch",
            Some((_, word)) => format_of(word).map_or("reserved", |format| format.name),
        };
        last = step(&machine, &case.flash, &mut ram, &mut tags);
        let word = word.map_or(0, |(_, word)| word);
        let changed = old.is_some_and(|old| old != word);
        see(&Step { name, word, before: &machine, outcome: &last, changed });
        machine = last.machine.clone();
        if last.stop != 0 {
            break;
        }
        made += 1;
    }
    let (mut whole_ram, mut whole_tags) = (case.ram.clone(), case.tags.clone());
    let whole = run(&case.machine, &case.flash, &mut whole_ram, &mut whole_tags, case.budget);
    let stepped = Outcome { steps: made, machine, ..last };
    assert_eq!((whole, whole_ram, whole_tags), (stepped, ram, tags));
}

/// What each instruction can answer: its name, the stop and the cause.
pub fn expected() -> BTreeSet<(&'static str, u32, u32)> {
    let mut all = BTreeSet::new();
    for row in ROWS {
        for name in row.names {
            all.extend(row.stops.iter().map(|stop| (*name, *stop, 0)));
            all.extend(row.causes.iter().map(|cause| (*name, 1, *cause)));
            let access = ACCESS_CAUSES.iter().filter(|_| row.access);
            all.extend(access.map(|cause| (*name, 1, *cause)));
        }
    }
    all
}
