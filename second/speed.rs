//! Times a run through the C functions of the crate `pommerzil` beside `second::run`: the same programs, one after the other.

use hosted::{linked_read, linked_run, Lent, REGISTERS_BYTES};
use second::{run, write_book, Cap, Machine};
use std::hint::black_box;
use std::time::Instant;

const BUDGET: u32 = 50_000_000;
const TRIES: usize = 3;

/// The book of the machine that starts, a flash with a program in it, and a RAM and its tags, all zero.
struct Start {
    book: Vec<u8>,
    flash: Vec<u8>,
    lent: Lent,
}

impl Start {
    fn new(program: &[u32], ram: usize) -> Start {
        let mut flash: Vec<u8> = program.iter().flat_map(|word| word.to_be_bytes()).collect();
        flash.resize(flash.len().next_multiple_of(32), 0);
        let mut book = vec![0; REGISTERS_BYTES];
        let bytes =
            write_book(&starting(), &[], &[], &mut book).expect("a machine that a book can say");
        book.truncate(bytes);
        Start { book, flash, lent: Lent { ram: vec![0; ram], tags: vec![0; ram / 32] } }
    }

    /// The steps that were made.
    fn run_proved(&mut self, budget: u32) -> u64 {
        let mut answer = [0; 5];
        let stop = linked_run(&self.book, &self.flash, &mut self.lent, budget, &mut answer);
        assert_eq!(stop, 0, "the whole budget is spent");
        answer[4]
    }

    fn read_proved(&mut self) {
        let mut registers = [0; REGISTERS_BYTES];
        let number = linked_read(&self.book, self.flash.len(), &mut self.lent, &mut registers);
        assert_eq!(number, 0, "the book is accepted");
        black_box(registers);
    }

    fn run_second(&mut self, machine: &Machine, budget: u32) -> u64 {
        let (ram, tags) = (&mut self.lent.ram, &mut self.lent.tags);
        ram.fill(0);
        tags.fill(0);
        u64::from(run(machine, &self.flash, ram, tags, budget).steps)
    }
}

/// The machine that starts: every register holds a capability for all of memory.
fn starting() -> Machine {
    let whole = Cap { tag: true, perms: 0x7fff_ffff, length: u64::MAX, ..Cap::default() };
    let mut machine = Machine { pcc: whole.clone(), ..Machine::default() };
    machine.caps.fill(whole);
    machine
}

fn immediate(major: u32, rs: u32, rt: u32, value: i16) -> u32 {
    major << 26 | rs << 21 | rt << 16 | u32::from(value as u16)
}

fn capability(number: u32, first: u32, second: u32, third: u32) -> u32 {
    18 << 26 | number << 21 | first << 16 | second << 11 | third << 6
}

fn transfer(major: u32, register: u32, cb: u32, rt: u32, size: u32) -> u32 {
    major << 26 | register << 21 | cb << 16 | rt << 11 | size
}

/// LUI $9 to RAM's base, then a loop: count in $8, store it, load it back, branch, and a slot.
fn plain_loop() -> Vec<u32> {
    vec![
        immediate(15, 0, 9, 0x10),
        immediate(25, 8, 8, 1),
        immediate(63, 9, 8, 0),
        immediate(55, 9, 10, 0),
        immediate(5, 8, 0, -4),
        0,
    ]
}

/// The same through C2, with CIncOffset and CGetOffset of C3 between.
fn capability_loop() -> Vec<u32> {
    vec![
        immediate(15, 0, 9, 0x10),
        immediate(25, 8, 8, 1),
        capability(15, 3, 3, 8),
        transfer(58, 8, 2, 9, 3),
        transfer(50, 10, 2, 9, 3),
        capability(2, 12, 3, 0),
        immediate(5, 8, 0, -6),
        0,
    ]
}

/// Capabilities derived, stored and loaded: CSetLen and CAndPerm of C3, CSC of C3 and CLC of it through C2.
fn deriving_loop() -> Vec<u32> {
    vec![
        immediate(15, 0, 9, 0x10),
        immediate(25, 8, 8, 1),
        capability(13, 4, 3, 8),
        capability(10, 5, 3, 8),
        transfer(62, 3, 2, 9, 0),
        transfer(54, 6, 2, 9, 0),
        immediate(5, 8, 0, -6),
        0,
    ]
}

/// The best of some tries, in seconds.
fn best(mut once: impl FnMut()) -> f64 {
    let times = (0..TRIES).map(|_| {
        let start = Instant::now();
        once();
        start.elapsed().as_secs_f64()
    });
    times.fold(f64::INFINITY, f64::min)
}

fn compare(name: &str, program: &[u32]) {
    let machine = starting();
    let (mut one, mut other) = (Start::new(program, 65536), Start::new(program, 65536));
    let proved = best(|| assert_eq!(one.run_proved(BUDGET), u64::from(BUDGET)));
    let second = best(|| assert_eq!(other.run_second(&machine, BUDGET), u64::from(BUDGET)));
    assert!(one.lent == other.lent, "{name}: the memories differ");
    let rate = |seconds: f64| f64::from(BUDGET) / seconds / 1e6;
    println!(
        "{name}: pommerzil_run {:.1}, second::run {:.1} million steps a second",
        rate(proved),
        rate(second)
    );
}

/// What a call costs that makes no step: the book read, and the start judged; and what reading the book and handing it out costs.
fn before_the_first_step(ram: usize) {
    let calls = 100_000;
    let mut start = Start::new(&plain_loop(), ram);
    let mut each = |once: &mut dyn FnMut(&mut Start)| {
        let seconds = best(|| (0..calls).for_each(|_| once(&mut start)));
        seconds / f64::from(calls) * 1e6
    };
    let run = each(&mut |start| assert_eq!(start.run_proved(0), 0));
    let read = each(&mut |start| start.read_proved());
    println!("before the first step, R = {ram}: {run:.2} microseconds; a book read and handed out: {read:.2}");
}

fn main() {
    compare("plain loop", &plain_loop());
    compare("capability loop", &capability_loop());
    compare("deriving loop", &deriving_loop());
    for ram in [0, 32768, 65536] {
        before_the_first_step(ram);
    }
}
