//! The folders of `examples/`: each is what its case text makes, and its line is this program's.

use second::bench::line_text;
use second::make::{make, Made};
use second::{bench_line, read_book, run, Outcome};
use std::path::{Path, PathBuf};

/// The examples that the course names; a folder beside them is held to the same.
const NAMED: &[&str] = &[
    "nothing_granted",
    "first",
    "length_by_one_byte",
    "own_offset",
    "sum_past_64_bits",
    "trapped_store",
    "tag_of_the_line_hit",
    "spare_bits_copied",
    "jump_and_its_slot",
    "fetching_reads_too",
    "execute_is_no_load",
    "bus_code",
    "bus_code_without_its_entry",
];

fn examples() -> PathBuf {
    Path::new(env!("CARGO_MANIFEST_DIR")).join("../examples")
}

fn folders() -> Vec<PathBuf> {
    let entries = std::fs::read_dir(examples()).expect("there are examples");
    let mut folders: Vec<PathBuf> = entries.map(|entry| entry.expect("an entry").path()).collect();
    // The C program is no start for the bench.
    folders.retain(|folder| !folder.ends_with("c"));
    folders.sort();
    folders
}

fn bytes(folder: &Path, name: &str) -> Vec<u8> {
    let path = folder.join(name);
    std::fs::read(&path).unwrap_or_else(|error| panic!("{}: {error}", path.display()))
}

fn text(folder: &Path, name: &str) -> String {
    String::from_utf8(bytes(folder, name)).expect("plain text")
}

fn made(folder: &Path) -> Made {
    make(&text(folder, "case.txt")).unwrap_or_else(|error| panic!("{}: {error}", folder.display()))
}

/// RAM and tags as a book sets them and as the bench leaves them, and how the run ended.
struct Memories {
    before: (Vec<u8>, Vec<u8>),
    after: (Vec<u8>, Vec<u8>),
    outcome: Outcome,
}

fn memories(name: &str) -> Memories {
    let made = made(&examples().join(name));
    let mut before = (vec![0; 32_768], vec![0; 1_024]);
    let machine = read_book(&made.book, made.flash.len(), &mut before.0, &mut before.1)
        .expect("the book is accepted");
    let mut after = before.clone();
    let outcome = run(&machine, &made.flash, &mut after.0, &mut after.1, 1_000);
    Memories { before, after, outcome }
}

#[test]
fn the_named_examples_are_there() {
    let names: Vec<String> = folders()
        .iter()
        .map(|folder| folder.file_name().expect("a name").to_string_lossy().into_owned())
        .collect();
    for name in NAMED {
        assert!(names.iter().any(|found| found == name), "{name} is missing");
    }
}

#[test]
fn book_and_flash_are_what_the_text_makes() {
    for folder in folders() {
        let made = made(&folder);
        let again = format!("run second-make on {}/case.txt", folder.display());
        assert!(bytes(&folder, "start.book") == made.book, "start.book differs: {again}");
        assert!(bytes(&folder, "flash.bin") == made.flash, "flash.bin differs: {again}");
    }
}

#[test]
fn the_line_is_this_programs() {
    for folder in folders() {
        let line = bench_line(&bytes(&folder, "start.book"), &bytes(&folder, "flash.bin"));
        assert_eq!(text(&folder, "line.txt"), line_text(&line) + "\n", "{}", folder.display());
    }
}

#[test]
fn each_readme_has_three_sentences_a_line_each() {
    for folder in folders() {
        let readme = text(&folder, "README.md");
        let lines: Vec<&str> = readme.lines().collect();
        assert_eq!(lines.len(), 3, "{}", folder.display());
        let one = |line: &&str| line.ends_with('.') && !line.contains(". ");
        assert!(lines.iter().all(one), "{}", folder.display());
    }
}

#[test]
fn trapped_store_leaves_every_byte() {
    let seen = memories("trapped_store");
    assert_eq!((seen.outcome.stop, seen.outcome.steps), (1, 2));
    assert_eq!(seen.before.1[1], 1, "the line that the store would hit is tagged");
    // The store before it writes what is there already, into the line without a tag.
    assert!(seen.before == seen.after);
}

#[test]
fn a_bad_frame_touches_the_spools_and_nothing_else() {
    let seen = memories("bus_code");
    let (spools, limits) = (0x20, 0x30);
    assert_eq!(seen.after.0[spools + 12..spools + 16], [0xA1, 0xA2, 0xA3, 0xA4]);
    assert_eq!(seen.after.0[limits..limits + 16], [0x77; 16]);
    let changed = |at: &usize| seen.before.0[*at] != seen.after.0[*at];
    let touched: Vec<usize> = (0..seen.before.0.len()).filter(changed).collect();
    assert_eq!(touched, (spools + 12..spools + 16).collect::<Vec<usize>>());
    assert!(seen.before.1 == seen.after.1);
}

#[test]
fn bus_code_without_its_entry_touches_nothing() {
    let (with, without) = ("bus_code", "bus_code_without_its_entry");
    assert!(made(&examples().join(with)).flash == made(&examples().join(without)).flash);
    let seen = memories(without);
    assert!(seen.before == memories(with).before, "the frame and the table are the same");
    assert!(seen.before == seen.after);
    assert_eq!((seen.outcome.stop, seen.outcome.cause, seen.outcome.steps), (1, 2, 0));
}

#[test]
fn the_two_ways_to_a_line_have_one_start() {
    let book = |name: &str| made(&examples().join(name)).book;
    assert!(book("fetching_reads_too") == book("execute_is_no_load"));
}

/// The course with its line breaks taken out.
fn course() -> String {
    let course = text(&examples().join("../docs"), "TEACHING.md");
    course.split_whitespace().collect::<Vec<&str>>().join(" ")
}

#[test]
fn the_course_tells_each_line_as_it_is() {
    let course = course();
    let mut told = 0;
    for part in course.split("`./bench examples/").skip(1) {
        let (name, rest) = part.split_once("` prints `").expect("a folder and its line");
        let (line, _) = rest.split_once('`').expect("a whole line");
        assert_eq!(text(&examples().join(name), "line.txt").trim_end(), line, "{name}");
        told += 1;
    }
    // All but the first program, whose run the course shows whole.
    assert_eq!(told, NAMED.len() - 1);
    let first = text(&examples().join("first"), "line.txt");
    assert!(course.contains("./bench runs `examples/first`"));
    assert!(course.contains(first.trim_end()));
}

#[test]
fn every_file_that_the_course_names_is_there() {
    let root = examples().join("..");
    let course = course();
    let named: Vec<&str> =
        course.split('`').skip(1).step_by(2).filter(|name| name.starts_with("crates/")).collect();
    assert!(named.len() > 20);
    for name in named {
        assert!(root.join(name).exists(), "{name}");
    }
}
