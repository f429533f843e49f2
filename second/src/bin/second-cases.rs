//! `second-cases SEED COUNT OUT` writes COUNT random cases to the file OUT and
//! this program's answers to OUT.expected, one line a case in the same order.
//! `second-cases SEED COUNT OUT runs` writes runs alone, with `books` in place of
//! `runs` books alone, to read and to write, and with `bench` books and flashes for
//! the bench. The same seed gives the same files on every machine. The case file is described in generate/format.rs, a line of
//! answers in generate/answers.rs.

use second::generate::{answer_line, bench_cases, book_cases, cases, encode, run_cases};
use std::process::ExitCode;

fn main() -> ExitCode {
    let arguments: Vec<String> = std::env::args().skip(1).collect();
    match write_files(&arguments) {
        Ok(()) => ExitCode::SUCCESS,
        Err(error) => {
            eprintln!("second-cases: {error}");
            ExitCode::FAILURE
        }
    }
}

fn write_files(arguments: &[String]) -> Result<(), String> {
    let (seed, count, out, alone) = match arguments {
        [seed, count, out] => (seed, count, out, ""),
        [seed, count, out, alone] if ["runs", "books", "bench"].contains(&alone.as_str()) => {
            (seed, count, out, alone.as_str())
        }
        _ => return Err("usage: second-cases SEED COUNT OUT [runs | books | bench]".to_string()),
    };
    let seed: u64 = seed.parse().map_err(|_| format!("'{seed}' is not a seed"))?;
    let count: usize = count.parse().map_err(|_| format!("'{count}' is not a count"))?;
    let cases = match alone {
        "runs" => run_cases(seed, count),
        "books" => book_cases(seed, count),
        "bench" => bench_cases(seed, count),
        _ => cases(seed, count),
    };
    let mut lines = String::new();
    for case in &cases {
        lines.push_str(&answer_line(case));
        lines.push('\n');
    }
    write(out, &encode(&cases))?;
    write(&format!("{out}.expected"), lines.as_bytes())
}

fn write(path: &str, bytes: &[u8]) -> Result<(), String> {
    std::fs::write(path, bytes).map_err(|error| format!("{path}: {error}"))
}
