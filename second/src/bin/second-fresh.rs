//! `second-fresh SEED COUNT OUT` makes COUNT random cases for the bench: all of them in the file
//! OUT/cases, with this program's lines in OUT/cases.expected, as `second-cases SEED COUNT OUT/cases
//! bench` does; and each of the last forty as a folder named by its number, with `start.book`,
//! `flash.bin` and `line.txt`. The same seed gives the same files on every machine.

use second::bench::line_text;
use second::generate::{answer_line, bench_cases, encode, BenchCase, Case};
use std::path::Path;
use std::process::ExitCode;

const FOLDERS: usize = 40;

fn main() -> ExitCode {
    let arguments: Vec<String> = std::env::args().skip(1).collect();
    match write_all(&arguments) {
        Ok(()) => ExitCode::SUCCESS,
        Err(error) => {
            eprintln!("second-fresh: {error}");
            ExitCode::FAILURE
        }
    }
}

fn write_all(arguments: &[String]) -> Result<(), String> {
    let [seed, count, out] = arguments else {
        return Err("usage: second-fresh SEED COUNT OUT".to_string());
    };
    let seed: u64 = seed.parse().map_err(|_| format!("'{seed}' is not a seed"))?;
    let count: usize = count.parse().map_err(|_| format!("'{count}' is not a count"))?;
    let cases = bench_cases(seed, count);
    write_files(Path::new(out), &cases).map_err(|error| format!("{out}: {error}"))
}

fn write_files(out: &Path, cases: &[Case]) -> std::io::Result<()> {
    std::fs::create_dir_all(out)?;
    let lines: String = cases.iter().map(|case| answer_line(case) + "\n").collect();
    std::fs::write(out.join("cases"), encode(cases))?;
    std::fs::write(out.join("cases.expected"), lines)?;
    for (index, case) in cases.iter().enumerate().skip(cases.len().saturating_sub(FOLDERS)) {
        if let Case::Bench(case) = case {
            write_folder(&out.join((index + 1).to_string()), case)?;
        }
    }
    Ok(())
}

fn write_folder(folder: &Path, case: &BenchCase) -> std::io::Result<()> {
    let line = second::bench_line(&case.book, &case.flash);
    std::fs::create_dir_all(folder)?;
    std::fs::write(folder.join("start.book"), &case.book)?;
    std::fs::write(folder.join("flash.bin"), &case.flash)?;
    std::fs::write(folder.join("line.txt"), line_text(&line) + "\n")
}
