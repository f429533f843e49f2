//! `second-words OUT` writes the table of words to the file OUT, each as 4 bytes with the most
//! significant first, and prints the line of each, in the same order. The table is described in
//! words/table.rs, a line in words.rs.

use std::process::ExitCode;

fn main() -> ExitCode {
    let arguments: Vec<String> = std::env::args().skip(1).collect();
    let [out] = arguments.as_slice() else {
        eprintln!("usage: second-words OUT");
        return ExitCode::from(2);
    };
    let bytes = second::words::table_bytes();
    if let Err(error) = std::fs::write(out, bytes) {
        eprintln!("{out}: {error}");
        return ExitCode::FAILURE;
    }
    print!("{}", second::words::table_lines());
    ExitCode::SUCCESS
}
