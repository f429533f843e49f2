//! `second-make case.txt` writes `start.book` and `flash.bin` beside the text.

use std::path::Path;
use std::process::ExitCode;

fn main() -> ExitCode {
    let arguments: Vec<String> = std::env::args().skip(1).collect();
    let [case] = arguments.as_slice() else {
        eprintln!("usage: second-make case.txt");
        return ExitCode::from(2);
    };
    match make_files(Path::new(case)) {
        Ok(()) => ExitCode::SUCCESS,
        Err(error) => {
            eprintln!("{case}: {error}");
            ExitCode::FAILURE
        }
    }
}

fn make_files(case: &Path) -> Result<(), String> {
    let text = std::fs::read_to_string(case).map_err(|error| error.to_string())?;
    let made = second::make::make(&text)?;
    let folder = case.parent().unwrap_or(Path::new(""));
    write(&folder.join("start.book"), &made.book)?;
    write(&folder.join("flash.bin"), &made.flash)
}

fn write(path: &Path, bytes: &[u8]) -> Result<(), String> {
    std::fs::write(path, bytes).map_err(|error| format!("{}: {error}", path.display()))
}
