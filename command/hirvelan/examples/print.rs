//! Prints a file at an indent of 2, or says why it is refused: `print FILE`.

use std::io::Write;
use std::process::ExitCode;

fn main() -> ExitCode {
    let Some(file) = std::env::args_os().nth(1) else {
        eprintln!("usage: print FILE");
        return ExitCode::from(2);
    };
    let text = match std::fs::read(&file) {
        Ok(text) => text,
        Err(error) => {
            eprintln!("{}: {error}", file.to_string_lossy());
            return ExitCode::from(2);
        }
    };
    match hirvelan::print(&text, 2) {
        Ok(printed) => match std::io::stdout().write_all(&printed) {
            Ok(()) => ExitCode::SUCCESS,
            Err(_) => ExitCode::from(2),
        },
        Err(refusal) => {
            let place = hirvelan::place(&text, refusal.place);
            eprintln!("refused {} at {}:{}", refusal.number, place.line, place.column);
            ExitCode::FAILURE
        }
    }
}
