//! Prints the reference's verdict on a file, with room for whatever it holds.

use reference::report::report;
use reference::segment::{Rooms, check};
use std::process::ExitCode;

fn main() -> ExitCode {
    let mut arguments = std::env::args_os().skip(1);
    let file = match (arguments.next(), arguments.next()) {
        (Some(file), None) => file,
        _ => {
            eprintln!("usage: segment FILE");
            return ExitCode::FAILURE;
        }
    };
    let bytes = match std::fs::read(&file) {
        Ok(bytes) => bytes,
        Err(error) => {
            eprintln!("{}: {error}", file.to_string_lossy());
            return ExitCode::FAILURE;
        }
    };
    let rooms = Rooms {
        bytes: usize::MAX,
        lengths: usize::MAX,
        times: usize::MAX,
    };
    let verdict = check(&bytes, rooms);
    print!("{}", report(&verdict));
    if verdict.is_ok() {
        ExitCode::SUCCESS
    } else {
        ExitCode::FAILURE
    }
}
