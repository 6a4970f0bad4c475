//! Prints the judge's line for a log from a file or from standard input.
//!
//! `rust-judge [FILE]`

use claysaucer_bench::{judge, line};
use std::io::{self, Read};
use std::process::ExitCode;

fn read(file: Option<String>) -> io::Result<Vec<u8>> {
    match file {
        Some(file) => std::fs::read(file),
        None => {
            let mut log = Vec::new();
            io::stdin().lock().read_to_end(&mut log)?;
            Ok(log)
        }
    }
}

fn main() -> ExitCode {
    match read(std::env::args().nth(1)) {
        Ok(log) => {
            print!("{}", line(judge(&log)));
            ExitCode::SUCCESS
        }
        Err(error) => {
            eprintln!("rust-judge: {error}");
            ExitCode::FAILURE
        }
    }
}
