//! Reads a book and prints its report, or judges a list of payments for it.

use std::env;
use std::ffi::OsString;
use std::fs;
use std::io::{self, Read, Write};
use std::process::ExitCode;

use reference::audit::audit;
use reference::report::report;

const USAGE: &str = "usage: reference [FILE] | reference --audit PAYMENTS [FILE]";

/// Runs the command and prints its text, or says on standard error what is wrong.
fn main() -> ExitCode {
    let arguments: Vec<OsString> = env::args_os().skip(1).collect();
    match run(&arguments).and_then(|text| io::stdout().write_all(text.as_bytes())) {
        Ok(()) => ExitCode::SUCCESS,
        Err(error) => {
            eprintln!("reference: {error}");
            ExitCode::from(2)
        }
    }
}

/// Finds the text for a command line.
fn run(arguments: &[OsString]) -> io::Result<String> {
    match arguments {
        [audits, payments] if audits == "--audit" => verdict(payments, None),
        [audits, payments, file] if audits == "--audit" => verdict(payments, Some(file)),
        [] => Ok(report(&book_bytes(None)?)),
        [file] if !file.to_string_lossy().starts_with("--") => Ok(report(&book_bytes(Some(file))?)),
        _ => Err(io::Error::new(io::ErrorKind::InvalidInput, USAGE)),
    }
}

/// Finds the line for a list of payments.
fn verdict(payments: &OsString, file: Option<&OsString>) -> io::Result<String> {
    let book = book_bytes(file)?;
    let list = fs::read(payments)?;
    Ok(format!("{}\n", audit(&book, &list)))
}

/// Reads the book from its file, or from standard input where none is named.
fn book_bytes(file: Option<&OsString>) -> io::Result<Vec<u8>> {
    match file {
        Some(file) => fs::read(file),
        None => {
            let mut bytes = Vec::new();
            io::stdin().read_to_end(&mut bytes)?;
            Ok(bytes)
        }
    }
}
