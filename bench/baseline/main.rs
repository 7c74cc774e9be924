//! The plain baseline of the benchmark: Stitch's file commands, written without proofs.

mod acts;
mod commands;
mod design;
mod dst;
mod edits;
mod exp;
mod formats;
mod lst;
mod pec;
mod pes;
mod reading;
mod refit;
mod words;
mod writing;

use std::env;
use std::io::{self, Write};
use std::process::ExitCode;

/// Why a command ends without a report.
pub enum Failure {
    Usage,
    Refused(String),
    Fault(String),
}

const USAGE: &str = "\
usage: stitch route DRAWING OUT CERT
       stitch check DRAWING FILE CERT
       stitch convert IN OUT [--split] [--cut]
       stitch show FILE
       stitch edit IN OUT EDIT...
       stitch hoop FILE WIDTH HEIGHT
       stitch sample N DRAWING
";

fn answer() -> Result<String, Failure> {
    let words: Option<Vec<String>> =
        env::args_os().skip(1).map(|word| word.into_string().ok()).collect();
    let request = words.as_deref().and_then(words::request).ok_or(Failure::Usage)?;
    commands::run(request)
}

fn complain(status: u8, text: &str) -> ExitCode {
    match io::stderr().write_all(text.as_bytes()) {
        Ok(()) => ExitCode::from(status),
        Err(_) => ExitCode::from(3),
    }
}

fn main() -> ExitCode {
    match answer() {
        Ok(report) => match io::stdout().write_all(report.as_bytes()) {
            Ok(()) => ExitCode::SUCCESS,
            Err(_) => complain(3, "stitch: cannot print\n"),
        },
        Err(Failure::Usage) => complain(2, USAGE),
        Err(Failure::Refused(text)) => complain(1, &format!("stitch: {text}\n")),
        Err(Failure::Fault(text)) => complain(3, &format!("stitch: {text}\n")),
    }
}
