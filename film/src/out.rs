//! What is printed: all of it through here, so that a closed pipe ends the program without a word.
use crate::args::Args;
use crate::failure::Failure;
use crate::files;
use std::io::{ErrorKind, IsTerminal, Write};
use std::path::Path;

/// Writes to standard output. A reader that has gone knows; everybody else is told.
pub fn bytes(data: &[u8]) -> Result<(), Failure> {
    let mut out = std::io::stdout().lock();
    out.write_all(data).and_then(|()| out.flush()).map_err(|e| match e.kind() {
        ErrorKind::BrokenPipe => Failure::silent(1),
        _ => Failure::bad(format!("standard output: {}", files::said(&e))),
    })
}

pub fn text(words: &str) -> Result<(), Failure> {
    bytes(words.as_bytes())
}

/// A file of records: not for the eye, so not for a terminal.
pub fn records(data: &[u8], instead: &str) -> Result<(), Failure> {
    match std::io::stdout().is_terminal() {
        true => Err(Failure::usage(format!("that is a file of records and not for a terminal: {instead}"))),
        false => bytes(data),
    }
}

/// A file that is written whole, or told why not.
pub fn file(path: &Path, data: &[u8]) -> Result<(), Failure> {
    std::fs::write(path, data).map_err(|e| Failure::bad(format!("{} cannot be written: {}", files::called(path), files::said(&e))))
}

/// A result to the file that --out names, or to standard output. `instead` is what to do where
/// records would go to a terminal; it is empty for text.
pub fn result(args: &Args, data: &[u8], instead: &str) -> Result<(), Failure> {
    match args.value("out") {
        Some(path) if args.words().iter().any(|word| word == path) => {
            Err(Failure::usage(format!("{} would be written over; name another file", files::called(Path::new(path)))))
        }
        Some(path) => file(Path::new(path), data),
        None if instead.is_empty() => bytes(data),
        None => records(data, instead),
    }
}

/// A line for the person beside the result; whether anybody reads it is all the same.
pub fn note(line: &str) {
    let _ = writeln!(std::io::stderr(), "film: {line}");
}

/// A line that the next one replaces, where standard error is a terminal; else a line of its own.
pub fn progress(line: &str) {
    let mut err = std::io::stderr();
    let _ = match err.is_terminal() {
        true => write!(err, "\r\x1b[K{line}").and_then(|()| err.flush()),
        false => writeln!(err, "{line}"),
    };
}

/// Ends a progress line.
pub fn progress_end() {
    let mut err = std::io::stderr();
    if err.is_terminal() {
        let _ = writeln!(err);
    }
}
