//! `console` makes every call of both ends by hand: one command a line on standard input, one line
//! of answer on standard output. CONSOLE.md says what a line means and what is written.
//!
//! Written from document 01, document 02's K1 to K5, the maker's page, docs/SENDER.md and
//! docs/CONSOLE.md alone. It uses no code of the rest of the model, and is not to: what it agrees
//! on with another implementation is then what the papers say.

pub mod bench;
pub mod commands;
pub mod controller;
pub mod crc;
mod fields;
pub mod frame;
mod input;
pub mod lines;
pub mod offer;
mod outcome;
mod portion;
pub mod reader;
pub mod record;
mod sender;
mod session;
mod table;
pub mod tell;

use std::fs::File;
use std::io::{self, BufRead, BufReader, Write};
use std::os::fd::AsFd;

use bench::Bench;
use input::Lines;

/// The program. A failed read or write ends it: "Both are told on standard error. The exit status
/// is 0 all the same".
pub fn console() {
    if let Err(message) = run_on_standard_streams() {
        // Nothing is left to do where even this cannot be told.
        let _ = writeln!(io::stderr(), "console: {message}");
    }
}

/// The streams are used as plain files, since the standard library's own handles pass some failures
/// over.
fn run_on_standard_streams() -> Result<(), String> {
    let reading = |error: io::Error| format!("reading failed: {error}");
    let writing = |error: io::Error| format!("writing failed: {error}");
    let input = File::from(io::stdin().as_fd().try_clone_to_owned().map_err(reading)?);
    let mut output = File::from(io::stdout().as_fd().try_clone_to_owned().map_err(writing)?);
    run(BufReader::with_capacity(1 << 16, input), |answer| {
        output.write_all(answer.as_bytes()).map_err(writing)
    })
}

/// What the program writes for a session in memory.
pub fn console_bytes(session: &[u8]) -> Vec<u8> {
    let mut written = Vec::new();
    let ended = run(session, |answer| {
        written.extend_from_slice(answer.as_bytes());
        Ok(())
    });
    ended.expect("reading and writing memory succeeds");
    written
}

/// Answers every line. "What is answered is written before more input is read."
fn run(
    input: impl BufRead,
    mut write: impl FnMut(&str) -> Result<(), String>,
) -> Result<(), String> {
    let mut bench = Bench::new();
    let mut lines = Lines::new(input);
    let mut number = 0_u64;
    while let Some(line) = lines.next().map_err(|error| format!("reading failed: {error}"))? {
        number += 1;
        if let Some(answer) = answer(&mut bench, number, line) {
            write(&answer)?;
        }
    }
    Ok(())
}

/// The answer to the line with this number, given without its newline; none if it is passed over.
pub fn answer(bench: &mut Bench, number: u64, line: &[u8]) -> Option<String> {
    if lines::is_passed_over(line) {
        return None;
    }
    let answer = match lines::parse(line) {
        Ok((command, given)) => (command.obey)(bench, &given),
        Err(bad) => format!("bad {bad}"),
    };
    Some(format!("{number} {answer}\n"))
}
