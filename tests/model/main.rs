//! The model: an independent receiver and sender written from document 01 and
//! 02's K1 to K3 and K5, their programs, and what to compare other ones with. The
//! program `console` has a receiver and a sender of its own.
//!
//! Build: `rustc -O --edition 2021 main.rs -o model`. See `USAGE` for the modes.

mod check;
mod console;
mod console_runs;
mod console_stored;
mod console_stored_ends;
mod console_stored_frames;
mod console_stored_full;
mod console_stored_legs;
mod console_stored_records;
mod console_stored_sender;
mod console_stored_transfers;
mod crc;
mod cross;
mod ends;
mod exchange;
mod exchanges;
mod frame;
mod generate;
mod link;
mod reader;
mod receiver;
mod replay;
mod rng;
mod selftest;
mod selftest_check;
mod selftest_check_random;
mod selftest_console;
mod selftest_console_frames;
mod selftest_console_lines;
mod selftest_console_reading;
mod selftest_console_sending;
mod selftest_console_slices;
mod selftest_console_unlawful;
mod selftest_exchange;
mod selftest_receivers;
mod selftest_sender;
mod selftest_sessions;
mod sender;
mod session;
mod sessions;
mod sessions_kinds;
mod sessions_lines;
mod sessions_module;
mod sessions_openings;
mod sessions_poke;
mod sessions_replies;
mod sessions_sender;
mod sessions_sender_edges;
mod stored;
mod wire;
mod words;

use std::fs;
use std::io::{self, BufWriter, Read, Write};
use std::path::Path;
use std::process::ExitCode;

const USAGE: &str = "\
model [replay] < capture       the replay output of a capture
model generate KIND SEED       a capture, to standard output
model kinds                    the kinds, one per line
model many DIR N SEED          N captures and their replay outputs, into DIR
model stored                   the stored capture
model stored-notes             stored.md
model sound SIZE               about SIZE bytes of sound transfers
model exchange WORDS..         both ends over a simulated link
model cross WORDS.. < output   another exchange's output against the model's ends;
                               status 1 and the first line that does not fit
model exchanges DIR N SEED     N sets of words and the exchange's outputs, into DIR
model exchange-stored-words    the words of the stored exchange
model console < session        both ends, call by call
model console-stored           the stored session
model console-runs             the names of its further stored runs, one per line
model console-run NAME         the standard input of this one
model sessions DIR N SEED      N sessions and the console's outputs, into DIR
model selftest                 the self-tests; status 1 if one fails
";

fn main() -> ExitCode {
    let arguments: Result<Vec<String>, _> =
        std::env::args_os().skip(1).map(|word| word.into_string()).collect();
    let Ok(arguments) = arguments else {
        eprintln!("model: the words are no text");
        return ExitCode::from(2);
    };
    let words: Vec<&str> = arguments.iter().map(String::as_str).collect();
    match run(&words) {
        Ok(true) => ExitCode::SUCCESS,
        Ok(false) => ExitCode::FAILURE,
        Err(error) => {
            eprintln!("model: {error}");
            ExitCode::from(2)
        }
    }
}

/// Runs a mode; false if a self-test failed or a line did not fit.
fn run(words: &[&str]) -> io::Result<bool> {
    match words {
        [] | ["replay"] => {
            replay::replay(io::stdin().lock(), BufWriter::new(io::stdout().lock()))?;
        }
        ["generate", kind, seed] => print(&capture(kind, number(seed)?)?)?,
        ["kinds"] => print((generate::KINDS.join("\n") + "\n").as_bytes())?,
        ["many", folder, count, seed] => many(Path::new(folder), number(count)?, number(seed)?)?,
        ["stored"] => print(&stored::stored().capture)?,
        ["stored-notes"] => print(stored::stored().notes().as_bytes())?,
        ["sound", size] => print(&wire::sound(number(size)? as usize))?,
        ["exchange", words @ ..] => return exchange(words),
        ["cross", words @ ..] => return cross(words),
        ["exchanges", folder, count, seed] => {
            exchanges(Path::new(folder), number(count)?, number(seed)?)?
        }
        ["exchange-stored-words"] => {
            print((exchanges::stored_words().join("\n") + "\n").as_bytes())?
        }
        ["console"] => console::console(),
        ["console-stored"] => print(console_stored::stored().text().as_bytes())?,
        ["console-runs"] => {
            let names: String =
                console_runs::runs().iter().map(|run| format!("{}\n", run.name)).collect();
            print(names.as_bytes())?
        }
        ["console-run", name] => {
            let runs = console_runs::runs();
            let run = runs.iter().find(|run| run.name == *name);
            print(run.ok_or_else(|| bad("no such run"))?.text().as_bytes())?
        }
        ["sessions", folder, count, seed] => {
            sessions(Path::new(folder), number(count)?, number(seed)?)?
        }
        ["selftest"] => return Ok(selftest::run()),
        _ => return Err(bad(USAGE)),
    }
    Ok(true)
}

/// Writes captures 0 to count - 1 and their replay outputs. The names tell kind
/// and seed, so that `generate` gives a capture again.
fn many(folder: &Path, count: u64, seed: u64) -> io::Result<()> {
    let usual = generate::KINDS.len() - 1; // the long kind comes once, as the last
    for index in 0..count {
        let kind = match index {
            _ if count > 100 && index == count - 1 => generate::LONG_KIND,
            _ => generate::KINDS[index as usize % usual],
        };
        let seed = seed_of(seed, index);
        let capture = capture(kind, seed)?;
        let name = format!("{index:06}-{kind}-{seed}");
        fs::write(folder.join(name.clone() + ".capture"), &capture)?;
        fs::write(folder.join(name + ".expected"), replay::replay_bytes(&capture))?;
    }
    Ok(())
}

/// The seed of the index-th of many.
fn seed_of(seed: u64, index: u64) -> u64 {
    rng::Rng::new(seed.wrapping_mul(1_000_003).wrapping_add(index)).next()
}

/// Runs an exchange; false if the stored bytes were ever not the image's first.
fn exchange(words: &[&str]) -> io::Result<bool> {
    let words = words::Words::read_with_files(words).map_err(|error| bad(&error))?;
    let (text, sound) = exchange::exchange(&words);
    print(text.as_bytes())?;
    Ok(sound)
}

/// Plays another program's output, on standard input, through the model's ends.
fn cross(words: &[&str]) -> io::Result<bool> {
    let words = words::Words::read_with_files(words).map_err(|error| bad(&error))?;
    let mut transcript = Vec::new();
    io::stdin().lock().read_to_end(&mut transcript)?;
    let (line, fits) = match cross::cross(&words, &String::from_utf8_lossy(&transcript)) {
        Ok(counts) => (format!("cross ok: {counts}\n"), true),
        Err(misfit) => (format!("{misfit}\n"), false),
    };
    print(line.as_bytes())?;
    Ok(fits)
}

/// Writes sets of words 0 to count - 1, the images they name and the exchange's
/// outputs.
fn exchanges(folder: &Path, count: u64, seed: u64) -> io::Result<()> {
    for index in 0..count {
        let kind = exchanges::KINDS[index as usize % exchanges::KINDS.len()];
        let seed = seed_of(seed, index);
        let name = format!("{index:06}-{kind}-{seed}");
        let image = name.clone() + ".image";
        let set = exchanges::words(kind, seed, &image);
        if let Some(bytes) = &set.image {
            fs::write(folder.join(image), bytes)?;
        }
        let lines: String = set.words.iter().map(|word| format!("{word}\n")).collect();
        fs::write(folder.join(name.clone() + ".words"), lines)?;
        fs::write(folder.join(name + ".expected"), exchange::exchange(&set.read()).0)?;
    }
    Ok(())
}

/// Writes sessions 0 to count - 1, kinds in turn, and the console's outputs.
fn sessions(folder: &Path, count: u64, seed: u64) -> io::Result<()> {
    for index in 0..count {
        let kind = index as usize % sessions::KINDS.len();
        let seed = seed_of(seed, index);
        let (session, _) = sessions::session(kind, seed);
        let name = format!("{index:06}-{}-{seed}", sessions::KINDS[kind].0);
        fs::write(folder.join(name.clone() + ".session"), &session)?;
        fs::write(folder.join(name + ".expected"), console::console_bytes(&session))?;
    }
    Ok(())
}

fn capture(kind: &str, seed: u64) -> io::Result<Vec<u8>> {
    generate::generate(kind, seed).ok_or_else(|| bad("no such kind; see `model kinds`"))
}

fn number(word: &str) -> io::Result<u64> {
    word.parse().map_err(|_| bad("a number is expected"))
}

fn print(bytes: &[u8]) -> io::Result<()> {
    io::stdout().lock().write_all(bytes)
}

fn bad(message: &str) -> io::Error {
    io::Error::new(io::ErrorKind::InvalidInput, message)
}
