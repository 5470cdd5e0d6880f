//! The replay program and the model, each a process, on the same captures.

use std::fs::File;
use std::io;
use std::path::{Path, PathBuf};
use std::process::{Command, Stdio};

use crate::captures::{repeated, zeros, FRAMES, HEADER, MIB};
use crate::timing::{table, Run};

const SOUND: usize = 64 << 20;

pub fn sound(replay: &str, model: &str, folder: &Path) -> io::Result<()> {
    let capture = folder.join("sound");
    let size = SOUND.to_string();
    let made = Command::new(model).args(["sound", &size]).stdout(File::create(&capture)?).status()?;
    if !made.success() {
        return Err(io::Error::other("no sound capture"));
    }
    same(replay, model, &capture)?;
    table(&[
        ("sound capture of 64 MiB: model", run(vec![model, "replay"], capture.clone())),
        ("sound capture of 64 MiB: replay", run(vec![replay], capture.clone())),
    ])
}

/// Frames of zero bytes with right sums, and with sums one too high: after each
/// of the latter every byte of the frame may begin another. And headers alone,
/// each of which asks for a sum of its own.
pub fn sums(replay: &str, model: &str, folder: &Path) -> io::Result<()> {
    let capture = |name: &str, bytes: Vec<u8>| -> io::Result<PathBuf> {
        let path = folder.join(name);
        std::fs::write(&path, bytes)?;
        same(replay, model, &path)?;
        Ok(path)
    };
    let right = capture("right", zeros(0).repeat(FRAMES))?;
    let high = capture("high", zeros(1).repeat(FRAMES))?;
    let short = capture("short", repeated(&HEADER, MIB))?;
    let long = capture("long", repeated(&HEADER, 4 * MIB))?;
    table(&[
        ("2,000 frames of 512 zeros, right sums: replay", run(vec![replay], right.clone())),
        ("2,000 frames of 512 zeros, sums one too high: replay", run(vec![replay], high.clone())),
        ("2,000 frames of 512 zeros, right sums: model", run(vec![model, "replay"], right.clone())),
        ("2,000 frames of 512 zeros, sums one too high: model", run(vec![model, "replay"], high.clone())),
    ])?;
    table(&[
        ("headers that claim 519 bytes, 1 MiB: replay", run(vec![replay], short.clone())),
        ("headers that claim 519 bytes, 4 MiB: replay", run(vec![replay], long.clone())),
        ("headers that claim 519 bytes, 1 MiB: model", run(vec![model, "replay"], short.clone())),
        ("headers that claim 519 bytes, 4 MiB: model", run(vec![model, "replay"], long.clone())),
    ])
}

fn run<'a>(words: Vec<&'a str>, capture: PathBuf) -> Run<'a> {
    Box::new(move || {
        let source = File::open(&capture)?;
        let status = Command::new(words[0]).args(&words[1..]).stdin(source).stdout(Stdio::null()).status()?;
        if status.success() { Ok(()) } else { Err(io::Error::other("a replay failed")) }
    })
}

fn same(replay: &str, model: &str, capture: &Path) -> io::Result<()> {
    if output(&[replay], capture)? == output(&[model, "replay"], capture)? {
        return Ok(());
    }
    Err(io::Error::other(format!("the replays of {} differ", capture.display())))
}

fn output(words: &[&str], capture: &Path) -> io::Result<Vec<u8>> {
    let source = File::open(capture)?;
    Ok(Command::new(words[0]).args(&words[1..]).stdin(source).output()?.stdout)
}
