//! bench REPLAY MODEL FOLDER: times the replay program and the model on the same
//! captures, feeding calls by themselves on the same bytes, one call on a record
//! of each costly kind, and the compiled checksums against others. Medians of
//! interleaved runs, and their ratios.

mod calls;
mod captures;
mod checksums;
#[path = "../tests/model/crc.rs"]
#[allow(dead_code)]
mod crc;
mod feeding;
mod record;
mod replays;
mod timing;

use std::io;
use std::path::Path;

fn main() -> io::Result<()> {
    let words: Vec<String> = std::env::args().collect();
    let [_, replay, model, folder] = words.as_slice() else {
        return Err(io::Error::other("usage: bench REPLAY MODEL FOLDER"));
    };
    let folder = Path::new(folder);
    println!("Medians of {} runs each, interleaved. The first row of each group is 1.00.", timing::RUNS);
    println!("Replay, calls on a record and `crc32`, `crc16`: built by `rt run` and `rt lib`. Model: `rustc -O`, no other flag.");
    println!("Each replay is a process of its own and clears its buffers (area, input, output) at its start.\n");
    println!("| what | median ms | ratio |\n|---|---|---|");
    replays::sound(replay, model, folder)?;
    replays::sums(replay, model, folder)?;
    feeding::rows()?;
    checksums::rows()?;
    let transfer = captures::Transfer::made_by(model)?;
    calls::frames(&transfer)?;
    calls::portions(&transfer)
}
