//! Feeding calls on a record, each offered all bytes that are left, or one.

use std::cell::RefCell;
use std::io;

use crate::captures::{repeated, zeros, FRAMES, HEADER, MIB, TWO_HEADERS};
use crate::record::Memory;
use crate::timing::{table, Run};

pub fn rows() -> io::Result<()> {
    let right = zeros(0).repeat(FRAMES);
    let high = zeros(1).repeat(FRAMES);
    let nothing = vec![0; MIB];
    let short = repeated(&HEADER, MIB);
    let long = repeated(&HEADER, 4 * MIB);
    let dense = repeated(&TWO_HEADERS, MIB);
    let denser = repeated(&TWO_HEADERS, 4 * MIB);
    let heads = repeated(&HEADER[..2], MIB);
    table(&[
        ("feeding calls: 2,000 frames, right sums", fed(&right, usize::MAX, FRAMES)),
        ("feeding calls: 2,000 frames, sums one too high", fed(&high, usize::MAX, 0)),
        ("feeding calls: zeros, 1 MiB", fed(&nothing, usize::MAX, 0)),
        ("feeding calls: 55 AA alone, 1 MiB", fed(&heads, usize::MAX, 0)),
        ("feeding calls: headers that claim 519 bytes, 1 MiB", fed(&short, usize::MAX, 0)),
        ("feeding calls: headers that claim 519 bytes, 4 MiB", fed(&long, usize::MAX, 0)),
        ("feeding calls: headers every four bytes, 1 MiB", fed(&dense, usize::MAX, 0)),
        ("feeding calls: headers every four bytes, 4 MiB", fed(&denser, usize::MAX, 0)),
    ])?;
    table(&[
        ("a byte to each call: 2,000 frames, right sums", fed(&right, 1, FRAMES)),
        ("a byte to each call: 2,000 frames, sums one too high", fed(&high, 1, 0)),
        ("a byte to each call: headers that claim 519 bytes, 1 MiB", fed(&short, 1, 0)),
    ])?;
    Ok(())
}

/// All of the bytes, at most `cut` of them offered to a call; this many frames are found.
fn fed<'a>(bytes: &'a [u8], cut: usize, frames: usize) -> Run<'a> {
    let memory = RefCell::new(Memory::new());
    Box::new(move || {
        let found = memory.borrow_mut().feed(bytes, cut);
        if found == frames { Ok(()) } else { Err(io::Error::other("feeding found other frames")) }
    })
}
