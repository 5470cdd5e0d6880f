//! Replay of a capture on the bench board.
//!
//! 01, "Frames from the bench": "A replay program opens this board with a
//! zeroed area, reads a capture on standard input, tells quiet at its end and
//! writes, per frame, its first byte's place in the capture (decimal, from 0),
//! command (hex), outcome and reply (`-` for none), then all drops." An end check
//! is finished before it feeds on or tells quiet, "with FE's reply on FE's line"
//! (document 02, K5).

use std::io::{self, Read, Write};

use crate::frame::OVERHEAD;
use crate::receiver::{Outcome, Receiver, Report, REPLY_ROOM};
use crate::session::Board;

/// "channel 10, soft 1.0.2, hard 1.0.0, PID all zero, permitted, area 65,536".
pub const BENCH_BOARD: Board =
    Board { channel: 10, soft: [1, 0, 2], hard: [1, 0, 0], pid: [0; 8], permit: true };
pub const BENCH_AREA: usize = 65_536;

/// Input is read in pieces of this size; the output does not depend on it.
const PIECE: usize = 64 * 1024;
/// An end check is made in portions of this size, so that it mostly ends with a
/// shorter one; the output does not depend on it either.
pub const PORTION: usize = 1_000;

/// A fresh record of the bench board.
pub fn bench_receiver() -> Receiver {
    Receiver::open(&[BENCH_BOARD], BENCH_AREA).expect("the bench board keeps opening's rules")
}

/// A replay under way.
pub struct Replay<W> {
    receiver: Receiver,
    area: Vec<u8>,
    room: [u8; REPLY_ROOM],
    /// Bytes of the frames read so far.
    framed: u64,
    dropped: u64,
    out: W,
}

impl<W: Write> Replay<W> {
    pub fn new(out: W) -> Self {
        Replay {
            receiver: bench_receiver(),
            area: vec![0; BENCH_AREA],
            room: [0; REPLY_ROOM],
            framed: 0,
            dropped: 0,
            out,
        }
    }

    /// Feeds one piece of the capture, call by call until all is taken and no
    /// whole frame is left at the front.
    pub fn feed(&mut self, piece: &[u8]) -> io::Result<()> {
        let mut rest = piece;
        loop {
            let report = self.receiver.feed(rest, &mut self.area, &mut self.room);
            rest = &rest[report.taken..];
            if !self.finish_check_and_note(report)? {
                return Ok(());
            }
        }
    }

    /// Tells quiet until nothing is held, then writes the last line.
    pub fn finish(mut self) -> io::Result<W> {
        loop {
            let report = self.receiver.quiet(&mut self.area, &mut self.room);
            if !self.finish_check_and_note(report)? {
                break;
            }
        }
        writeln!(self.out, "end dropped {}", self.dropped)?;
        self.out.flush()?;
        Ok(self.out)
    }

    /// Finishes the end check if the call started one, then notes the call.
    fn finish_check_and_note(&mut self, report: Report) -> io::Result<bool> {
        let report = self.receiver.finish_check(report, PORTION, &self.area, &mut self.room);
        self.note(&report)
    }

    /// Counts a call and writes its frame's line; false if it had no frame.
    ///
    /// A frame's place is the number of bytes of earlier frames plus all drops
    /// up to and including its call.
    fn note(&mut self, report: &Report) -> io::Result<bool> {
        self.dropped += report.dropped as u64;
        match report.outcome {
            Outcome::NoFrame => return Ok(false),
            Outcome::SmallRoom | Outcome::OtherArea | Outcome::BadRecord => {
                let refused = format!("a call was refused: {:?}", report.outcome);
                return Err(io::Error::other(refused)); // cannot come of this loop
            }
            _ => {}
        }
        let place = self.framed + self.dropped;
        self.framed += (OVERHEAD + report.length) as u64;
        let outcome = report.outcome as u8;
        write!(self.out, "{place} {:02X} {outcome} ", report.command)?;
        write_reply(&mut self.out, &self.room[..report.reply])?;
        Ok(true)
    }
}

/// The reply in upper-case hex, `-` for none, and the line's end.
fn write_reply(out: &mut impl Write, reply: &[u8]) -> io::Result<()> {
    const DIGITS: &[u8; 16] = b"0123456789ABCDEF";
    if reply.is_empty() {
        return out.write_all(b"-\n");
    }
    let mut line = [b'\n'; 2 * REPLY_ROOM + 1];
    for (pair, &byte) in line.chunks_exact_mut(2).zip(reply) {
        pair[0] = DIGITS[usize::from(byte >> 4)];
        pair[1] = DIGITS[usize::from(byte & 15)];
    }
    out.write_all(&line[..2 * reply.len() + 1])
}

/// Replays everything `input` gives.
pub fn replay(mut input: impl Read, out: impl Write) -> io::Result<()> {
    let mut replay = Replay::new(out);
    let mut piece = vec![0; PIECE];
    loop {
        match input.read(&mut piece) {
            Ok(0) => break,
            Ok(count) => replay.feed(&piece[..count])?,
            Err(error) if error.kind() == io::ErrorKind::Interrupted => {}
            Err(error) => return Err(error),
        }
    }
    replay.finish().map(drop)
}

/// The replay output of a capture in memory.
pub fn replay_bytes(capture: &[u8]) -> Vec<u8> {
    let mut replay = Replay::new(Vec::new());
    replay.feed(capture).and_then(|()| replay.finish()).expect("writing to memory succeeds")
}
