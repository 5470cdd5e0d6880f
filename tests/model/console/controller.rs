//! The controller's calls, each with its order of refusals.

use super::frame::{self, Frame, AROUND_DATA};
use super::outcome::Outcome;
use super::portion::{self, Verdict};
use super::reader::{self, Reading};
use super::record::{self, Board, Record, MOST_BOARDS};
use super::session::{self, Reply};
use super::table::Command;

/// Outcome 5: "reply room below 33 bytes".
const LEAST_ROOM: usize = 33;

/// What a feeding or quiet call gives beside the record.
#[derive(Debug, PartialEq, Eq)]
pub struct Fed {
    pub outcome: Outcome,
    pub taken: usize,
    pub dropped: usize,
    /// "the frame's command and L (both 0 without a frame)"
    pub command: u8,
    pub length: usize,
    /// The length of the reply at the front of the room.
    pub reply: usize,
}

/// What a portion call gives beside the record.
#[derive(Debug, PartialEq, Eq)]
pub struct Portioned {
    pub outcome: Outcome,
    pub count: u64,
    pub verdict: Verdict,
    pub reply: usize,
}

/// "opening 8, then 7"; "no usable record" is the all-zero one.
pub fn open(list: &[Board; MOST_BOARDS], count: u64, length: u64) -> (Outcome, Record) {
    if !record::list_is_lawful(list, count) {
        (Outcome::BadList, Record::default())
    } else if !record::length_is_lawful(length) {
        (Outcome::BadLength, Record::default())
    } else {
        (Outcome::Fine, Record::fresh(list, count, length))
    }
}

/// "Calls check 9, 6, 5".
fn refusal(record: &Record, area: &[u8], room: &[u8]) -> Option<Outcome> {
    if !record.is_lawful() {
        Some(Outcome::Unlawful)
    } else if area.len() as u64 != record.opened {
        Some(Outcome::OtherArea)
    } else if room.len() < LEAST_ROOM {
        Some(Outcome::ShortRoom)
    } else {
        None
    }
}

pub fn feed(record: &mut Record, area: &mut [u8], room: &mut [u8], fresh: &[u8]) -> Fed {
    if let Some(outcome) = refusal(record, area, room) {
        return refused(outcome);
    }
    let held = record.holding as usize;
    let bytes = [&record.held[..held], fresh].concat();
    respond(record, area, room, reader::feed(&bytes, held))
}

pub fn quiet(record: &mut Record, area: &mut [u8], room: &mut [u8]) -> Fed {
    if let Some(outcome) = refusal(record, area, room) {
        return refused(outcome);
    }
    let held = record.held[..record.holding as usize].to_vec();
    respond(record, area, room, reader::quiet(&held))
}

/// "on outcomes 5, 6 and 9 all four are 0"
fn refused(outcome: Outcome) -> Fed {
    Fed { outcome, taken: 0, dropped: 0, command: 0, length: 0, reply: 0 }
}

/// Keeps what is held now and lets the session answer the frame, if there is one.
fn respond(record: &mut Record, area: &mut [u8], room: &mut [u8], reading: Reading) -> Fed {
    let Reading { frame, taken, dropped, left } = reading;
    record.hold(left);
    let Some(frame) = frame else {
        return Fed { taken, dropped, ..refused(Outcome::NoFrame) };
    };
    let (outcome, reply) = match session::answer(record, area, frame) {
        Ok(reply) => (Outcome::Fine, write_reply(room, reply)),
        Err(outcome) => (outcome, 0),
    };
    Fed { outcome, taken, dropped, command: frame.command, length: frame.data.len(), reply }
}

/// "reply at the front of the room"; gives its length, "0 for F9".
fn write_reply(room: &mut [u8], reply: Option<Reply>) -> usize {
    reply.map_or(0, |Reply { command, data }| write_own(room, command, &data))
}

/// Writes a frame of the controller's, with the table's version byte.
fn write_own(room: &mut [u8], command: Command, data: &[u8]) -> usize {
    let version = command.row().reply_version;
    frame::write(room, Frame { version, command: command.byte(), data })
}

/// K5: portion calls "refuse 9, 6, 5, then 18 when no check runs: count 0, unfinished, nothing
/// changed."
pub fn portion(record: &mut Record, area: &[u8], room: &mut [u8], most: u64) -> Portioned {
    let no_check = || (!record.check.running).then_some(Outcome::NoCheckRuns);
    if let Some(outcome) = refusal(record, area, room).or_else(no_check) {
        return Portioned { outcome, count: 0, verdict: Verdict::Unfinished, reply: 0 };
    }
    let read = portion::read_on(record, area, most);
    let outcome = match read.verdict {
        Verdict::Unfinished => Outcome::CheckUnfinished,
        Verdict::Right | Verdict::Wrong => Outcome::Fine,
    };
    let reply = write_reply(room, read.reply);
    Portioned { outcome, count: read.count, verdict: read.verdict, reply }
}

/// The outward F9: "L = 7n + 1: count n, then per board channel, soft version(3), hard version(3),
/// in list order"; "9, then 11". Gives the frame's length.
pub fn report(record: &Record, room: &mut [u8]) -> (Outcome, usize) {
    if !record.is_lawful() {
        return (Outcome::Unlawful, 0);
    }
    let boards = record.boards();
    let mut data = vec![boards.len() as u8];
    for board in boards {
        data.push(board.channel);
        data.extend(board.soft);
        data.extend(board.hard);
    }
    // "room below 8 + 7n"
    if room.len() < AROUND_DATA + data.len() {
        return (Outcome::ShortReportRoom, 0);
    }
    (Outcome::Fine, write_own(room, Command::F9, &data))
}
