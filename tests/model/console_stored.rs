//! The stored session of the program `console`: made by hand, every line for a
//! reason. `crates/console/stdin` is its text, `crates/console/stdout` what
//! `model console` writes for it.
//!
//! Each line carries what the papers ask to be written for it, by hand and not by
//! the console; the self-test compares them with the console's output.

use crate::console_stored_ends as ends;
use crate::console_stored_frames as frames;
use crate::console_stored_full as full;
use crate::console_stored_legs as legs;
use crate::console_stored_records as records;
use crate::console_stored_sender as sender;
use crate::console_stored_transfers as transfers;
use crate::session::Version;
use crate::stored::hex;
use crate::wire::{self, Image};

/// A line of the session and what is wanted for it: parts that stand in the answer
/// in this order, with ` .. ` between them for whatever else is there.
pub struct Entry {
    pub line: String,
    pub wanted: Option<String>,
}

/// The session being told.
#[derive(Default)]
pub struct Story {
    pub entries: Vec<Entry>,
}

impl Story {
    /// A new group of lines, told by a comment.
    pub fn group(&mut self, title: &str) {
        if !self.entries.is_empty() {
            self.passed_over("");
        }
        self.passed_over(&format!("# == {title}"));
    }

    pub fn note(&mut self, text: &str) {
        self.passed_over(&format!("# {text}"));
    }

    fn passed_over(&mut self, line: &str) {
        self.entries.push(Entry { line: line.into(), wanted: None });
    }

    pub fn line(&mut self, line: &str, wanted: &str) {
        self.entries.push(Entry { line: line.into(), wanted: Some(wanted.into()) });
    }

    /// Lines that only prepare something.
    pub fn lines(&mut self, lines: &[&str]) {
        for line in lines {
            let wanted = match line.split(' ').next() {
                Some("set") => "set | ..",
                Some("sender") => "sender set | ..",
                _ => "ok",
            };
            self.line(line, wanted);
        }
    }

    pub fn feed(&mut self, bytes: &[u8], wanted: &str) {
        let line = if bytes.is_empty() { "feed".into() } else { format!("feed {}", hex(bytes)) };
        self.line(&line, &format!("feed {wanted}"));
    }

    /// A frame with a reply; the changes of the record, and of nothing else.
    pub fn answered(&mut self, frame: &[u8], reply: &[u8], changes: &str) {
        let reply = hex(reply);
        self.feed(frame, &format!("0 .. dropped=0 .. reply={reply} past=- area=- {changes}"));
    }

    /// A frame without a reply: this outcome, and nothing changes.
    pub fn unanswered(&mut self, outcome: u8, frame: &[u8]) {
        let (length, data) = (frame.len(), frame.len() - 7);
        let command = frame[3];
        self.feed(
            frame,
            &format!(
            "{outcome} taken={length} dropped=0 command={command:02X} length={data} reply=- past=- \
             area=- |"
        ),
        );
    }

    /// The text of the session.
    pub fn text(&self) -> String {
        self.entries.iter().map(|entry| format!("{}\n", entry.line)).collect()
    }
}

/// Builds the stored session.
pub fn stored() -> Story {
    let mut story = Story::default();
    let s = &mut story;
    s.note("A session for the program `console`, told group by group.");
    s.note("docs/CONSOLE.md says what a line means.");
    frames::before_opening(s);
    frames::opening(s);
    frames::orders_of_calls(s);
    frames::orders_of_frames(s);
    frames::reading(s);
    transfers::asking_and_telling(s);
    transfers::packets(s);
    ends::end_in_portions(s);
    ends::failed_end(s);
    ends::offsets(s);
    ends::moves(s);
    ends::past_held(s);
    full::full_packets(s);
    records::list_and_held(s);
    records::numbers(s);
    records::phases(s);
    records::checks(s);
    sender::opening_and_requests(s);
    sender::replies(s);
    legs::silences_and_legs(s);
    legs::edges(s);
    legs::both_ends(s);
    frames::bad_lines(s);
    story
}

/// The boards of the story. `FIRST` and `TWIN` differ in their channels and hard
/// versions only; `SECOND` has a newer soft version and a PID of its own; `SHUT` has
/// no permit.
pub const FIRST: u8 = 10;
pub const SECOND: u8 = 12;
pub const SHUT: u8 = 19;
pub const TWIN: u8 = 11;
pub const BOARDS: [&str; 4] = [
    "1 0A 010002 010000 0000000000000000",
    "1 0C 020500 020001 0102030405060708",
    "0 13 000909 030000 A0A1A2A3A4A5A6A7",
    "1 0B 010002 010001 0000000000000000",
];
pub const FIRST_SOFT: Version = [1, 0, 2];
pub const SECOND_SOFT: Version = [2, 5, 0];
pub const SHUT_SOFT: Version = [0, 9, 9];
pub const SECOND_PID: [u8; 8] = [1, 2, 3, 4, 5, 6, 7, 8];
/// The length that the record is opened with in most groups.
pub const OPENED: u32 = 200;

/// 40 bytes, an image for `SECOND`: packets of 16, 16 and 8.
pub fn second_image() -> Image {
    let bytes = b"Forty bytes for the board on channel 12.".to_vec();
    let md5 = [0x10, 0x32, 0x54, 0x76, 0x98, 0xBA, 0xDC, 0xFE, 1, 2, 3, 4, 5, 6, 7, 8];
    Image { pid: SECOND_PID, md5, ..Image::new([2, 5, 1], 0, bytes) }
}

/// 20 bytes, an image for `FIRST` and `TWIN`.
pub fn first_image() -> Image {
    Image::new([1, 1, 0], 0x5A, b"Twenty bytes, twice.".to_vec())
}

pub fn fa_reply(channel: u8, flag: u8, soft: Version) -> Vec<u8> {
    wire::frame(0x00, 0xFA, &[&[channel, flag], &soft[..], &[2, 0]].concat())
}

pub fn fb_reply(channel: u8, state: u8, stored: u32, crc: u32) -> Vec<u8> {
    let (stored, crc) = (stored.to_be_bytes(), crc.to_be_bytes());
    wire::frame(0x10, 0xFB, &[&[channel, state], &stored[..], &crc, &[0; 16]].concat())
}

pub fn fd_reply(channel: u8, state: u8) -> Vec<u8> {
    wire::frame(0x00, 0xFD, &[channel, state])
}

pub fn fe_reply(channel: u8, state: u8) -> Vec<u8> {
    wire::frame(0x00, 0xFE, &[channel, state])
}

/// The told line, without its number, has these parts in this order.
pub fn fits(told: &str, wanted: &str) -> bool {
    let parts: Vec<&str> = wanted.split("..").map(str::trim).collect();
    let (first, last) = (parts[0], parts[parts.len() - 1]);
    let mut rest = told;
    let in_order = parts.iter().all(|part| match rest.find(part) {
        Some(place) => {
            rest = &rest[place + part.len()..];
            true
        }
        None => false,
    });
    let whole = parts.len() > 1 || told == wanted;
    in_order && told.starts_with(first) && told.ends_with(last) && whole
}
