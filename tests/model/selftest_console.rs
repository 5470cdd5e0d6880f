//! Self-tests of the console, most of them as its sessions. Here are the frames and
//! boards that they share; each part has a file of its own.

use crate::console::{answer, bench::Bench, console_bytes};
use crate::selftest::Tally;
use crate::selftest_console_frames;
use crate::selftest_console_lines;
use crate::selftest_console_reading;
use crate::selftest_console_sending;
use crate::selftest_console_slices;
use crate::selftest_console_unlawful;
use crate::selftest_sessions;
use crate::stored::hex;
use crate::wire;

pub fn run(t: &mut Tally) {
    selftest_console_lines::run(t);
    selftest_console_frames::run(t);
    selftest_console_reading::run(t);
    selftest_console_slices::run(t);
    selftest_console_unlawful::run(t);
    selftest_console_sending::run(t);
    selftest_sessions::run(t);
}

/// The bench board: "channel 10, soft 1.0.2, hard 1.0.0, PID all zero, permitted,
/// area 65,536".
const OPENED: &str = "board 0 1 0A 010002 010000 0000000000000000\nopen 1 65536\n";
/// The bench's frames, and an FB between them.
pub const P1: &str = "55AA00FE00010A08";
pub const P3: &str = "55AA00FA00030A010007";
pub const FB: &str =
    "55AA10FB00240A000000000000000001000325F9E794323B453885F5181F1B624D0B00000009CBF439266C";
pub const P6: &str = "55AA00FC00050A000000000A";
pub const P7: &str = "55AA10FD00100A000000094B373132333435363738398E";

/// A session of the bench board.
pub fn bench(lines: &[&str]) -> String {
    format!("{OPENED}{}\n", lines.join("\n"))
}

/// The bench board, receiving the nine bytes' image, nothing stored.
pub fn receiving(lines: &[&str]) -> String {
    let [fa, fb, fc] = [feed(P3), feed(FB), feed(P6)];
    bench(&[&[fa.as_str(), &fb, &fc], lines].concat())
}

pub fn feed(frame: &str) -> String {
    format!("feed {frame}")
}

/// A frame around the data, as hexadecimal digits.
pub fn framed(version: u8, command: u8, data: &[u8]) -> String {
    hex(&wire::frame(version, command, data))
}

/// The answers to a session's lines.
pub fn numbered_answers(session: &[u8]) -> Vec<String> {
    String::from_utf8_lossy(&console_bytes(session)).lines().map(str::to_owned).collect()
}

/// The answers to a session's lines, each without its line number.
pub fn answers(session: &str) -> Vec<String> {
    let rest = |answer: &String| Some(answer.split_once(' ')?.1.to_owned());
    numbered_answers(session.as_bytes()).iter().filter_map(rest).collect()
}

pub fn last_answer(session: &str) -> String {
    answers(session).pop().unwrap_or_default()
}

/// The outcome that an answer tells.
pub fn outcome(answer: &str) -> &str {
    let words = answer.strip_prefix("sender ").unwrap_or(answer);
    words.split(' ').nth(1).unwrap_or_default()
}

/// The value of a `name=value` in an answer.
pub fn value<'a>(answer: &'a str, name: &str) -> &'a str {
    let found = answer.split(' ').find_map(|word| word.strip_prefix(name)?.strip_prefix('='));
    found.unwrap_or("absent")
}

/// The last answer to the session has this outcome.
pub fn gives(t: &mut Tally, session: &str, wanted: &str) {
    t.same(session, outcome(&last_answer(session)), wanted);
}

pub fn begins(t: &mut Tally, answer: &str, wanted: &str) {
    t.holds(&format!("{answer:?} begins with {wanted:?}"), answer.starts_with(wanted));
}

pub fn ends(t: &mut Tally, answer: &str, wanted: &str) {
    t.holds(&format!("{answer:?} ends with {wanted:?}"), answer.ends_with(wanted));
}

/// A session's lines and the answer to each.
pub fn same_lines(t: &mut Tally, lines: &[(&str, &str)]) {
    let mut bench = Bench::new();
    for (number, (line, wanted)) in (1..).zip(lines) {
        let told = answer(&mut bench, number, line.as_bytes());
        t.same(line, told, Some(format!("{number} {wanted}\n")));
    }
}
