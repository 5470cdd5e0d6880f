//! Seeded sessions for the program `console`, sound and hostile.
//!
//! A `Script` is a session being written. Every line of it also goes to a bench of
//! its own (the mirror), so that a kind knows the records and can mostly do the
//! sensible next thing.

use crate::console::{self, bench::Bench};
use crate::rng::Rng;
use crate::sessions_kinds as kinds;
use crate::sessions_lines;
use crate::sessions_openings;
use crate::sessions_sender;
use crate::sessions_sender_edges;
use crate::stored::hex;

/// The kinds of sessions, by name.
pub const KINDS: [(&str, fn(&mut Script)); 8] = [
    ("sound", kinds::sound),
    ("sender", sessions_sender::sender),
    ("sender-edges", sessions_sender_edges::sender_edges),
    ("poked", kinds::poked),
    ("rooms", kinds::rooms),
    ("openings", sessions_openings::openings),
    ("frames", kinds::frames),
    ("lines", sessions_lines::lines),
];

/// A session of this kind, a comment first; and what the mirror wrote for it.
pub fn session(kind: usize, seed: u64) -> (Vec<u8>, String) {
    let (name, write) = KINDS[kind % KINDS.len()];
    let mut script = Script::new(Rng::new(seed));
    script.line(&format!("# {name} {seed}"));
    write(&mut script);
    (script.text, script.told)
}

/// A session being written, and its mirror.
pub struct Script {
    pub rng: Rng,
    /// The mirror: what the console holds after these lines.
    pub bench: Bench,
    pub text: Vec<u8>,
    /// What the mirror wrote.
    pub told: String,
    pub lines: usize,
    /// About how many lines it is to have.
    pub wanted: usize,
}

impl Script {
    pub fn new(mut rng: Rng) -> Self {
        let wanted = rng.between(10, 80);
        Script { rng, bench: Bench::new(), text: Vec::new(), told: String::new(), lines: 0, wanted }
    }

    pub fn goes_on(&self) -> bool {
        self.lines < self.wanted
    }

    /// Adds a line of any bytes; what the mirror writes for it.
    pub fn raw_line(&mut self, line: &[u8]) -> String {
        self.text.extend_from_slice(line);
        self.text.push(b'\n');
        self.lines += 1;
        let told = console::answer(&mut self.bench, self.lines as u64, line).unwrap_or_default();
        self.told.push_str(&told);
        told
    }

    pub fn line(&mut self, line: &str) -> String {
        self.raw_line(line.as_bytes())
    }

    /// A feeding call with these bytes; how many it took, none if it was refused.
    pub fn feed(&mut self, bytes: &[u8]) -> Option<usize> {
        let told = self.line(&format!("feed {}", hex(bytes)));
        let mut words = told.split(' ').skip(2);
        let outcome = words.next()?;
        let taken = words.next()?.strip_prefix("taken=")?.parse().ok()?;
        (!["5", "6", "9"].contains(&outcome)).then_some(taken)
    }

    /// Sends these bytes, in one piece or cut anywhere, and goes on behind what a
    /// call took, until all are taken or a call is refused.
    pub fn send(&mut self, bytes: &[u8]) {
        let mut rest = bytes;
        while !rest.is_empty() {
            let cut = self.rng.chance(200);
            let piece = if cut { self.rng.between(0, rest.len()) } else { rest.len() };
            let Some(taken) = self.feed(&rest[..piece]) else { return };
            rest = &rest[taken..];
        }
    }

    /// One of these lines.
    pub fn any_line(&mut self, lines: &[&str]) {
        let line = self.rng.pick(lines);
        self.line(line);
    }

    /// A portion call: none, few, as many as are left, or more.
    pub fn portion(&mut self) {
        let record = &self.bench.record;
        let left = record.identity.announced.saturating_sub(record.check.read);
        let some = self.rng.below(left.clamp(1, 65_536) as usize + 1) as u64;
        let above = left.saturating_add(1);
        let choices = [0, 1, some, some, left.saturating_sub(1), left, left, above, u64::MAX];
        let most = self.rng.pick(&choices);
        self.line(&format!("portion {most}"));
    }
}
