//! Self-tests of the console's sessions: the stored one line by line, and what comes
//! up in it and in generated ones.

use std::collections::BTreeMap;

use crate::console::{answer, bench::Bench, console_bytes};
use crate::console_runs::{runs, READ};
use crate::console_stored::{fits, stored, Story};
use crate::selftest::Tally;
use crate::sessions::{session, KINDS};

pub fn run(t: &mut Tally) {
    stored_session(t);
    stored_runs(t);
    generated_sessions(t);
}

/// What the papers ask for, line by line, is what the console writes.
fn stored_session(t: &mut Tally) {
    let counts = told_as_wanted(t, "the stored session", &stored());
    all_come_up(t, "the stored session", &counts, 1);
}

/// So are the further runs. Their text has the lines and line ends that it is for.
fn stored_runs(t: &mut Tally) {
    for run in runs() {
        let counts = told_as_wanted(t, run.name, &run.story);
        let text = run.text().into_bytes();
        t.same("a newline at the end", text.ends_with(b"\n"), run.ended);
        let longest = text.split(|&byte| byte == b'\n').map(<[u8]>::len).max();
        match run.name {
            "console-long-lines" => {
                t.same("lines too long", counts.get("bad a-line"), Some(&4));
                t.same("the longest", longest, Some(200_000));
            }
            "console-many-reads" => {
                t.holds("200,000 bytes", (200_000..220_000).contains(&text.len()));
                t.holds("middle lines", longest < Some(1_200));
                let mut ends = (READ..text.len()).step_by(READ);
                t.holds("each read ends within a line", ends.all(|end| text[end - 1] != b'\n'));
            }
            _ => {}
        }
    }
}

/// Every line gets what it wants; what was shown.
fn told_as_wanted(t: &mut Tally, where_: &str, story: &Story) -> BTreeMap<String, usize> {
    let mut bench = Bench::new();
    let mut counts = BTreeMap::new();
    for (number, entry) in (1..).zip(&story.entries) {
        let told = answer(&mut bench, number, entry.line.as_bytes()).unwrap_or_default();
        count(&mut counts, &told);
        let wanted = entry.wanted.as_deref().unwrap_or("");
        let rest = told.strip_prefix(&format!("{number} ")).unwrap_or(&told);
        let right = fits(rest.trim_end_matches('\n'), wanted);
        let shown = &entry.line[..entry.line.len().min(2_000)];
        t.holds(&format!("{where_}, line {number}: {shown} wants {wanted}"), right);
    }
    counts
}

/// Sessions of all kinds: the text alone gives what the mirror wrote while it was
/// made, and all that can come up does, often.
fn generated_sessions(t: &mut Tally) {
    let mut counts = BTreeMap::new();
    for index in 0..700 {
        let (text, told) = session(index % KINDS.len(), index as u64);
        t.holds("the text gives what the mirror wrote", console_bytes(&text) == told.as_bytes());
        told.lines().for_each(|line| count(&mut counts, line));
    }
    all_come_up(t, "generated sessions", &counts, 3);
}

/// What must come up: every call with every outcome it can give, every decision and
/// verdict, every reply with every state, every message.
const WANTED: [&str; 11] = [
    "feed 0 1 2 3 4 5 6 9 10 12",
    "quiet 0 1 2 3 4 5 6 9 10 12",
    "portion 5 6 9 18 19 right wrong",
    "report 0 9 11",
    "open 0 7 8",
    "sender-open 0 20",
    "sender-request 0 5 9 20",
    "sender-reply 9 20 21 go-on new-leg done given-up",
    "sender-silence 9 20 send-again new-leg done given-up",
    "reply FA-00 FA-01 FB-00 FB-01 FB-02 FB-03 FC-0 FC-stored FD-00 FD-00-again FD-01 FD-02 FD-03 \
     FD-04 FE-00 FE-01 FE-03",
    "bad a-line no-such number-1 number-2 nothing-is bytes-are the-bytes 3-bytes 4-bytes 8-bytes \
     15-bytes 16-bytes 28-bytes",
];

fn all_come_up(t: &mut Tally, where_: &str, counts: &BTreeMap<String, usize>, least: usize) {
    for row in WANTED {
        let (call, rest) = row.split_once(' ').unwrap_or((row, ""));
        for what in rest.split_whitespace() {
            let what = format!("{call} {what}");
            let often = counts.get(&what).copied().unwrap_or(0);
            let long_line = least == 1 && what == "bad a-line"; // a run of its own has it
            t.holds(&format!("{what} comes up in {where_}"), long_line || often >= least);
        }
    }
}

/// Counts a written line under what it shows.
fn count(counts: &mut BTreeMap<String, usize>, told: &str) {
    let mut note = |what: String| *counts.entry(what).or_insert(0) += 1;
    let words: Vec<&str> = told.split_whitespace().collect();
    match words[..] {
        [_, "sender", call, outcome, ..] => {
            note(format!("sender-{call} {outcome}"));
            let decision = words.iter().find_map(|word| word.strip_prefix("decision="));
            note(format!("sender-{call} {}", decision.unwrap_or_default()));
        }
        [_, "bad", first, second, ..] => note(format!("bad {first}-{second}")),
        [_, call, outcome, ..] => {
            note(format!("{call} {outcome}"));
            let verdict = words.iter().find_map(|word| word.strip_prefix("verdict="));
            note(format!("{call} {}", verdict.unwrap_or_default()));
            if let Some(reply) = words.iter().find_map(|word| word.strip_prefix("reply=55AA")) {
                let nothing_changed = words.ends_with(&["area=-", "|"]);
                note(format!("reply {}", state(reply, nothing_changed)));
            }
        }
        _ => {}
    }
}

/// Command and state of a reply, its first four digits left out.
fn state(reply: &str, nothing_changed: bool) -> String {
    let (command, state) = (&reply[2..4], &reply[10..12]);
    match (command, state) {
        ("FC", _) if reply[10..18].bytes().all(|digit| digit == b'0') => "FC-0".into(),
        ("FC", _) => "FC-stored".into(),
        ("FD", "00") if nothing_changed => "FD-00-again".into(),
        _ => format!("{command}-{state}"),
    }
}
