//! The stored session: outcome 9 "exactly when", every clause at its edge. `report`
//! shows it at the least cost: 0 for a lawful record, 9 for another.

use crate::console_stored::{fe_reply, Story};
use crate::stored::hex;
use crate::wire::{fa, fe};

fn lawful(s: &mut Story, line: &str) {
    s.line(line, "set | ..");
    s.line("report", "report 0 ..");
}

fn broken(s: &mut Story, line: &str) {
    s.line(line, "set | ..");
    s.line("report", "report 9 frame=- past=-");
}

/// A field with values that are lawful and others that are not, and back.
fn edge(s: &mut Story, field: &str, right: &[&str], wrong: &[&str], back: &str) {
    for value in wrong {
        broken(s, &format!("set {field} {value}"));
    }
    for value in right {
        lawful(s, &format!("set {field} {value}"));
    }
    lawful(s, &format!("set {field} {back}"));
}

const MOST: &str = "18446744073709551615";

/// Two boards, opened 1,000; receiving on 10 with 600 bytes announced and stored.
fn receiving(s: &mut Story) {
    s.lines(&[
        "board 0 1 0A 010002 010000 0000000000000000",
        "board 1 1 0C 020500 020001 0102030405060708",
        "area 1000",
    ]);
    s.line("open 2 1000", "open 0 | ..");
    s.lines(&["set announced 600", "set stored 600", "set last 16"]);
    s.lines(&["set channel 10", "set agreed 16", "set next 2", "set phase receiving"]);
    s.line("report", "report 0 ..");
}

pub fn list_and_held(s: &mut Story) {
    s.group(
        "Outcome 9: list, opened length, held. A receiving record of two boards, opened 1,000.",
    );
    receiving(s);
    edge(s, "holding", &["0", "526"], &["527", "4294967296", MOST], "0");
    s.note("Boards: 1 to 10. Ten of them, channels 10, 12, 11, 13, 14 .. 19.");
    edge(s, "boards", &["1", "2"], &["0", "3", "10", "11", "4294967298", MOST], "2");
    for (place, channel) in
        [(2, "0B"), (3, "0D"), (4, "0E"), (5, "0F"), (6, "10"), (7, "11"), (8, "12"), (9, "13")]
    {
        let rest = "000000 000000 0000000000000000";
        s.line(&format!("set board {place} 0 {channel} {rest}"), "set | ..");
    }
    edge(s, "boards", &["3", "9", "10"], &["0", "11", MOST], "10");
    s.note("A channel twice, at places 8 and 9, 0 and 9, 4 and 5; then not in use any more.");
    let rest = "000000 000000 0000000000000000";
    for (place, twice, right) in
        [(9, "12", "13"), (9, "0A", "13"), (5, "0E", "0F"), (8, "0C", "12")]
    {
        broken(s, &format!("set board {place} 0 {twice} {rest}"));
        lawful(s, &format!("set boards {place}"));
        broken(s, "set boards 10");
        lawful(s, &format!("set board {place} 0 {right} {rest}"));
    }
    s.note("Channels 10 to 19, at the last place in use; any in places that are not.");
    lawful(s, "set boards 2");
    for channel in ["09", "14", "1D", "00", "FF", "0A"] {
        broken(s, &format!("set board 1 1 {channel} 020500 020001 0102030405060708"));
    }
    for channel in ["13", "0B", "0C"] {
        lawful(s, &format!("set board 1 1 {channel} 020500 020001 0102030405060708"));
    }
    for channel in ["0A", "FF", "00"] {
        lawful(s, &format!("set board 2 1 {channel} FFFFFF FFFFFF FFFFFFFFFFFFFFFF"));
    }
    s.note("Opened 1 to 1,048,576, announced being below it.");
    lawful(s, "set phase idle");
    s.lines(&["set last 0", "set stored 0", "set announced 0"]);
    edge(s, "opened", &["1", "1048576"], &["0", "1048577", "4294967297", MOST], "1000");
    s.note("All calls look: a frame is held, and the opened length is 0. Then it comes out.");
    let end = hex(&fe(10));
    s.line(&format!("set held 0 {end}"), &format!("set | held=0:{end}"));
    s.lines(&["set holding 8", "set opened 0"]);
    s.feed(&fe(10), "9 taken=0 dropped=0 .. |");
    s.line("quiet", "quiet 9 .. |");
    s.line("portion 1", "portion 9 .. |");
    s.line("set opened 1000", "set | opened=1000");
    let reply = hex(&fe_reply(10, 3));
    s.line(
        "quiet",
        &format!(
            "quiet 0 taken=0 dropped=0 command=FE length=1 reply={reply} past=- area=- | \
             holding=0 held=0:0000000000000000"
        ),
    );
}

pub fn numbers(s: &mut Story) {
    s.group("Outcome 9: stored, announced, next number, last length, in receiving and in idle.");
    receiving(s);
    for phase in ["receiving", "idle"] {
        lawful(s, &format!("set phase {phase}"));
        edge(s, "stored", &["600", "16"], &["601", "15", MOST], "600");
        edge(s, "announced", &["600", "1000"], &["599", "1001", MOST], "600");
        edge(s, "next", &["0", "65536"], &["65537", "4294967296", MOST], "2");
        edge(s, "last", &["0", "512"], &["513", "600", MOST], "16");
    }
    s.note("The last length is at most stored, below 512 as well.");
    s.lines(&["set stored 20"]);
    edge(s, "last", &["20"], &["21"], "16");
}

pub fn phases(s: &mut Story) {
    s.group("Outcome 9: session's channel, agreed size, announced 0, phase by phase.");
    receiving(s);
    for phase in ["asked", "told", "receiving", "done"] {
        lawful(s, &format!("set phase {phase}"));
        edge(s, "agreed", &["16", "512"], &["15", "513", "0", "65552", MOST], "16");
        edge(s, "channel", &["10", "12"], &["11", "9", "0", "255"], "10");
    }
    s.note("Idle: any channel and agreed size, and they stay.");
    lawful(s, "set phase idle");
    edge(s, "agreed", &["15", "513", "0", MOST], &[], "7");
    edge(s, "channel", &["11", "0"], &[], "255");
    s.line("quiet", "quiet 1 taken=0 dropped=0 command=00 length=0 reply=- past=- area=- |");
    s.answered(&fa(12, 15), &crate::wire::frame(0, 0xFA, &[12, 1, 2, 5, 0, 2, 0]), "|");
    s.note("Any identity's channel in any phase.");
    s.lines(&["set channel 10", "set agreed 16"]);
    edge(s, "image-channel", &["0", "255", "12"], &[], "10");
    lawful(s, "set phase receiving");
    edge(s, "image-channel", &["0", "255", "12"], &[], "10");
    s.note("Announced 0: lawful in idle and asked only. Announced 1: in all phases.");
    s.lines(&["set last 0", "set stored 0", "set announced 0"]);
    for (phase, right) in
        [("idle", true), ("asked", true), ("told", false), ("receiving", false), ("done", false)]
    {
        match right {
            true => lawful(s, &format!("set phase {phase}")),
            false => broken(s, &format!("set phase {phase}")),
        }
    }
    s.lines(&["set announced 1"]);
    for phase in ["idle", "asked", "told", "receiving", "done"] {
        lawful(s, &format!("set phase {phase}"));
    }
}

pub fn checks(s: &mut Story) {
    s.group("Outcome 9: a running check: read below announced, all stored, receiving or done.");
    receiving(s);
    s.lines(&["set checking 1"]);
    for phase in ["receiving", "done"] {
        lawful(s, &format!("set phase {phase}"));
        edge(s, "read", &["599", "0"], &["600", "601", MOST], "599");
        edge(s, "stored", &["600"], &["599", "16"], "600");
    }
    for phase in ["idle", "asked", "told"] {
        broken(s, &format!("set phase {phase}"));
    }
    s.line("portion 1", "portion 9 count=0 verdict=unfinished reply=- past=- |");
    s.lines(&["set phase receiving"]);
    s.note("A check of one byte: read 0 is all there is.");
    s.lines(&["set last 0", "set announced 1", "set stored 1"]);
    edge(s, "read", &["0"], &["1"], "0");
    s.note(
        "No check: read and register may be anything, stored too, in every phase, and they stay.",
    );
    s.lines(&["set checking 0", "set register 01020304", "set announced 600"]);
    edge(s, "read", &["600", "1", MOST], &[], "700");
    for phase in ["idle", "asked", "told", "receiving", "done"] {
        lawful(s, &format!("set phase {phase}"));
    }
    s.line("quiet", "quiet 1 .. past=- area=- |");
    s.answered(&fe(10), &fe_reply(10, 1), "|");
    s.note("A check that starts sets them, whatever they were.");
    s.lines(&["set stored 600"]);
    s.feed(&fe(10), "0 .. reply=- past=- area=- | checking=1 read=0 register=FFFFFFFF");
    s.line("portion 1", "portion 19 count=1 ..");
    s.note("A check goes on from its register, at any place: zeros over 00000000 leave it.");
    s.line(&format!("write area 0 {}", "00".repeat(50)), "ok");
    s.lines(&["set read 0", "set register 00000000"]);
    s.line("portion 50", "portion 19 count=50 verdict=unfinished reply=- past=- | read=50");
    s.lines(&["set checking 0"]);
}
