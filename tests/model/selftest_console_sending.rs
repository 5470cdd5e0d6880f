//! Self-tests of the console's sender: its worked example, its refusals, its decisions,
//! and whole transfers between both ends.

use crate::console::{answer, bench::Bench};
use crate::selftest::Tally;
use crate::selftest_console::{answers, bench, framed, gives, last_answer, same_lines, value, P6};
use crate::stored::hex;

pub fn run(t: &mut Tally) {
    worked_sender(t);
    all_silent(t);
    opening(t);
    refusals_in_order(t);
    replies_to_asking(t);
    replies_to_telling(t);
    replies_to_the_rest(t);
    both_ends(t);
}

const OFFER: &str = "0A 0000000000000000 010003 25F9E794323B453885F5181F1B624D0B";
const REFUSED: &str = "sender reply 21 decision=none |";

/// A session of the sender, opened for the nine bytes' image.
fn opened(lines: &[&str]) -> String {
    let rest = lines.join("\n");
    format!("write image 0 313233343536373839\nimage 9\nsender open 256 {OFFER}\n{rest}\n")
}

/// The same, its record set so before the line.
fn stands(settings: &str, line: &str) -> String {
    let set = settings.split(',').map(|field| format!("sender set {}", field.trim()));
    let lines: Vec<String> = set.chain([line.to_owned()]).collect();
    opened(&lines.iter().map(String::as_str).collect::<Vec<_>>())
}

/// docs/SENDER.md's example, as the console tells it.
fn worked_sender(t: &mut Tally) {
    let told = format!("sender reply 55AA10FB001A0A00{}2E", "00".repeat(24));
    same_lines(t, &[
        ("write image 0 313233343536373839", "ok"),
        (&format!("sender open 256 {OFFER}"), "sender open 20 |"),
        ("image 9", "ok"),
        (
            &format!("sender open 256 {OFFER}"),
            "sender open 0 | channel=10 version=010003 md5=25F9E794323B453885F5181F1B624D0B \
             size=256 length=9",
        ),
        ("sender request", "sender request 0 frame=55AA00FA00030A010007 past=-"),
        ("sender silence", "sender silence 0 decision=send-again | silences=1"),
        (
            "sender reply 55AA00FA00070A0001000202000F",
            "sender reply 0 decision=go-on | phase=telling silences=0",
        ),
        (
            "sender request",
            "sender request 0 frame=55AA10FB00240A000000000000000001000325F9E794323B453885F5181\
             F1B624D0B00000009CBF439266C past=-",
        ),
        (&told, "sender reply 0 decision=go-on | phase=placing"),
        ("sender request", "sender request 0 frame=55AA00FC00050A000000000A past=-"),
        ("sender reply 55AA00FC00050A000000000A", "sender reply 0 decision=go-on | phase=sending"),
        (
            "sender request",
            "sender request 0 frame=55AA10FD00100A000000094B373132333435363738398E past=-",
        ),
        ("sender reply 55AA00FD00020A0008", "sender reply 0 decision=go-on | phase=ending"),
        ("sender request", "sender request 0 frame=55AA00FE00010A08 past=-"),
        ("sender reply 55AA00FE00020A0009", "sender reply 0 decision=done | phase=done"),
        ("sender request", "sender request 0 frame=- past=-"),
        ("sender reply 55AA00FE00020A0009", "sender reply 21 decision=none |"),
    ]);
}

/// "With all silent the sender sends FA sixteen times (4 legs of 4) and gives up at
/// the sixteenth silence."
fn all_silent(t: &mut Tally) {
    let all = answers(&opened(&["sender silence"; 17]));
    for silence in 1..=16 {
        let decision = match silence {
            16 => "given-up",
            _ if silence % 4 == 0 => "new-leg",
            _ => "send-again",
        };
        t.same(&format!("silence {silence}"), value(&all[2 + silence], "decision"), decision);
    }
    let last = "sender silence 0 decision=given-up | phase=given-up silences=0";
    t.same("the sixteenth", all[18].as_str(), last);
    t.same("one more", all[19].as_str(), "sender silence 0 decision=given-up |");
}

fn opening(t: &mut Tally) {
    for (image, size, wanted) in [
        (1, 16, "0"),
        (1, 15, "20"),
        (0, 16, "20"),
        (1_048_576, 65_535, "0"),
        (1_048_577, 65_535, "20"),
    ] {
        gives(t, &format!("image {image}\nsender open {size} {OFFER}"), wanted);
    }
}

/// "9, 20, 5", and 9's clauses at their edges.
fn refusals_in_order(t: &mut Tally) {
    for (settings, wanted) in [
        ("silences 3, legs 3", "0"),
        ("silences 4", "9"),
        ("legs 4", "9"),
        ("size 15", "9"),
        ("length 0", "9"),
        ("length 1048577", "9"),
        ("length 1048576", "20"),
        ("phase placing, place 9", "0"),
        ("phase placing, place 10, number 5", "9"),
        ("phase placing, place 1, number 18446744073709551615", "0"),
        ("phase sending, place 8", "0"),
        ("phase sending, place 9", "9"),
        ("phase sending, place 8, number 1", "9"),
        ("phase sending, number 72057594037927936", "9"),
        ("phase ending, place 99, number 99", "0"),
    ] {
        gives(t, &stands(settings, "sender request"), wanted);
    }
    gives(t, &opened(&["room 526", "sender request"]), "0");
    gives(t, &opened(&["room 525", "sender request"]), "5");
    gives(t, &opened(&["room 525", "image 8", "sender request"]), "20");
    gives(t, &opened(&["room 525", "sender set phase done", "sender request"]), "5");
    gives(t, &opened(&["sender set phase done", "sender request"]), "0");
    gives(t, &opened(&["image 8", "sender silence"]), "20");
    gives(t, &opened(&["sender set phase done", &format!("sender reply {P6}")]), "21");
}

/// What the sender, standing so, says to this frame.
fn replied(settings: &str, version: u8, command: u8, data: &[u8]) -> String {
    last_answer(&stands(settings, &format!("sender reply {}", framed(version, command, data))))
}

fn replies_to_asking(t: &mut Tally) {
    let asking = "phase asking, silences 2, place 7, number 7";
    for (version, data, wanted) in [
        (
            0,
            &[10, 0, 9, 9, 9, 2, 0][..],
            "sender reply 0 decision=go-on | phase=telling place=0 number=0 silences=0",
        ),
        (
            0,
            &[10, 1, 9, 9, 9, 2, 0],
            "sender reply 0 decision=given-up | phase=given-up place=0 number=0 silences=0",
        ),
        (0, &[10, 2, 1, 0, 2, 2, 0], REFUSED),
        (0, &[10, 0, 1, 0, 2, 2, 1], REFUSED),
        (0, &[11, 0, 1, 0, 2, 2, 0], REFUSED),
        (0x10, &[10, 0, 1, 0, 2, 2, 0], REFUSED),
        (0, &[10, 0, 1, 0, 2, 2], REFUSED),
    ] {
        let told = replied(asking, version, 0xFA, data);
        t.same(&format!("asking, {version} {data:?}"), told.as_str(), wanted);
    }
    for line in ["sender reply", "sender reply 55AA00FA00070A0001000202000F00"] {
        t.same(line, last_answer(&stands(asking, line)).as_str(), REFUSED);
    }
}

fn replies_to_telling(t: &mut Tally) {
    let placing = "sender reply 0 decision=go-on | phase=placing";
    for (state, stored, crc, wanted) in [
        (0, [0, 0, 0, 9], 0xCBF4_3926_u32, &*format!("{placing} place=9")),
        (0, [0, 0, 0, 9], 0xCBF4_3927, placing),
        (0, [0, 0, 0, 10], 0, placing),
        (0, [0xFF; 4], 0, placing),
        (3, [0xFF; 4], 0, "sender reply 0 decision=given-up | phase=given-up"),
        (4, [0; 4], 0, REFUSED),
    ] {
        let data = [&[10, state], &stored[..], &crc.to_be_bytes(), &[9; 16]].concat();
        let told = replied("phase telling", 0x10, 0xFB, &data);
        t.same(&format!("telling, {data:?}"), told.as_str(), wanted);
    }
}

fn replies_to_the_rest(t: &mut Tally) {
    for (offset, wanted) in [
        (9, "sender reply 0 decision=go-on | phase=ending place=0 number=0"),
        (0, "sender reply 0 decision=go-on | phase=sending place=0 number=0"),
        (8, REFUSED),
    ] {
        let told = replied("phase placing, place 9, number 4", 0, 0xFC, &[10, 0, 0, 0, offset]);
        t.same(&format!("placing, {offset}"), told.as_str(), wanted);
    }
    for (legs, state, wanted) in [
        (2, 0, "sender reply 0 decision=go-on | phase=ending place=0 silences=0"),
        (2, 4, "sender reply 0 decision=new-leg | phase=asking place=0 silences=0 legs=3"),
        (3, 1, "sender reply 0 decision=given-up | phase=given-up place=0 silences=0"),
        (2, 5, REFUSED),
    ] {
        let sending = format!("phase sending, place 3, silences 3, legs {legs}");
        let told = replied(&sending, 0, 0xFD, &[10, state]);
        t.same(&format!("sending, legs {legs}, {state}"), told.as_str(), wanted);
    }
    let told = replied("size 16, length 9, phase ending", 0, 0xFE, &[10, 2]);
    t.same("ending, 2", told.as_str(), REFUSED);
    let told = replied("phase ending", 0, 0xFE, &[10, 3]);
    t.same("ending, 3", told.as_str(), "sender reply 0 decision=new-leg | phase=asking legs=1");
}

/// Images of all lengths go over, in as many requests as there are packets and four
/// more.
fn both_ends(t: &mut Tally) {
    for (length, size) in
        [(1, 16), (16, 16), (17, 16), (512, 512), (1025, 65535), (65536, 16), (5000, 300)]
    {
        let mut console = Bench::new();
        let mut told = |line: &str| answer(&mut console, 1, line.as_bytes()).unwrap_or_default();
        let image: Vec<u8> =
            (0..length).map(|place: u32| (place * 7 + place / 251) as u8).collect();
        for (place, part) in image.chunks(16384).enumerate() {
            told(&format!("write image {} {}", place * 16384, hex(part)));
        }
        bench(&[]).lines().for_each(|line| drop(told(line)));
        told(&format!("image {length}"));
        told(&format!("sender open {size} {OFFER}"));
        let mut requests = 0;
        let decision = loop {
            let request = told("sender request");
            let fed = told(&format!("feed {}", value(&request, "frame")));
            requests += 1;
            let mut reply = value(&fed, "reply").to_owned();
            if reply == "-" {
                reply = value(&told("portion 1000000"), "reply").to_owned();
            }
            let told = told(&format!("sender reply {reply}"));
            match value(&told, "decision") {
                "go-on" => {}
                decision => break decision.to_owned(),
            }
        };
        t.same(&format!("{length} bytes by {size}"), decision.as_str(), "done");
        t.same("requests", requests, 4 + length.div_ceil(size.min(512)));
        t.holds("the area's bytes", console.area.lent().starts_with(&image));
    }
}
