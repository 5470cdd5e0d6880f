//! The stored session: the sender's silences and legs, its outcome 9, and both ends
//! together.

use crate::console_stored::{
    fa_reply, fb_reply, fd_reply, fe_reply, second_image, Story, BOARDS, SECOND, SECOND_SOFT,
};
use crate::console_stored_sender::{
    all_refused, no_request, not_taken, open, reply, request, set, silence,
};
use crate::crc::crc32;
use crate::stored::hex;
use crate::wire::{fa, fb, fc, fd, fe, Image};

pub fn silences_and_legs(s: &mut Story) {
    s.group("The sender: a fourth silence ends the leg; instead of a fourth new leg it gives up.");
    let image = second_image();
    open(s, 16, "0 | phase=asking legs=0");
    for leg in 0..4 {
        for count in 1..=3 {
            silence(s, &format!("0 decision=send-again | silences={count}"));
        }
        match leg {
            3 => silence(s, "0 decision=given-up | phase=given-up silences=0"),
            _ => silence(s, &format!("0 decision=new-leg | silences=0 legs={}", leg + 1)),
        }
    }
    silence(s, "0 decision=given-up |");
    s.note("A refused reply is no reply: the silences stay. One that is taken begins anew.");
    open(s, 16, "0 | phase=asking legs=0");
    for _ in 0..2 {
        silence(s, "0 decision=send-again | ..");
    }
    not_taken(s, &fd_reply(SECOND, 0));
    silence(s, "0 decision=send-again | silences=3");
    not_taken(s, &[]);
    reply(s, &fa_reply(SECOND, 0, SECOND_SOFT), "0 decision=go-on | phase=telling silences=0");
    silence(s, "0 decision=send-again | silences=1");
    reply(s, &fb_reply(SECOND, 0, 0, 0), "0 decision=go-on | phase=placing silences=0");
    silence(s, "0 decision=send-again | silences=1");
    reply(s, &fc(SECOND, 0), "0 decision=go-on | phase=sending silences=0");
    for place in [16, 32] {
        for count in 1..=3 {
            silence(s, &format!("0 decision=send-again | silences={count}"));
        }
        reply(
            s,
            &fd_reply(SECOND, 0),
            &format!("0 decision=go-on | place={place} number={} silences=0", place / 16),
        );
    }
    request(s, &fd(SECOND, 2, &image.bytes[32..]));
    s.note("Silence in a leg that had gone far: from FA again. Legs do not begin anew.");
    set(s, &["silences 3"]);
    silence(s, "0 decision=new-leg | phase=asking place=0 number=0 silences=0 legs=1");
    reply(s, &fa_reply(SECOND, 0, SECOND_SOFT), "0 decision=go-on | phase=telling");
    let third = fb_reply(SECOND, 0, 32, crc32(&image.bytes[..32]));
    reply(s, &third, "0 decision=go-on | phase=placing place=32");
    reply(s, &fc(SECOND, 32), "0 decision=go-on | phase=sending");
    request(s, &fd(SECOND, 0, &image.bytes[32..]));
    reply(s, &fd_reply(SECOND, 1), "0 decision=new-leg | phase=asking place=0 legs=2");
    set(s, &["phase ending"]);
    reply(s, &fe_reply(SECOND, 3), "0 decision=new-leg | phase=asking legs=3");
    set(s, &["phase ending", "silences 1"]);
    reply(s, &fe_reply(SECOND, 1), "0 decision=given-up | phase=given-up silences=0");
    fourth_silences(s, &image);
}

/// A fourth silence in the phases that are left, and all that ends the last leg.
fn fourth_silences(s: &mut Story, image: &Image) {
    s.note("A fourth silence in telling, in placing and in ending: from FA again, a leg each.");
    let granted = fa_reply(SECOND, 0, SECOND_SOFT);
    let told = |count: usize| fb_reply(SECOND, 0, count as u32, crc32(&image.bytes[..count]));
    let four = |s: &mut Story, changes: &str| {
        for count in 1..=3 {
            silence(s, &format!("0 decision=send-again | silences={count}"));
        }
        silence(s, &format!("0 decision=new-leg | phase=asking {changes}"));
    };
    open(s, 16, "0 | phase=asking legs=0");
    reply(s, &granted, "0 decision=go-on | phase=telling");
    four(s, "silences=0 legs=1");
    reply(s, &granted, "0 decision=go-on | phase=telling");
    reply(s, &told(16), "0 decision=go-on | phase=placing place=16");
    four(s, "place=0 silences=0 legs=2");
    reply(s, &granted, "0 decision=go-on | phase=telling");
    reply(s, &told(40), "0 decision=go-on | phase=placing place=40");
    reply(s, &fc(SECOND, 40), "0 decision=go-on | phase=ending place=0");
    request(s, &fe(SECOND));
    four(s, "silences=0 legs=3");
    s.note("Three new legs were begun: a fourth silence gives up in all these phases.");
    for (phase, place, number, zeroed) in [
        ("telling", 0, 0, ""),
        ("placing", 16, 0, "place=0 "),
        ("sending", 16, 1, "place=0 number=0 "),
        ("ending", 0, 0, ""),
    ] {
        set(s, &[&format!("phase {phase}"), &format!("place {place}")]);
        set(s, &[&format!("number {number}"), "silences 3"]);
        silence(s, &format!("0 decision=given-up | phase=given-up {zeroed}silences=0"));
    }
    s.note("So do FD 01 to 04, and FE 03.");
    for state in 1..=4 {
        set(s, &["phase sending", "place 16", "number 1", "silences 1"]);
        let changes = "phase=given-up place=0 number=0 silences=0";
        reply(s, &fd_reply(SECOND, state), &format!("0 decision=given-up | {changes}"));
    }
    set(s, &["phase ending"]);
    reply(s, &fe_reply(SECOND, 3), "0 decision=given-up | phase=given-up");
}

pub fn edges(s: &mut Story) {
    s.group("The sender: outcome 9 exactly at its edges. In done and given-up it comes first too.");
    const MOST: &str = "18446744073709551615";
    let lawful = |s: &mut Story, field: &str| {
        set(s, &[field]);
        s.line("sender request", "sender request 0 ..");
    };
    let broken = |s: &mut Story, field: &str| {
        set(s, &[field]);
        no_request(s, 9);
    };
    open(s, 16, "0 | phase=asking legs=0");
    broken(s, "size 15");
    broken(s, "size 0");
    lawful(s, "size 65535");
    lawful(s, "size 16");
    s.note("Length: 0 is 9; others that are not the image's are 20, above 1,048,576 again 9.");
    broken(s, "length 0");
    for (length, outcome) in [("1", 20), ("1048576", 20), ("1048577", 9), (MOST, 9)] {
        set(s, &[&format!("length {length}")]);
        no_request(s, outcome);
    }
    lawful(s, "length 40");
    for field in ["silences", "legs"] {
        for value in ["4", "256", MOST] {
            broken(s, &format!("{field} {value}"));
        }
        silence(s, "9 decision=none |");
        lawful(s, &format!("{field} 3"));
        lawful(s, &format!("{field} 0"));
    }
    s.note(
        "Place and number: not looked at in asking, telling, ending, done and given-up, and kept.",
    );
    set(s, &[&format!("place {MOST}"), &format!("number {MOST}")]);
    for phase in ["asking", "telling", "ending", "done", "given-up"] {
        lawful(s, &format!("phase {phase}"));
    }
    set(s, &["phase asking"]);
    silence(s, "0 decision=send-again | silences=1");
    not_taken(s, &[]);
    reply(
        s,
        &fa_reply(SECOND, 0, SECOND_SOFT),
        "0 decision=go-on | phase=telling place=0 number=0 silences=0",
    );
    s.note("Placing: place at most the length, any number.");
    set(s, &["phase placing", &format!("number {MOST}")]);
    for value in ["41", "4294967296", MOST] {
        broken(s, &format!("place {value}"));
    }
    lawful(s, "place 40");
    lawful(s, "place 0");
    s.note(
        "Sending: place below the length, number times 16 at most place; 2^60 times 16 is not 0.",
    );
    set(s, &["number 0", "phase sending"]);
    for value in ["40", "41", MOST] {
        broken(s, &format!("place {value}"));
    }
    lawful(s, "place 39");
    lawful(s, "number 2");
    broken(s, "number 3");
    broken(s, "number 1152921504606846976");
    broken(s, &format!("number {MOST}"));
    lawful(s, "number 1");
    lawful(s, "place 16");
    broken(s, "place 15");
    s.note("The packet is at most 512: number 1 at place 512, size 65,535.");
    s.lines(&["image 600"]);
    set(s, &["size 65535", "length 600"]);
    broken(s, "place 511");
    lawful(s, "place 512");
    broken(s, "number 2");
    s.note("The longest image, its last packet: number 65,535.");
    s.lines(&["image 1048576"]);
    set(s, &["size 16", "length 1048576", "number 65535"]);
    broken(s, "place 1048559");
    lawful(s, "place 1048560");
    s.lines(&["image 40"]);
    s.note("Done and given-up: 9 before 20, and 20 before 5 and 21, for request, reply, silence.");
    open(s, 16, "0 | length=40 phase=asking place=0 number=0");
    for phase in ["done", "given-up"] {
        set(s, &[&format!("phase {phase}")]);
        ended(s, phase);
    }
}

/// The calls of a sender that has ended in this phase, as all refusals meet them.
fn ended(s: &mut Story, phase: &str) {
    let right = fe_reply(SECOND, 0);
    s.lines(&["room 525", "image 39"]);
    all_refused(s, 20, &right);
    set(s, &["legs 4"]);
    all_refused(s, 9, &right);
    s.lines(&["room 65536", "image 40"]);
    all_refused(s, 9, &right);
    set(s, &["legs 0"]);
    for (broken, back) in [("size 15", "size 16"), ("length 0", "length 40")] {
        set(s, &[broken]);
        all_refused(s, 9, &right);
        set(s, &[back]);
    }
    set(s, &["silences 4"]);
    silence(s, "9 decision=none |");
    set(s, &["silences 0"]);
    s.lines(&["image 41"]);
    all_refused(s, 20, &right);
    s.lines(&["image 40"]);
    no_request(s, 0);
    not_taken(s, &right);
    silence(s, &format!("0 decision={phase} |"));
}

pub fn both_ends(s: &mut Story) {
    let image = second_image();
    s.group(
        "Both ends: each request fed to the controller, each reply given back, with a lost leg.",
    );
    for (place, board) in BOARDS.iter().enumerate() {
        s.line(&format!("board {place} {board}"), "ok");
    }
    s.lines(&["area 100", "write area 0 0000000000000000"]);
    s.line("open 4 100", "open 0 | ..");
    open(s, 20, "0 | ..");
    let turn = |s: &mut Story, asked: &[u8], answer: &[u8], sender: &str| {
        request(s, asked);
        s.feed(asked, &format!("0 .. reply={} past=.. | ..", hex(answer)));
        reply(s, answer, sender);
    };
    turn(s, &fa(SECOND, 20), &fa_reply(SECOND, 0, SECOND_SOFT), "0 decision=go-on | phase=telling");
    turn(s, &fb(SECOND, &image), &fb_reply(SECOND, 0, 0, 0), "0 decision=go-on | phase=placing");
    turn(s, &fc(SECOND, 0), &fc(SECOND, 0), "0 decision=go-on | phase=sending");
    let (one, two) = image.bytes.split_at(20);
    turn(s, &fd(SECOND, 0, one), &fd_reply(SECOND, 0), "0 decision=go-on | place=20 number=1");
    s.note("The reply to the second packet is lost: it is sent again, and still lost; a new leg.");
    request(s, &fd(SECOND, 1, two));
    s.feed(&fd(SECOND, 1, two), "0 .. | next=2 stored=40");
    silence(s, "0 decision=send-again | silences=1");
    s.feed(&fd(SECOND, 1, two), "0 .. |");
    for count in 2..=3 {
        silence(s, &format!("0 decision=send-again | silences={count}"));
    }
    silence(s, "0 decision=new-leg | phase=asking place=0 number=0 silences=0 legs=1");
    s.note("A stored byte changed meanwhile: the CRC-32 is not the image's, so from 0 again.");
    s.lines(&["write area 30 00"]);
    turn(s, &fa(SECOND, 20), &fa_reply(SECOND, 0, SECOND_SOFT), "0 decision=go-on | phase=telling");
    let mut stored = image.bytes.clone();
    stored[30] = 0;
    let bad = fb_reply(SECOND, 0, 40, crc32(&stored));
    turn(s, &fb(SECOND, &image), &bad, "0 decision=go-on | phase=placing");
    turn(s, &fc(SECOND, 0), &fc(SECOND, 0), "0 decision=go-on | phase=sending");
    turn(s, &fd(SECOND, 0, one), &fd_reply(SECOND, 0), "0 decision=go-on | place=20 number=1");
    s.note("Resumed in a third leg at 20, after FD 04: the controller was told FA by somebody.");
    s.feed(&fa(SECOND, 20), "0 .. | phase=asked");
    turn(
        s,
        &fd(SECOND, 1, two),
        &fd_reply(SECOND, 4),
        "0 decision=new-leg | phase=asking place=0 number=0 legs=2",
    );
    turn(s, &fa(SECOND, 20), &fa_reply(SECOND, 0, SECOND_SOFT), "0 decision=go-on | phase=telling");
    let half = fb_reply(SECOND, 0, 20, crc32(one));
    turn(s, &fb(SECOND, &image), &half, "0 decision=go-on | phase=placing place=20");
    turn(s, &fc(SECOND, 20), &fc(SECOND, 20), "0 decision=go-on | phase=sending");
    turn(s, &fd(SECOND, 0, two), &fd_reply(SECOND, 0), "0 decision=go-on | phase=ending place=0");
    request(s, &fe(SECOND));
    s.feed(&fe(SECOND), "0 .. reply=- .. | checking=1 ..");
    s.line("portion 25", "portion 19 count=25 ..");
    s.line(
        "portion 25",
        &format!("portion 0 count=15 verdict=right reply={} ..", hex(&fe_reply(SECOND, 0))),
    );
    reply(s, &fe_reply(SECOND, 0), "0 decision=done | phase=done");
    s.note("Another image, whose version is not newer: FB 02, given up.");
    s.line(
        "sender open 16 0C 0102030405060708 020500 00000000000000000000000000000000",
        "sender open 0 | ..",
    );
    turn(s, &fa(SECOND, 16), &fa_reply(SECOND, 0, SECOND_SOFT), "0 decision=go-on | phase=telling");
    let old = Image { version: [2, 5, 0], md5: [0; 16], ..image };
    turn(s, &fb(SECOND, &old), &fb_reply(SECOND, 2, 0, 0), "0 decision=given-up | phase=given-up");
    s.line("show", "show | ..");
}
