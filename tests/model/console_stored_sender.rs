//! The stored session: the sender's calls, and both ends together.

use crate::console_stored::{
    fa_reply, fb_reply, fd_reply, fe_reply, second_image, Story, FIRST, SECOND, SECOND_SOFT,
};
use crate::crc::crc32;
use crate::stored::hex;
use crate::wire::{fa, fb, fc, fd, fe, frame};

/// The sender stands at this request.
pub fn request(s: &mut Story, frame: &[u8]) {
    s.line("sender request", &format!("sender request 0 frame={} past=-", hex(frame)));
}

pub fn no_request(s: &mut Story, outcome: u8) {
    s.line("sender request", &format!("sender request {outcome} frame=- past=-"));
}

pub fn reply(s: &mut Story, frame: &[u8], wanted: &str) {
    let line = match frame {
        [] => "sender reply".into(),
        _ => format!("sender reply {}", hex(frame)),
    };
    s.line(&line, &format!("sender reply {wanted}"));
}

/// A reply that outcome 21 refuses.
pub fn not_taken(s: &mut Story, frame: &[u8]) {
    reply(s, frame, "21 decision=none |");
}

pub fn silence(s: &mut Story, wanted: &str) {
    s.line("sender silence", &format!("sender silence {wanted}"));
}

/// All three calls refused by this outcome; a reply of no bytes, and this one.
pub fn all_refused(s: &mut Story, outcome: u8, frame: &[u8]) {
    no_request(s, outcome);
    for bytes in [&[], frame] {
        reply(s, bytes, &format!("{outcome} decision=none |"));
    }
    silence(s, &format!("{outcome} decision=none |"));
}

pub fn set(s: &mut Story, fields: &[&str]) {
    for field in fields {
        s.line(&format!("sender set {field}"), "sender set | ..");
    }
}

/// Opening for `SECOND` with this packet size.
pub fn open(s: &mut Story, size: u16, wanted: &str) {
    let image = second_image();
    let offer =
        format!("{SECOND:02X} {} {} {}", hex(&image.pid), hex(&image.version), hex(&image.md5));
    s.line(&format!("sender open {size} {offer}"), &format!("sender open {wanted}"));
}

const FRESH: &str =
    "channel=12 pid=0102030405060708 version=020501 md5=1032547698BADCFE0102030405060708";
const ZERO: &str =
    "channel=0 pid=0000000000000000 version=000000 md5=00000000000000000000000000000000";

pub fn opening_and_requests(s: &mut Story) {
    let image = second_image();
    s.group("The sender: opening. 20: a size below 16, an image that is empty or above 1,048,576.");
    s.line(&format!("write room 0 {}", "EE".repeat(600)), "ok");
    s.line(&format!("write image 0 {}", hex(&image.bytes)), "ok");
    open(s, 16, "20 |");
    s.lines(&["image 40"]);
    open(s, 15, "20 |");
    open(s, 0, "20 |");
    open(s, 16, &format!("0 | {FRESH} size=16 length=40"));
    s.note("A refused opening gives the all-zero record.");
    s.lines(&["image 1048577"]);
    open(s, 16, &format!("20 | {ZERO} size=0 length=0"));
    no_request(s, 9);
    s.lines(&["image 1048576"]);
    open(s, 65_535, &format!("0 | {FRESH} size=65535 length=1048576"));
    s.line("sender show", &format!("sender show | {FRESH} size=65535 length=1048576"));
    s.lines(&["image 1"]);
    open(s, 16, "0 | size=16 length=1");
    s.lines(&["image 40"]);
    open(s, 16, "0 | length=40");
    s.group("The sender: next request. 9, 20, then 5 below 526 bytes, in every phase.");
    request(s, &fa(SECOND, 16));
    request(s, &fa(SECOND, 16));
    for (phase, first) in [
        ("asking", fa(SECOND, 16)),
        ("telling", fb(SECOND, &image)),
        ("placing", fc(SECOND, 16)),
        ("sending", fd(SECOND, 1, &image.bytes[16..32])),
        ("ending", fe(SECOND)),
        ("done", Vec::new()),
        ("given-up", Vec::new()),
    ] {
        s.line(&format!("sender set phase {phase}"), "sender set | ..");
        set(s, &["place 16", "number 1"]);
        s.lines(&["room 525"]);
        no_request(s, 5);
        s.lines(&["room 526"]);
        match first.is_empty() {
            true => no_request(s, 0),
            false => request(s, &first),
        }
    }
    s.note("The last packet is what is left; above 512 the packet has 512.");
    set(s, &["phase sending", "place 32", "number 2"]);
    request(s, &fd(SECOND, 2, &image.bytes[32..]));
    set(s, &["size 65535", "place 0", "number 0", "length 600"]);
    s.lines(&["image 600"]);
    let long: Vec<u8> = [&image.bytes[..], &[0; 560]].concat();
    request(s, &fd(SECOND, 0, &long[..512]));
    reply(s, &fd_reply(SECOND, 0), "0 decision=go-on | place=512 number=1");
    request(s, &fd(SECOND, 1, &long[512..]));
    s.note("FB's CRC-32 is that of the image as it now is.");
    set(s, &["size 16", "length 40", "phase telling"]);
    s.lines(&["image 40", "write image 7 00"]);
    let mut changed = image.clone();
    changed.bytes[7] = 0;
    changed.crc32 = crc32(&changed.bytes);
    request(s, &fb(SECOND, &changed));
    s.line(&format!("write image 7 {:02X}", image.bytes[7]), "ok");
    s.note("The orders: 9 before 20 before 5; 9 before 20 before 21.");
    let told = fb_reply(SECOND, 0, 0, 0);
    s.lines(&["room 525", "image 39"]);
    all_refused(s, 20, &told);
    set(s, &["legs 4"]);
    all_refused(s, 9, &told);
    s.lines(&["image 40"]);
    all_refused(s, 9, &told);
    set(s, &["legs 0"]);
    s.lines(&["image 41"]);
    all_refused(s, 20, &told);
    s.lines(&["image 40"]);
    not_taken(s, &[]);
    s.lines(&["room 65536"]);
}

pub fn replies(s: &mut Story) {
    let image = second_image();
    s.group("The sender: replies. 21 for all that document 01 never gives there.");
    open(s, 16, "0 | phase=asking place=0 number=0");
    let granted = fa_reply(SECOND, 0, SECOND_SOFT);
    s.note("Not one whole frame: nothing, a byte less, a byte before, behind, a wrong sum, two.");
    let mut wrong_sum = granted.clone();
    wrong_sum[13] += 1;
    let (before, behind) = ([&[0], &granted[..]].concat(), [&granted[..], &[0]].concat());
    for bytes in [&[][..], &granted[..13], &before, &behind, &wrong_sum, &granted.repeat(2)] {
        not_taken(s, bytes);
    }
    s.note("FA: version byte, command, L 6 and 8, channel, flag 2; Len2 511, 513, 0, and 00 02,");
    s.note("which is 512 with its bytes swapped.");
    let data = &granted[6..13];
    let with = |place: usize, byte: u8| {
        let mut data = data.to_vec();
        data[place] = byte;
        frame(0x00, 0xFA, &data)
    };
    not_taken(s, &frame(0x10, 0xFA, data));
    not_taken(s, &frame(0x00, 0xFB, data));
    not_taken(s, &frame(0x00, 0xFA, &data[..6]));
    not_taken(s, &frame(0x00, 0xFA, &[data, &[0]].concat()));
    not_taken(s, &with(0, FIRST));
    not_taken(s, &with(1, 2));
    not_taken(s, &frame(0x00, 0xFA, &[SECOND, 0, 2, 5, 0, 1, 255]));
    not_taken(s, &with(6, 1));
    not_taken(s, &with(5, 0));
    not_taken(s, &frame(0x00, 0xFA, &[SECOND, 0, 2, 5, 0, 0, 2]));
    s.note("The version is not looked at. Flag 1 gives up, once for all.");
    reply(s, &with(2, 99), "0 decision=go-on | phase=telling");
    set(s, &["phase asking", "silences 2", "legs 1"]);
    reply(s, &fa_reply(SECOND, 1, SECOND_SOFT), "0 decision=given-up | phase=given-up silences=0");
    not_taken(s, &granted);
    no_request(s, 0);
    silence(s, "0 decision=given-up |");
    s.note("FB: L 25 and 27, version byte, channel, state 4, command: FA's reply again, FC with");
    s.note("all else as FB's. States 1 to 3 give up.");
    set(s, &["phase telling"]);
    let told = fb_reply(SECOND, 0, 0, 0);
    not_taken(s, &frame(0x10, 0xFB, &told[6..31]));
    not_taken(s, &frame(0x10, 0xFB, &[&told[6..32], &[0]].concat()));
    not_taken(s, &frame(0x00, 0xFB, &told[6..32]));
    not_taken(s, &fb_reply(FIRST, 0, 0, 0));
    not_taken(s, &fb_reply(SECOND, 4, 0, 0));
    not_taken(s, &granted);
    not_taken(s, &frame(0x10, 0xFC, &told[6..32]));
    for (state, stored) in [(1, 0), (2, 16), (3, u32::MAX)] {
        let refused = fb_reply(SECOND, state, stored, 7);
        reply(s, &refused, "0 decision=given-up | phase=given-up");
        set(s, &["phase telling"]);
    }
    s.note("FB 00: stored and CRC-32 as in the image: that place, else 0; any MD5 field.");
    let crc = |count: usize| crc32(&image.bytes[..count]);
    for (stored, crc, place) in [
        (16, crc(16), 16),
        (16, crc(16) ^ 1, 0),
        (16, crc(15), 0),
        (39, crc(39), 39),
        (40, crc(40), 40),
        (41, crc(40), 0),
        (41, crc32(&[&image.bytes[..], &[0]].concat()), 0),
        (0, 0, 0),
        (0, 1, 0),
        (u32::MAX, 0, 0),
    ] {
        let place = if place == 0 { String::new() } else { format!(" place={place}") };
        let wanted = format!("0 decision=go-on | phase=placing{place}");
        reply(s, &fb_reply(SECOND, 0, stored, crc), &wanted);
        set(s, &["phase telling", "place 0"]);
    }
    let data = [&[SECOND, 0, 0, 0, 0, 16][..], &crc(16).to_be_bytes(), &[0xA5; 16]].concat();
    reply(s, &frame(0x10, 0xFB, &data), "0 decision=go-on | phase=placing place=16");
    s.note("FC: the asked offset or 0, else 21; channel, version byte, L 6 and 4; command: FD 00,");
    s.note("FD with all else as FC's. Below the length it sends, else it ends.");
    request(s, &fc(SECOND, 16));
    not_taken(s, &fc(SECOND, 15));
    not_taken(s, &fc(SECOND, 17));
    not_taken(s, &fc(FIRST, 16));
    not_taken(s, &frame(0x10, 0xFC, &[SECOND, 0, 0, 0, 16]));
    not_taken(s, &frame(0x00, 0xFC, &[SECOND, 0, 0, 0, 16, 0]));
    not_taken(s, &frame(0x00, 0xFC, &[SECOND, 0, 0, 16]));
    not_taken(s, &frame(0x00, 0xFC, &[SECOND, 0, 0, 0]));
    not_taken(s, &fd_reply(SECOND, 0));
    not_taken(s, &frame(0x00, 0xFD, &[SECOND, 0, 0, 0, 16]));
    reply(s, &fc(SECOND, 16), "0 decision=go-on | phase=sending");
    set(s, &["phase placing", "number 7"]);
    reply(s, &fc(SECOND, 0), "0 decision=go-on | phase=sending place=0 number=0");
    set(s, &["phase placing", "place 40"]);
    reply(s, &fc(SECOND, 40), "0 decision=go-on | phase=ending place=0");
    set(s, &["phase placing", "place 39"]);
    reply(s, &fc(SECOND, 39), "0 decision=go-on | phase=sending");
    s.note("FD: state 0 goes on, 1 to 4 end the leg, 5 is none of them; channel, version byte,");
    s.note("L 1 and 3, command (FE 00): 21.");
    request(s, &fd(SECOND, 0, &image.bytes[39..]));
    not_taken(s, &fd_reply(SECOND, 5));
    not_taken(s, &fd_reply(FIRST, 0));
    not_taken(s, &frame(0x10, 0xFD, &[SECOND, 0]));
    not_taken(s, &frame(0x00, 0xFD, &[SECOND]));
    not_taken(s, &frame(0x00, 0xFD, &[SECOND, 0, 0]));
    not_taken(s, &fe_reply(SECOND, 0));
    reply(s, &fd_reply(SECOND, 0), "0 decision=go-on | phase=ending place=0");
    set(s, &["legs 0"]);
    for state in 1..=4 {
        set(s, &["phase sending", "place 16", "number 1", "silences 1", "legs 0"]);
        reply(
            s,
            &fd_reply(SECOND, state),
            "0 decision=new-leg | phase=asking place=0 number=0 silences=0 legs=1",
        );
    }
    s.note(
        "FE: 0 is done, 1 and 3 end the leg, 2 is never sent; channel, version byte, L 1 and 3,",
    );
    s.note("command (FD 00): 21.");
    set(s, &["phase ending"]);
    request(s, &fe(SECOND));
    not_taken(s, &fe_reply(SECOND, 2));
    not_taken(s, &fe_reply(SECOND, 4));
    not_taken(s, &fe_reply(FIRST, 0));
    not_taken(s, &frame(0x10, 0xFE, &[SECOND, 0]));
    not_taken(s, &frame(0x00, 0xFE, &[SECOND]));
    not_taken(s, &frame(0x00, 0xFE, &[SECOND, 0, 0]));
    not_taken(s, &fd_reply(SECOND, 0));
    reply(s, &fe_reply(SECOND, 1), "0 decision=new-leg | phase=asking legs=2");
    set(s, &["phase ending"]);
    reply(s, &fe_reply(SECOND, 3), "0 decision=new-leg | phase=asking legs=3");
    set(s, &["phase ending", "silences 3"]);
    reply(s, &fe_reply(SECOND, 0), "0 decision=done | phase=done silences=0");
    not_taken(s, &fe_reply(SECOND, 0));
    silence(s, "0 decision=done |");
    no_request(s, 0);
}
