//! The stored session: the end check in portions, legs, moves of the session, and
//! what stands past the held bytes.

use crate::console_stored::{
    fa_reply, fe_reply, first_image, second_image, Story, FIRST, FIRST_SOFT, SECOND, SECOND_SOFT,
    SHUT, TWIN,
};
use crate::console_stored_transfers::{ask_second, idle_packet, packet, place, tell};
use crate::crc::crc32;
use crate::stored::hex;
use crate::wire::{fa, fb, fc, fd, fe, frame, Image};

/// FE that starts a check.
pub fn start_check(s: &mut Story, channel: u8) {
    s.feed(&fe(channel), "0 .. reply=- past=- area=- | checking=1 register=FFFFFFFF");
}

/// A portion call that gives a verdict, on `SECOND`.
pub fn verdict(s: &mut Story, most: &str, count: usize, right: bool, changes: &str) {
    let (word, state) = if right { ("right", 0) } else { ("wrong", 3) };
    let reply = hex(&fe_reply(SECOND, state));
    s.line(
        &format!("portion {most}"),
        &format!("portion 0 count={count} verdict={word} reply={reply} past=- {changes}"),
    );
}

pub fn end_in_portions(s: &mut Story) {
    let image = second_image();
    s.group("The end check in portions. While it runs: 2, 3, 4, then 12; F9 is noted.");
    start_check(s, SECOND);
    s.unanswered(2, &frame(0x00, 0x56, &[SECOND]));
    s.unanswered(3, &frame(0x10, 0xFE, &[SECOND]));
    s.unanswered(4, &fa(13, 16));
    s.unanswered(4, &fe(20));
    for held_back in [
        fa(SECOND, 16),
        fa(SHUT, 16),
        fb(SECOND, &image),
        fb(FIRST, &first_image()),
        fc(SECOND, 40),
        fc(FIRST, 0),
        fd(SECOND, 0, &image.bytes[32..]),
        fe(SECOND),
        fe(FIRST),
    ] {
        s.unanswered(12, &held_back);
    }
    s.unanswered(0, &crate::wire::f9(1));
    s.line("quiet", "quiet 1 ..");
    let refused =
        |outcome| format!("portion {outcome} count=0 verdict=unfinished reply=- past=- |");
    s.note("Refused: 9 (read 40 of 40) before 6, 6 before 5, 5.");
    s.lines(&["room 32", "area 199", "set read 40"]);
    s.line("portion 40", &refused(9));
    s.lines(&["set read 0"]);
    s.line("portion 40", &refused(6));
    s.lines(&["area 200"]);
    s.line("portion 40", &refused(5));
    s.lines(&["room 33"]);
    let crc_over = |count: usize| !crc32(&image.bytes[..count]);
    s.note("0 bytes, 1 byte, all but one; the last with the verdict, however many are asked for.");
    let unfinished = |count: u32, changes: &str| {
        format!("portion 19 count={count} verdict=unfinished reply=- past=- {changes}")
    };
    s.line("portion 0", &unfinished(0, "|"));
    let changes = |count| format!("| read={count} register={:08X}", crc_over(count));
    s.line("portion 1", &unfinished(1, &changes(1)));
    s.line("portion 38", &unfinished(38, &changes(39)));
    s.line("portion 0", &unfinished(0, "|"));
    verdict(s, "18446744073709551615", 1, true, "| phase=done checking=0 read=0 register=00000000");
    s.line("portion 1", &refused(18));
    s.lines(&["room 65536"]);
    s.note("18 comes last: 5, 6 and 9 before it.");
    s.lines(&["room 32"]);
    s.line("portion 1", &refused(5));
    s.lines(&["area 199", "room 65536"]);
    s.line("portion 1", &refused(6));
    s.lines(&["area 200", "set last 41"]);
    s.line("portion 1", &refused(9));
    s.lines(&["set last 8"]);
    s.note("Done: FE reads the area again, a byte changed behind it is not seen; FC 10, FD 04.");
    start_check(s, SECOND);
    s.line("portion 20", &unfinished(20, &changes(20)));
    s.lines(&["write area 19 00"]);
    verdict(s, "20", 20, true, "| checking=0 read=0 register=00000000");
    s.line(&format!("write area 19 {:02X}", image.bytes[19]), "ok");
    s.unanswered(10, &fc(SECOND, 40));
    idle_packet(s, 4, &fd(SECOND, 0, &image.bytes[32..]));
    s.note("Done with stored below announced: FE 01.");
    s.lines(&["set stored 39"]);
    s.answered(&fe(SECOND), &fe_reply(SECOND, 1), "|");
    s.lines(&["set stored 40"]);
}

pub fn failed_end(s: &mut Story) {
    let image = second_image();
    s.group("Failed end checks: idle, nothing stored, no identity. All else stays.");
    const RESET: &str = "| phase=idle stored=0 image-channel=0 version=000000 announced=0 \
         md5=00000000000000000000000000000000 crc=00000000 last=0 checking=0 register=00000000";
    s.note("In done, after a byte of the area changed.");
    s.lines(&["write area 0 66"]);
    start_check(s, SECOND);
    verdict(s, "40", 40, false, RESET);
    s.answered(&fe(SECOND), &fe_reply(SECOND, 3), "|");
    s.note("In receiving: all packets were right, a byte of the area changed before FE.");
    let told = format!(
        "image-channel=12 version=020501 announced=40 md5={} crc={:08X}",
        hex(&image.md5),
        image.crc32
    );
    ask_second(s, "| phase=asked");
    s.line("write area 0 00000000", "ok");
    tell(s, SECOND, &image, 0, &format!("| phase=told {told}"));
    place(s, SECOND, 0, 0, "| phase=receiving next=0");
    s.feed(&fd(SECOND, 0, &image.bytes[..16]), "0 .. | next=1 stored=16 last=16");
    s.feed(&fd(SECOND, 1, &image.bytes[16..32]), "0 .. | next=2 stored=32");
    s.feed(&fd(SECOND, 2, &image.bytes[32..]), "0 .. | next=3 stored=40 last=8");
    s.lines(&["write area 39 00"]);
    start_check(s, SECOND);
    s.line("portion 39", "portion 19 count=39 ..");
    verdict(s, "1", 1, false, &RESET.replace("checking=0", "checking=0 read=0"));
    s.note("Other packets were received; the area was then put right by hand: right.");
    ask_second(s, "| phase=asked");
    tell(s, SECOND, &image, 0, &format!("| phase=told {told}"));
    place(s, SECOND, 0, 0, "| phase=receiving next=0");
    s.feed(&fd(SECOND, 0, b"Sixteen bytes of"), "0 .. | next=1 stored=16 last=16");
    s.feed(&fd(SECOND, 1, b" another image, "), "0 .. | next=2 stored=32");
    s.feed(&fd(SECOND, 2, b"eight m."), "0 .. | next=3 stored=40 last=8");
    s.line(&format!("write area 0 {}", hex(&image.bytes)), "ok");
    start_check(s, SECOND);
    verdict(s, "41", 40, true, "| phase=done checking=0 register=00000000");
}

pub fn offsets(s: &mut Story) {
    let image = second_image();
    s.group(
        "FC at stored, below and above; FB with another identity. Each zeroes the last length.",
    );
    tell(s, SECOND, &image, 40, "| phase=told");
    s.note("Above stored: from 0. Then again in receiving, below, above, far above, equal.");
    place(s, SECOND, 41, 0, "| phase=receiving next=0 stored=0 last=0");
    s.line(&format!("write area 0 {}", "00".repeat(40)), "ok");
    let again = |s: &mut Story, offset: u32, granted: u32, changes: &str| {
        s.feed(&fd(SECOND, 0, &image.bytes[..16]), "0 .. | next=1 stored=16 last=16");
        place(s, SECOND, offset, granted, changes);
    };
    again(s, 15, 0, "| next=0 stored=0 last=0");
    again(s, 0, 0, "| next=0 stored=0 last=0");
    again(s, 17, 0, "| next=0 stored=0 last=0");
    again(s, u32::MAX, 0, "| next=0 stored=0 last=0");
    again(s, 16, 16, "| next=0 last=0");
    packet(s, SECOND, 0, 16, &image.bytes[16..32], "| next=1 stored=32 last=16");
    s.note("FB in receiving, each field of the identity another one; the next number stays.");
    let leg = |s: &mut Story, other: &Image, changes: &str| {
        tell(s, SECOND, other, 0, &format!("| phase=told stored=0 {changes} last=0"));
        place(s, SECOND, 0, 0, "| phase=receiving next=0");
        s.feed(&fd(SECOND, 0, b"any"), "0 .. | next=1 stored=3 last=3");
    };
    leg(s, &Image { version: [2, 6, 0], ..image.clone() }, "version=020600");
    leg(s, &Image { version: [2, 6, 0], length: 50, ..image.clone() }, "announced=50");
    let image = Image { version: [2, 6, 0], length: 50, ..image };
    let mut md5 = image.md5;
    md5[15] = 9;
    let image = Image { md5, ..image };
    leg(s, &image, "md5=1032547698BADCFE0102030405060709");
    let image = Image { crc32: image.crc32 ^ 1, ..image };
    leg(s, &image, &format!("crc={:08X}", image.crc32));
    s.note("The same identity: stored and last stay.");
    let front = Image { bytes: b"any".to_vec(), ..image.clone() };
    tell(s, SECOND, &front, 3, "| phase=told");
    s.note("A packet of 50 bytes, sent again when only 16 are agreed: still that packet.");
    s.answered(&fa(SECOND, 50), &fa_reply(SECOND, 0, SECOND_SOFT), "| phase=asked agreed=50");
    tell(s, SECOND, &front, 3, "| phase=told");
    place(s, SECOND, 0, 0, "| phase=receiving next=0 stored=0 last=0");
    let fifty = [0x5A; 50];
    s.feed(&fd(SECOND, 0, &fifty), "0 .. area=0:.. | next=1 stored=50 last=50");
    s.lines(&["set agreed 16"]);
    idle_packet(s, 0, &fd(SECOND, 0, &fifty));
    s.note("The last number: 65,535, then none is next. It may be sent again.");
    s.lines(&["set stored 40", "set last 0", "set next 65535"]);
    s.feed(&fd(SECOND, 65_535, b"abc"), "0 .. area=40:616263 | next=65536 stored=43 last=3");
    idle_packet(s, 1, &fd(SECOND, 0, b"abc"));
    idle_packet(s, 0, &fd(SECOND, 65_535, b"abc"));
    idle_packet(s, 1, &fd(SECOND, 65_535, b"abd"));
}

pub fn moves(s: &mut Story) {
    let (first, second) = (first_image(), second_image());
    s.group("The session moves to another board and back; boards that differ in the channel only.");
    ask_second(s, "| phase=asked");
    s.line(&format!("write area 0 {}", "00".repeat(60)), "ok");
    tell(s, SECOND, &second, 0, "| phase=told stored=0 version=020501 announced=40 md5=.. last=0");
    place(s, SECOND, 0, 0, "| phase=receiving next=0");
    packet(s, SECOND, 0, 0, &second.bytes[..16], "| next=1 stored=16 last=16");
    s.note("FA on channel 10 while receiving: the session is there, the identity still 12's.");
    let reply = fa_reply(FIRST, 0, FIRST_SOFT);
    s.answered(&fa(FIRST, 20), &reply, "| phase=asked channel=10 agreed=20");
    s.unanswered(10, &fb(SECOND, &second));
    s.unanswered(10, &fc(SECOND, 16));
    idle_packet(s, 4, &fd(SECOND, 1, &second.bytes[16..32]));
    s.answered(&fe(SECOND), &fe_reply(SECOND, 3), "|");
    s.note("Back on 12 with the same identity: 16 bytes are still stored.");
    ask_second(s, "| channel=12 agreed=16");
    tell(s, SECOND, &second, 16, "| phase=told");
    place(s, SECOND, 16, 16, "| phase=receiving next=0 last=0");
    packet(s, SECOND, 0, 16, &second.bytes[16..32], "| next=1 stored=32 last=16");
    s.note("Channel 10 replaces the image; channel 11 announces the same one: another identity.");
    s.answered(&fa(FIRST, 16), &reply, "| phase=asked channel=10");
    let md5 = "5A".repeat(16);
    let crc = first.crc32;
    tell(
        s,
        FIRST,
        &first,
        0,
        &format!(
            "| phase=told stored=0 image-channel=10 version=010100 announced=20 md5={md5} \
         crc={crc:08X} last=0"
        ),
    );
    place(s, FIRST, 0, 0, "| phase=receiving next=0");
    packet(s, FIRST, 0, 0, &first.bytes[..16], "| next=1 stored=16 last=16");
    s.answered(&fa(TWIN, 16), &fa_reply(TWIN, 0, FIRST_SOFT), "| phase=asked channel=11");
    tell(s, TWIN, &first, 0, "| phase=told stored=0 image-channel=11 last=0");
    s.line(&format!("write area 0 {}", "00".repeat(16)), "ok");
    place(s, TWIN, 0, 0, "| phase=receiving next=0");
    packet(s, TWIN, 0, 0, &first.bytes[..16], "| next=1 stored=16 last=16")
}

pub fn past_held(s: &mut Story) {
    s.group("Past the held bytes: zeros by feed and quiet, not by 5, 6, 9 and portions.");
    const ZEROS: &str = "held=30:000000";
    let spoil = |s: &mut Story| s.line("set held 30 AABBCC", "set | held=30:AABBCC");
    let frames = [
        (0, crate::wire::f9(0)),
        (2, frame(0, 0x56, &[])),
        (3, frame(0, 0xFE, &[])),
        (4, fe(13)),
        (10, fc(FIRST, 0)),
        (0, fe(TWIN)),
    ];
    spoil(s);
    s.feed(&[], &format!("1 .. | {ZEROS}"));
    for (outcome, bytes) in &frames {
        spoil(s);
        s.feed(bytes, &format!("{outcome} .. | {ZEROS}"));
    }
    s.line("set held 525 77", "set | held=525:77");
    s.feed(&[], "1 .. | held=525:00");
    s.note("Quiet, with nothing held and with each of these frames held.");
    spoil(s);
    s.line("quiet", &format!("quiet 1 .. | {ZEROS}"));
    for (outcome, bytes) in &frames {
        let (count, rubbish) = (bytes.len(), "EE".repeat(3));
        s.line(&format!("set held 0 {}{rubbish}", hex(bytes)), "set | held=0:..");
        s.line(&format!("set holding {count}"), "set | ..");
        let zeros = "00".repeat(count + 3);
        s.line("quiet", &format!("quiet {outcome} .. dropped=0 .. | holding=0 held=0:{zeros}"));
    }
    s.note("Right behind the held bytes too.");
    s.line("set held 0 55AA00EEEE", "set | held=0:55AA00EEEE");
    s.lines(&["set holding 3"]);
    s.feed(&[0xFE], "1 taken=1 .. | holding=4 held=3:FE00");
    s.line("quiet", "quiet 1 taken=0 dropped=4 .. | holding=0 held=0:00000000");
    s.note("Refused calls and portions leave it.");
    spoil(s);
    s.lines(&["room 32"]);
    s.feed(&[], "5 .. |");
    s.line("quiet", "quiet 5 .. |");
    s.line("portion 1", "portion 5 .. |");
    s.lines(&["room 65536", "area 199"]);
    s.feed(&[], "6 .. |");
    s.line("quiet", "quiet 6 .. |");
    s.line("portion 1", "portion 6 .. |");
    s.lines(&["area 200", "set next 65537"]);
    s.feed(&[], "9 .. |");
    s.line("quiet", "quiet 9 .. |");
    s.line("portion 1", "portion 9 .. |");
    s.line("set next 1", "set | next=1");
    s.line("portion 1", "portion 18 .. |");
    s.line("report", "report 0 ..");
    s.note("A check of the 16 bytes as they are, with rubbish and an unfinished front held. The");
    s.note("reply is on the session's channel, 11, though the identity's is another.");
    s.lines(&["set image-channel 10"]);
    s.lines(&["set announced 16", "set held 0 55", "set holding 1", "set crc 00000000"]);
    s.lines(&["set checking 1", "set register FFFFFFFF"]);
    s.line(
        "portion 4",
        "portion 19 count=4 verdict=unfinished reply=- past=- | read=4 register=..",
    );
    s.note("Portions refused while it runs: 9 (read 16 of 16), 6, 5. The rubbish stays.");
    s.lines(&["set read 16"]);
    s.line("portion 4", "portion 9 count=0 verdict=unfinished reply=- past=- |");
    s.lines(&["set read 4", "area 199"]);
    s.line("portion 4", "portion 6 count=0 verdict=unfinished reply=- past=- |");
    s.lines(&["area 200", "room 32"]);
    s.line("portion 4", "portion 5 count=0 verdict=unfinished reply=- past=- |");
    s.lines(&["room 65536"]);
    s.note(
        "Feed and quiet zero it, frames that get 12 too; the portion with the verdict does not.",
    );
    s.feed(&fe(TWIN), "12 taken=8 dropped=1 .. | holding=0 held=0:00 .. 000000");
    s.line(&format!("set held 0 {}EE", hex(&fe(TWIN))), "set | held=0:..");
    s.lines(&["set holding 8"]);
    s.line("quiet", "quiet 12 .. | holding=0 held=0:000000000000000000");
    spoil(s);
    s.line(
        "portion 99",
        "portion 0 count=12 verdict=wrong .. past=- | phase=idle stored=0 image-channel=0 \
         version=000000 announced=0 md5=.. last=0 checking=0 read=0 register=00000000",
    );
    s.line("quiet", &format!("quiet 1 .. | {ZEROS}"));
}
