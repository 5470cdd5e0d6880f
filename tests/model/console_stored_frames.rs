//! The stored session: opening, the orders of refusals, reading frames, bad lines.

use crate::console_stored::{
    fa_reply, fd_reply, fe_reply, first_image, second_image, Story, BOARDS, FIRST, FIRST_SOFT,
    OPENED, SECOND, SHUT, TWIN,
};
use crate::wire::{self, fa, fb, fc, fd, fe, frame};

/// A call that is refused by this outcome.
fn refused(outcome: u8) -> String {
    format!("{outcome} taken=0 dropped=0 command=00 length=0 reply=- past=- area=- |")
}

fn refused_portion(outcome: u8) -> String {
    format!("portion {outcome} count=0 verdict=unfinished reply=- past=- |")
}

pub fn before_opening(s: &mut Story) {
    s.group("Before opening: the all-zero records meet 9 in every call, and nothing changes.");
    s.line("show", "show |");
    s.feed(&fe(FIRST), &refused(9));
    s.line("quiet", &format!("quiet {}", refused(9)));
    s.line("portion 1", &refused_portion(9));
    s.line("report", "report 9 frame=- past=-");
    s.line("sender show", "sender show |");
    s.line("sender request", "sender request 9 frame=- past=-");
    s.line("sender reply 55AA00FA00070A0001000202000F", "sender reply 9 decision=none |");
    s.line("sender silence", "sender silence 9 decision=none |");
}

/// The list as the story uses it, rubbish behind its four boards.
fn put_list(s: &mut Story) {
    for (place, board) in BOARDS.iter().enumerate() {
        s.line(&format!("board {place} {board}"), "ok");
    }
    s.line("board 4 1 0A 777777 888888 9999999999999999", "ok");
    s.line("board 9 1 C8 666666 555555 4444444444444444", "ok");
}

pub fn opening(s: &mut Story) {
    s.group("Opening. Four boards: 10, 12, 19 without a permit, 11. Rubbish behind them.");
    put_list(s);
    s.note("Fresh: the list and the opened length, all else zero, unused places too.");
    s.line(
        "open 4 200",
        "open 0 | boards=4 board0=1,0A,010002,010000,0000000000000000 .. \
         board3=1,0B,010002,010001,0000000000000000 opened=200",
    );
    s.line(
        "open 1 200",
        "open 0 | boards=1 board1=0,00,000000,000000,0000000000000000 .. \
         board3=0,00,000000,000000,0000000000000000",
    );
    s.note("Outcome 8: none, more than ten; a refused opening gives the all-zero record.");
    s.line("open 0 200", "open 8 | boards=0 board0=0,00,000000,000000,0000000000000000 opened=0");
    for count in ["11", "12", "4294967297", "18446744073709551615"] {
        s.line(&format!("open {count} 200"), "open 8 |");
    }
    s.note("The fifth board has channel 10 again; the fourth then 9, 20, 29, 0 and 255.");
    s.line("open 5 200", "open 8 |");
    for channel in ["09", "14", "1D", "00", "FF"] {
        s.line(&format!("board 3 1 {channel} 010002 010001 0000000000000000"), "ok");
        s.line("open 4 200", "open 8 |");
    }
    s.line(&format!("board 3 {}", BOARDS[3]), "ok");
    s.note("Outcome 7: lengths 0 and 1,048,577; 1 and 1,048,576 are right.");
    for (length, outcome) in
        [("0", 7), ("1048577", 7), ("4294967297", 7), ("18446744073709551615", 7)]
    {
        s.line(&format!("open 4 {length}"), &format!("open {outcome} |"));
    }
    s.line("open 4 1", "open 0 | boards=4 .. opened=1");
    s.line("report", "report 0 ..");
    s.line("open 4 1048576", "open 0 | opened=1048576");
    s.line("report", "report 0 ..");
    s.line("open 4 1048575", "open 0 | opened=1048575");
    s.note("Both wrong: 8 comes before 7.");
    s.line("open 0 0", "open 8 | boards=0 .. opened=0");
    s.line("open 11 1048577", "open 8 |");
    s.line("open 5 0", "open 8 |");
    s.note("Ten boards, channels 19 down to 10: an outward F9 of 78 bytes.");
    for place in 0..10_u8 {
        let channel = 19 - place;
        s.line(
            &format!("board {place} 1 {channel:02X} 0{place}0102 030{place}04 0000000000000000"),
            "ok",
        );
    }
    s.line(
        "open 10 200",
        "open 0 | boards=10 .. board9=1,0A,090102,030904,0000000000000000 opened=200",
    );
    s.note("Eleven are too many, whatever the ten are; so are 2^32 + 10.");
    s.line("open 11 200", "open 8 | ..");
    s.line("open 4294967306 200", "open 8 |");
    s.line("open 10 200", "open 0 | ..");
    s.line("room 77", "ok");
    s.line("report", "report 11 frame=- past=-");
    s.line("room 78", "ok");
    s.line("report", "report 0 frame=55AA00F900470A13000102030004 .. 0A090102030904 .. past=-");
    s.line("room 65536", "ok");
    put_list(s);
    s.line(&format!("open 4 {OPENED}"), "open 0 | ..");
    s.line(&format!("area {OPENED}"), "ok");
    s.line("show", "show | boards=4 .. board3=1,0B,010002,010001,0000000000000000 opened=200");
}

pub fn orders_of_calls(s: &mut Story) {
    s.group("Calls check 9, 6, 5, portion then 18. Room 32 is too small, 33 is not.");
    s.line(&format!("write room 0 {}", "EE".repeat(100)), "ok");
    let call = |s: &mut Story, outcome: u8, portion: u8| {
        s.feed(&fe(FIRST), &refused(outcome));
        s.line("quiet", &format!("quiet {}", refused(outcome)));
        s.line("portion 1", &refused_portion(portion));
    };
    s.note("Room too small; then the area one short, one long, none, too; then only the area.");
    s.line("room 32", "ok");
    call(s, 5, 5);
    for area in ["199", "201", "0"] {
        s.line(&format!("area {area}"), "ok");
        call(s, 6, 6);
    }
    s.line("room 33", "ok");
    call(s, 6, 6);
    s.note("The record breaks its rules (next number 65,537): 9 before all of these.");
    s.line("set next 65537", "set | next=65537");
    call(s, 9, 9);
    s.lines(&["room 32"]);
    call(s, 9, 9);
    s.lines(&["area 200"]);
    call(s, 9, 9);
    s.lines(&["room 33"]);
    call(s, 9, 9);
    s.line("set next 0", "set | next=0");
    s.note("All right but that no check runs: portion gives 18, after the 5 and 6 above.");
    s.line("portion 1", &refused_portion(18));
    s.line("portion 0", &refused_portion(18));
    s.answered(&fe(FIRST), &fe_reply(FIRST, 3), "|");
    s.line("quiet", "quiet 1 taken=0 dropped=0 command=00 length=0 reply=- past=- area=- |");
    s.note("The outward F9 of four boards has 36 bytes: 11 below that, 9 before 11.");
    s.line(&format!("write room 0 {}", "EE".repeat(36)), "ok");
    s.lines(&["room 35"]);
    s.line("report", "report 11 frame=- past=-");
    s.lines(&["set holding 527"]);
    s.line("report", "report 9 frame=- past=-");
    s.lines(&["room 36"]);
    s.line("report", "report 9 frame=- past=-");
    s.note("527 held bytes are 9 for feed, quiet and portion as well.");
    call(s, 9, 9);
    s.lines(&["set holding 0"]);
    s.line(
        "report",
        "report 0 frame=55AA00F9001D040A0100020100000C0205000200011300090903000 .. past=-",
    );
    s.lines(&["area 0"]);
    s.line("report", "report 0 ..");
    s.lines(&["area 200", "room 65536"]);
    s.line(
        "write room 0 EEEEEEEEEEEEEEEEEEEEEEEEEEEEEEEEEEEEEEEEEEEEEEEEEEEEEEEEEEEEEEEEEEEEEEEE",
        "ok",
    );
}

pub fn orders_of_frames(s: &mut Story) {
    s.group("Frames: 2, then 3, then 4, then 10 or a reply. Idle.");
    let (second, first) = (second_image(), first_image());
    s.note("2: not in the table, whatever version, L and channel are.");
    for (command, data) in [(0x56, &[][..]), (0xF8, &[FIRST]), (0xFF, &[99, 1]), (0x00, &[99])] {
        s.unanswered(2, &frame(0x77, command, data));
    }
    s.note("3: version byte or L wrong, on an unlisted channel (13) too.");
    s.unanswered(3, &frame(0x10, 0xFA, &[13, 1, 0]));
    for (version, command, length) in [
        (0x10, 0xF9, 1),
        (0x00, 0xF9, 0),
        (0x00, 0xF9, 2),
        (0x00, 0xFA, 0),
        (0x00, 0xFA, 2),
        (0x00, 0xFA, 4),
        (0x00, 0xFB, 36),
        (0x10, 0xFB, 35),
        (0x10, 0xFB, 37),
        (0x10, 0xFC, 5),
        (0x00, 0xFC, 4),
        (0x00, 0xFC, 6),
        (0x00, 0xFD, 7),
        (0x10, 0xFD, 6),
        (0x10, 0xFE, 1),
        (0x00, 0xFE, 0),
        (0x00, 0xFE, 2),
    ] {
        s.unanswered(3, &frame(version, command, &vec![FIRST; length]));
    }
    s.note("4: an unlisted channel, before 10 and before a reply. F9 is exempt.");
    for channel in [13, 9, 20, 29, 0] {
        s.unanswered(4, &fa(channel, 256));
    }
    s.unanswered(4, &fb(13, &first));
    s.unanswered(4, &fc(13, 0));
    s.unanswered(4, &fd(13, 0, b"x"));
    s.unanswered(4, &fe(13));
    s.unanswered(0, &wire::f9(0));
    s.unanswered(0, &wire::f9(99));
    s.note("10: FB and FC in idle, FB's before its PID is looked at. FD: 04. FE: 03.");
    s.unanswered(10, &fb(FIRST, &first));
    s.unanswered(10, &fb(FIRST, &second));
    s.unanswered(10, &fc(FIRST, 0));
    s.answered(&fd(FIRST, 0, b"x"), &fd_reply(FIRST, 4), "|");
    s.answered(&wire::fd_raw(FIRST, 9, 9, 9, b"x"), &fd_reply(FIRST, 4), "|");
    s.answered(&fe(FIRST), &fe_reply(FIRST, 3), "|");
    s.answered(&fe(SHUT), &fe_reply(SHUT, 3), "|");
}

pub fn reading(s: &mut Story) {
    s.group("Reading: pieces, strays, fronts that can no longer become a frame, quiet.");
    let none = "reply=- past=- area=- |";
    s.note("No bytes; then an FE of 8 bytes in pieces of 1, 5 and 2, F9 and 55 behind it.");
    s.feed(&[], &format!("1 taken=0 dropped=0 command=00 length=0 {none}"));
    let end = fe(TWIN);
    s.feed(&end[..1], &format!("1 taken=1 .. {none} holding=1 held=0:55"));
    s.feed(&end[1..6], &format!("1 taken=5 .. {none} holding=6 held=1:AA00FE0001"));
    let rest = [&end[6..], &wire::f9(0), &[0x55]].concat();
    let reply = crate::stored::hex(&fe_reply(TWIN, 3));
    let taken = "0 taken=2 dropped=0 command=FE length=1";
    let emptied = "| holding=0 held=0:000000000000";
    s.feed(&rest, &format!("{taken} reply={reply} past=- area=- {emptied}"));
    s.note("Dead at one byte, two, five (high length byte 03) and six (02 08); 02 07 waits.");
    s.feed(&[0x54, 0x55], &format!("1 taken=2 dropped=1 .. {none} holding=1 held=0:55"));
    s.feed(
        &[0x55, 0xAA, 0, 0, 2],
        &format!("1 taken=5 dropped=1 .. {none} holding=5 held=1:AA000002"),
    );
    s.feed(&[8], &format!("1 taken=1 dropped=6 .. {none} holding=0 held=0:0000000000"));
    s.line("show", "show | boards=4 .. opened=200");
    s.feed(&[0x55, 0xAA, 0, 0, 3], "1 taken=5 dropped=5 ..");
    s.note("A sum one too high costs one byte, not the frame: FE inside FF's data is read.");
    let mut outer = frame(0x00, 0xFF, &fe(FIRST));
    *outer.last_mut().expect("a frame has bytes") += 1;
    s.feed(&outer, "0 taken=15 dropped=6 command=FE length=1 .. | holding=1 ..");
    s.note(
        "A front that waits for 526 bytes; quiet brings out what is behind it, one frame a call.",
    );
    let held = [&[0x55, 0xAA, 0x10, 0xFD, 2, 7][..], &fa(SHUT, 256), &[1, 2], &fe(FIRST)].concat();
    s.feed(&held, "1 taken=26 dropped=1 .. | holding=26 ..");
    s.line("quiet", "quiet 0 taken=0 dropped=6 command=FA length=3 .. | holding=10 ..");
    s.line("quiet", "quiet 0 taken=0 dropped=2 command=FE length=1 .. | holding=0 ..");
    s.line("quiet", "quiet 1 taken=0 dropped=0 ..");
    s.note("526 held bytes are always decided; a call that finds a frame held takes no new byte.");
    s.feed(
        &[&[0x55, 0xAA, 0x10, 0xFD, 2, 7][..], &[0; 519]].concat(),
        "1 taken=525 dropped=0 .. | holding=525 ..",
    );
    s.feed(&[0x77, 0x55], "1 taken=2 dropped=526 .. | holding=1 held=1:00 ..");
    s.line("quiet", "quiet 1 taken=0 dropped=1 ..");
    let two = [fa(FIRST, 15), fe(FIRST)].concat();
    s.line(&format!("set held 0 {}", crate::stored::hex(&two)), "set | held=0:..");
    s.lines(&["set holding 18"]);
    s.feed(&[0x55], "0 taken=0 dropped=0 command=FA length=3 .. | holding=8 ..");
    s.feed(&[0x55], "0 taken=0 dropped=0 command=FE length=1 .. | holding=0 ..");
    s.note("Replies of an idle record with flag 1, state 03: nothing else changed all the while.");
    s.answered(&fa(FIRST, 15), &fa_reply(FIRST, 1, FIRST_SOFT), "|");
    s.answered(&fe(SECOND), &fe_reply(SECOND, 3), "|");
}

pub fn bad_lines(s: &mut Story) {
    s.group("Lines that are no command change nothing.");
    s.note(
        "A name is at the line's front exactly as in the table, its spaces and letter case too.",
    );
    let bad = [
        (" quiet", "bad no such command"),
        ("Quiet", "bad no such command"),
        ("quiets", "bad no such command"),
        ("write  room 0", "bad no such command"),
        ("set phase", "bad no such command"),
        ("set phase over", "bad no such command"),
        ("sender", "bad no such command"),
        ("room", "bad number 1 is 0 to 65536"),
        ("room x", "bad number 1 is 0 to 65536"),
        ("room 65537", "bad number 1 is 0 to 65536"),
        ("area 65537 x", "bad number 1 is 0 to 65536"),
        ("image 1048578", "bad number 1 is 0 to 1048577"),
        ("write room 65536", "bad number 1 is 0 to 65535"),
        ("write image 1048577 GG", "bad number 1 is 0 to 1048576"),
        ("board 10 2 00", "bad number 1 is 0 to 9"),
        ("board 9 2 00", "bad number 2 is 0 to 1"),
        ("set held 526 00", "bad number 1 is 0 to 525"),
        ("set channel 256", "bad number 1 is 0 to 255"),
        ("set checking 2", "bad number 1 is 0 to 1"),
        ("sender open 65536", "bad number 1 is 0 to 65535"),
        ("portion 18446744073709551616", "bad number 1 is 0 to 18446744073709551615"),
        ("portion 000000000000000000001", "bad number 1 is 0 to 18446744073709551615"),
        ("open 1", "bad number 2 is 0 to 18446744073709551615"),
        ("room 5 5", "bad nothing is expected behind that"),
        ("quiet 00", "bad nothing is expected behind that"),
        ("show x", "bad nothing is expected behind that"),
        ("feed 5", "bad bytes are pairs of hexadecimal digits"),
        ("feed 5 5", "bad bytes are pairs of hexadecimal digits"),
        ("board 0 1 0x", "bad bytes are pairs of hexadecimal digits"),
        ("board 0 1 0A", "bad 15 bytes are expected"),
        ("sender open 16 0A", "bad 28 bytes are expected"),
        ("set version 01000203", "bad 3 bytes are expected"),
        ("set md5", "bad 16 bytes are expected"),
        ("set crc 000000", "bad 4 bytes are expected"),
        ("sender set pid 00", "bad 8 bytes are expected"),
        ("write area 65535 0102", "bad the bytes go past the end"),
        ("set held 525 0102", "bad the bytes go past the end"),
        ("write image 1048576 0102", "bad the bytes go past the end"),
    ];
    for (line, wanted) in bad {
        s.line(line, wanted);
    }
    s.note("Right ones: the last places; more spaces than needed, digits of either case.");
    s.lines(&["write area 65535 77", "write room 65535", "write image 1048576 77"]);
    s.line("feed 55aa 00fE0001 0a 08 ", "feed .. command=FE ..");
    s.line("portion   00000000000000000001  ", "portion ..");
    s.line("show ", "show | ..");
    s.line("sender show", "sender show | ..");
}
