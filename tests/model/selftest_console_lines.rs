//! Self-tests of the console's lines: the grammar of docs/CONSOLE.md, what is bad and
//! why, in the order of its table, line ends, counting, and spans.

use crate::console::commands::{Command, TABLES};
use crate::console::console_bytes;
use crate::selftest::Tally;
use crate::selftest_console::{answers, begins, gives, last_answer, numbered_answers};

pub fn run(t: &mut Tally) {
    grammar(t);
    no_such_command(t);
    numbers(t);
    bytes(t);
    names(t);
    line_ends(t);
    lengths_and_counting(t);
    spans(t);
}

/// What a fresh console writes for a line, without the number.
fn told(line: &[u8]) -> String {
    let told = numbered_answers(&[line, b"\n"].concat()).concat();
    told.strip_prefix("1 ").unwrap_or("passed over").into()
}

fn says(t: &mut Tally, line: &str, wanted: &str) {
    t.same(&format!("line {line:?}"), told(line.as_bytes()), wanted.into());
}

/// All these lines are bad for this reason.
fn bad(t: &mut Tally, message: &str, lines: &[&str]) {
    for line in lines {
        says(t, line, &format!("bad {message}"));
    }
}

/// Lines and what is written for them on a fresh console.
fn grammar(t: &mut Tally) {
    let long = |start: &str, length: usize| start.to_string() + &" ".repeat(length - start.len());
    let nothing = "bad nothing is expected behind that";
    let no_command = "bad no such command";
    let pairs = "bad bytes are pairs of hexadecimal digits";
    let room = "bad number 1 is 0 to 65536";
    let lines: [(&str, &str); 52] = [
        ("", "passed over"),
        ("#", "passed over"),
        ("#quiet", "passed over"),
        (" #", no_command),
        (" ", no_command),
        ("room 65536", "ok"),
        ("room   0", "ok"),
        ("room 00000000000000000007   ", "ok"),
        ("room 000000000000000000007", room),
        ("room 65537", room),
        ("room", room),
        ("room ", room),
        ("room -1", room),
        ("room 5,5", nothing),
        ("room 5x", nothing),
        ("room 5 5", nothing),
        ("room\t5", no_command),
        ("room 5\t", nothing),
        ("room 5\r", nothing),
        ("rooms 5", no_command),
        ("Room 5", no_command),
        ("image 1048577", "ok"),
        ("image 1048578", "bad number 1 is 0 to 1048577"),
        ("write room 65535 77", "ok"),
        ("write room 65535 7777", "bad the bytes go past the end"),
        ("write room 65535", "ok"),
        ("write room 5AA", "ok"),
        ("write room 5 A A", pairs),
        ("write room 5 AAA", pairs),
        ("write room 5 aAbBcC dd  EE ", "ok"),
        ("write image 1048576 77", "ok"),
        ("write image 1048577", "bad number 1 is 0 to 1048576"),
        ("write  room 5", no_command),
        ("write", no_command),
        ("board 9 1 0A0102030405060708090A0B0C0D0E", "ok"),
        ("board 9 1 0A0102030405060708090A0B0C0D", "bad 15 bytes are expected"),
        ("board 9 1 0A0102030405060708090A0B0C0D0E0F", "bad 15 bytes are expected"),
        ("board 9 1", "bad 15 bytes are expected"),
        ("board 9 2", "bad number 2 is 0 to 1"),
        ("board 10 2", "bad number 1 is 0 to 9"),
        ("board 9", "bad number 2 is 0 to 1"),
        ("open 1x 1", "bad number 2 is 0 to 18446744073709551615"),
        ("portion 18446744073709551616", "bad number 1 is 0 to 18446744073709551615"),
        ("quiet x", nothing),
        ("set held 525 01", "set | held=525:01"),
        ("set held 525 0102", "bad the bytes go past the end"),
        (
            "set board 9 1 0A0102030405060708090A0B0C0D0E",
            "set | board9=1,0A,010203,040506,0708090A0B0C0D0E",
        ),
        ("set boards 9", "set | boards=9"),
        ("set phase done", "set | phase=done"),
        ("set phase", no_command),
        ("sender set phase given-up", "sender set | phase=given-up"),
        ("sender set legs 18446744073709551615", "sender set | legs=18446744073709551615"),
    ];
    for (line, wanted) in lines {
        t.same(&format!("line {line:?}"), told(line.as_bytes()), wanted.into());
    }
    let too_long = "bad a line has at most 65535 bytes";
    t.same("65,535 bytes", told(long("room 5", 65_535).as_bytes()), "ok".into());
    t.same("65,536 bytes", told(long("room 5", 65_536).as_bytes()), too_long.into());
    t.same("... a comment", told(long("#", 65_536).as_bytes()), too_long.into());
    t.same("65,535 bytes, a comment", told(long("#", 65_535).as_bytes()), "passed over".into());
    t.same("bytes that are no text", told(&[0xFF, 0x00, b'\r']), no_command.into());
}

fn no_such_command(t: &mut Tally) {
    let lines = [
        " quiet",
        "   ",
        "Quiet",
        "quiets",
        "quiet\t",
        "quiet\r",
        "set",
        "set phase  idle",
        "set phase open",
        "set phase idles",
        "set board0 1",
        "sender",
        "sender set",
        "sender  show",
        "sender set phase given up",
        "feed55",
        "set foo 1",
        "\u{e9}",
        "write\troom 0",
    ];
    bad(t, "no such command", &lines);
    says(t, "show   ", "show |");
    says(t, "set phase idle  ", "set |");
}

fn numbers(t: &mut Tally) {
    let lines = [
        "portion",
        "portion  ",
        "portion x",
        "portion -1",
        "portion 000000000000000000001",
        "set next +1",
        "set stored 99999999999999999999",
        "open",
        "open x y",
    ];
    bad(t, "number 1 is 0 to 18446744073709551615", &lines);
    bad(t, "number 2 is 0 to 18446744073709551615", &["open 1", "open 1x2"]);
    gives(t, "portion 00000000000000000001", "9");
    gives(t, "portion    18446744073709551615 ", "9");
    for (line, most) in [
        ("area 65537", "65536"),
        ("write room 65536 zz", "65535"),
        ("write area 65536", "65535"),
        ("set board 10", "9"),
        ("set held 526", "525"),
        ("set channel 256", "255"),
        ("set image-channel 256", "255"),
        ("set checking 2", "1"),
        ("sender open 65536", "65535"),
        ("sender set size 65536", "65535"),
        ("sender set channel 256", "255"),
    ] {
        says(t, line, &format!("bad number 1 is 0 to {most}"));
    }
    says(t, "board 0 10A", "bad number 2 is 0 to 1");
}

fn bytes(t: &mut Tally) {
    let nothing = ["quiet 1", "open 1 2 3", "set phase idle 1", "show #"];
    bad(t, "nothing is expected behind that", &nothing);
    let pairs = [
        "feed 5",
        "feed 5 5",
        "feed 555",
        "feed 0x55",
        "feed 55\t",
        "write room 0 zz",
        "set md5 zz",
        "write room 65535 00 0",
        "set version 0102 0",
    ];
    bad(t, "bytes are pairs of hexadecimal digits", &pairs);
    for (line, count) in [
        ("board 0 1 0A", 15),
        ("set board 0 1", 15),
        ("sender open 16", 28),
        ("set version 01020304", 3),
        ("set md5", 16),
        ("set crc 01", 4),
        ("set register", 4),
        ("sender set pid 01", 8),
    ] {
        says(t, line, &format!("bad {count} bytes are expected"));
    }
    bad(t, "the bytes go past the end", &["write image 1048576 0001"]);
    // A byte needs no space before it: all the digits are the number, what follows are bytes.
    says(t, "set held 5FF", "set | held=5:FF");
    says(t, "set held 525 ab ", "set | held=525:AB");
    t.same("a memory that is not lent", last_answer("room 0\nwrite room 65535 FF"), "ok".into());
}

/// "Behind a name comes a space or the line's end, so that at most one name fits a
/// line."
fn names(t: &mut Tally) {
    let commands = || TABLES.into_iter().flatten();
    for command in commands() {
        let behind = |other: &&Command| {
            command
                .name
                .strip_prefix(other.name)
                .is_some_and(|rest| rest.is_empty() || rest.starts_with(' '))
        };
        t.same(command.name, commands().filter(behind).count(), 1);
    }
}

/// Lines are counted and ended as the page says.
fn line_ends(t: &mut Tally) {
    let wanted = "1 bad no such command\n4 show |\n";
    for session in ["?\n\n#\nshow\n", "?\n\n#\nshow", "?\n\n#\nshow\n\n", "?\n\n#\nshow\n#"] {
        let told = String::from_utf8(console_bytes(session.as_bytes()));
        t.same(&format!("{session:?}"), told, Ok(wanted.to_string()));
    }
    t.same("nothing", console_bytes(b""), Vec::new());
}

fn lengths_and_counting(t: &mut Tally) {
    let longest = format!("feed{}", " ".repeat(65_531));
    let long = format!("#{}", " ".repeat(65_535));
    let comment = &long[..65_535];
    let session = format!("\n# note\n{longest}\n{long}\n{comment}\nquiet");
    let all = numbered_answers(session.as_bytes());
    t.same("lines that are answered", all.len(), 3);
    begins(t, &all[0], "3 feed 9 ");
    t.same("too long", all[1].as_str(), "4 bad a line has at most 65535 bytes");
    begins(t, &all[2], "6 quiet 9 ");
    let no_text = ["1 bad no such command", "2 bad no such command"].map(String::from);
    t.same("bytes that are no text", numbered_answers(b"\xFF\x00\n\0"), no_text.into());
}

fn spans(t: &mut Tally) {
    let session = "set held 3 FF00FF\nset held 3 FF01FF\nset held 3 FF01FF\n\
                   set held 0 000000000000\nshow";
    let wanted =
        ["set | held=3:FF00FF", "set | held=4:01", "set |", "set | held=3:000000", "show |"];
    t.same("spans", answers(session), wanted.map(String::from).into());
}
