//! Self-tests of the console's controller: the CRCs' check values, the bench's frames,
//! the session of docs/CONSOLE.md, and the orders in FA to FE.

use crate::console::crc::{crc16, crc32, crc32_advance};
use crate::console::frame::{front, Front};
use crate::selftest::Tally;
use crate::selftest_console::{
    answers, begins, bench, ends, feed, framed, gives, last_answer, numbered_answers, receiving,
    same_lines, value, FB, P1, P3, P7,
};

pub fn run(t: &mut Tally) {
    check_values(t);
    session_of_the_page(t);
    worked_session(t);
    p1_to_p5(t);
    p9_to_p11(t);
    first_checks_in_order(t);
    fb_refuses_in_order(t);
    fb_keeps_or_forgets_what_is_stored(t);
    fd_refuses_in_order(t);
    number_65535_is_the_last(t);
}

fn check_values(t: &mut Tally) {
    t.same("CRC-16 of 123456789", crc16(b"123456789"), 0x4B37);
    t.same("CRC-32 of 123456789", crc32(b"123456789"), 0xCBF4_3926);
    t.same("CRC-32 of nothing", crc32(b""), 0);
    let bytes: Vec<u8> = (0..1000_u32).map(|place| (place * place >> 3) as u8).collect();
    let one = |register: u32, byte: &u8| crc32_advance(register, &[*byte]);
    for cut in 0..bytes.len() {
        let by_byte = bytes[..cut].iter().fold(!0, one);
        t.same("CRC-32 by sixteens or byte by byte", crc32(&bytes[..cut]), !by_byte);
    }
    t.same("L 519", front(&[0x55, 0xAA, 0, 0, 2, 7]), Front::Unfinished);
    t.same("L 520", front(&[0x55, 0xAA, 0, 0, 2, 8]), Front::Never);
    t.same("L from 768 on", front(&[0x55, 0xAA, 0, 0, 3]), Front::Never);
    t.same("nothing", front(&[]), Front::Unfinished);
}

fn session_of_the_page(t: &mut Tally) {
    let page = include_str!("../../docs/CONSOLE.md");
    let (_, session) = page.split_once("## A session to read along").unwrap_or_default();
    let quoted = session.lines().filter_map(|line| line.strip_prefix("    "));
    let (wanted, lines): (Vec<&str>, Vec<&str>) = quoted.partition(|line| line.starts_with("> "));
    let given = numbered_answers(lines.join("\n").as_bytes());
    t.same("lines of the page's session", given.len(), 19);
    let wanted = wanted.iter().map(|line| line[2..].to_owned()).collect();
    t.same("the page's session", given, wanted);
}

/// 01's frames from the bench, P1 to P9, as the console tells them.
fn worked_session(t: &mut Tally) {
    const MD5: &str = "25F9E794323B453885F5181F1B624D0B";
    let told = format!(
        "feed 0 taken=43 dropped=0 command=FB length=36 \
         reply=55AA10FB001A0A00{}2E past=- area=- | phase=told image-channel=10 version=010003 \
         announced=9 md5={MD5} crc=CBF43926",
        "00".repeat(24)
    );
    let fb = format!("feed 55AA10FB00240A0000000000000000010003{MD5}00000009CBF439266C");
    let fd = "feed 55AA10FD00100A00000009 4B37 313233343536373839 8E";
    let sent_again =
        "feed 0 taken=23 dropped=0 command=FD length=16 reply=55AA00FD00020A0008 past=- area=- |";
    same_lines(
        t,
        &[
            ("board 0 1 0A 010002 010000 0000000000000000", "ok"),
            (
                "open 1 65536",
                "open 0 | boards=1 board0=1,0A,010002,010000,0000000000000000 opened=65536",
            ),
            (
                "feed 55AA00FE0001 55AA00FE00010A08",
                "feed 0 taken=14 dropped=6 command=FE length=1 reply=55AA00FE00020A030C past=- \
             area=- |",
            ),
            (
                "feed 55AA00FA00030A010007",
                "feed 0 taken=10 dropped=0 command=FA length=3 reply=55AA00FA00070A0001000202000F \
             past=- area=- | phase=asked channel=10 agreed=256",
            ),
            (&fb, &told),
            (
                "feed 55AA00FC00050A000000000A",
                "feed 0 taken=12 dropped=0 command=FC length=5 reply=55AA00FC00050A000000000A \
             past=- area=- | phase=receiving",
            ),
            (
                fd,
                "feed 0 taken=23 dropped=0 command=FD length=16 reply=55AA00FD00020A0008 past=- \
             area=0:313233343536373839 | next=1 stored=9 last=9",
            ),
            (fd, sent_again),
            (
                "feed 55AA00FE00010A08 55",
                "feed 0 taken=8 dropped=0 command=FE length=1 reply=- past=- area=- | checking=1 \
             register=FFFFFFFF",
            ),
            (
                "portion 8",
                "portion 19 count=8 verdict=unfinished reply=- past=- | read=8 register=651F2550",
            ),
            (
                "feed 55AA00FE00010A08",
                "feed 12 taken=8 dropped=0 command=FE length=1 reply=- past=- area=- |",
            ),
            (
                "portion 8",
                "portion 0 count=1 verdict=right reply=55AA00FE00020A0009 past=- | phase=done \
             checking=0 read=0 register=00000000",
            ),
            ("report", "report 0 frame=55AA00F90008010A0100020100000F past=-"),
            ("set held 1 5555", "set | held=1:5555"),
            (
                "feed 55",
                "feed 1 taken=1 dropped=0 command=00 length=0 reply=- past=- area=- | holding=1 \
             held=0:550000",
            ),
            (
                "quiet",
                "quiet 1 taken=0 dropped=1 command=00 length=0 reply=- past=- area=- | holding=0 \
             held=0:00",
            ),
        ],
    );
}

fn p1_to_p5(t: &mut Tally) {
    let fed = |frame: &str| last_answer(&bench(&[&feed(frame)]));
    t.same("P2", value(&fed(P1), "reply"), "55AA00FE00020A030C");
    let refused = fed(&framed(0, 0xFA, &[10, 0, 15]));
    t.same("P5, Len1 15", value(&refused, "reply"), "55AA00FA00070A01010002020010");
    ends(t, &refused, " |");
    let granted = fed(&framed(0, 0xFA, &[10, 0, 16]));
    t.same("P5, Len1 16", value(&granted, "reply"), "55AA00FA00070A0001000202000F");
    t.same("agreed", value(&granted, "agreed"), "16");
    t.same("agreed, of 513", value(&fed(&framed(0, 0xFA, &[10, 2, 1])), "agreed"), "512");
}

fn p9_to_p11(t: &mut Tally) {
    let report = |room: &str| last_answer(&bench(&[room, "report"]));
    let p9 = "report 0 frame=55AA00F90008010A0100020100000F past=-";
    t.same("P9", report("room 15"), p9.into());
    t.same("P9, room 14", report("room 14"), "report 11 frame=- past=-".into());
    let p11 =
        answers(&bench(&[&feed(&format!("55AA00560000{P1}")), "feed AA00FE00010A08", "quiet"]));
    begins(t, &p11[2], "feed 2 taken=7 dropped=0 command=56 length=0 reply=- ");
    begins(t, &p11[3], "feed 1 taken=7 dropped=7 command=00 length=0 reply=- ");
}

/// "First version byte, L and channel are checked (outcomes 2, 3, 4 below, in that
/// order)."
fn first_checks_in_order(t: &mut Tally) {
    for (frame, wanted) in [
        (framed(9, 0xFF, &[]), "2"),
        (framed(9, 0xF8, &[]), "2"),
        (framed(1, 0xFE, &[99]), "3"),
        (framed(0, 0xFE, &[10, 0]), "3"),
        (framed(0x10, 0xFD, &[10; 6]), "3"),
        (framed(0x10, 0xFD, &[10; 7]), "0"),
        (framed(0, 0xFE, &[11]), "4"),
        (framed(0, 0xF9, &[11]), "0"),
        (framed(0, 0xF9, &[]), "3"),
        (framed(0, 0xFC, &[10, 0, 0, 0, 0]), "10"),
        (FB.into(), "10"),
    ] {
        gives(t, &bench(&[&feed(&frame)]), wanted);
    }
}

fn fb_refuses_in_order(t: &mut Tally) {
    for (pid, version, length, state, phase) in [
        (1, 2, [0; 4], "01", "idle"),
        (0, 2, [0; 4], "02", "idle"),
        (0, 3, [0; 4], "03", "idle"),
        (0, 3, [0, 1, 0, 1], "03", "idle"),
        (0, 3, [0, 1, 0, 0], "00", "told"),
    ] {
        let mut data = vec![10, pid, 0, 0, 0, 0, 0, 0, 0, 1, 0, version];
        data.extend([7; 16]);
        data.extend(length);
        data.extend([0; 4]);
        let answer = last_answer(&bench(&[&feed(P3), &feed(&framed(0x10, 0xFB, &data))]));
        t.same("FB's state", value(&answer, "reply").get(14..16), Some(state));
        t.same("FB's phase", value(&answer, "phase"), phase);
    }
}

fn fb_keeps_or_forgets_what_is_stored(t: &mut Tally) {
    let kept = last_answer(&receiving(&[&feed(P7), &feed(P3), &feed(FB)]));
    t.same("kept", value(&kept, "reply").get(12..32), Some("0A0000000009CBF43926"));
    ends(t, &kept, "| phase=told");
    let other = FB.replace("CBF439266C", "CBF439276D");
    let forgotten = last_answer(&receiving(&[&feed(P7), &feed(P3), &feed(&other)]));
    let none = "0A000000000000000000";
    t.same("forgotten", value(&forgotten, "reply").get(12..32), Some(none));
    ends(t, &forgotten, "| phase=told stored=0 crc=CBF43927 last=0");
    // FC: an offset that is not stored starts anew; one that is stored goes on there.
    let placed = |offset: u8| {
        last_answer(&receiving(&[&feed(P7), &feed(&framed(0, 0xFC, &[10, 0, 0, 0, offset]))]))
    };
    let anew = "reply=55AA00FC00050A000000000A past=- area=- | next=0 stored=0 last=0";
    ends(t, &placed(10), anew);
    ends(t, &placed(9), "reply=55AA00FC00050A0000000913 past=- area=- | next=0 last=0");
}

fn fd_refuses_in_order(t: &mut Tally) {
    let packet = |number: u8, n: u8, crc: u16, bytes: &[u8]| {
        let [high, low] = crc.to_be_bytes();
        feed(&framed(0x10, 0xFD, &[&[10, 0, number, 0, n, high, low], bytes].concat()))
    };
    let p7 = feed(P7);
    let ten = b"1234567890";
    let cases: [(&[&str], &str); 14] = [
        (&[&feed(P3), &packet(1, 9, 0, b"12")], "04"),
        (&[&packet(1, 9, 0, b"12")], "01"),
        (&[&packet(0, 9, 0, b"12")], "02"),
        (&[&packet(0, 0, 0xFFFF, b"")], "02"),
        (&[&packet(0, 10, crc16(ten), ten)], "02"),
        (&["set agreed 17", "set announced 18", &packet(0, 18, 0, &[0; 18])], "02"),
        (&[&packet(0, 9, 0, b"123456789")], "03"),
        // K2, after packet 0 was accepted: bytes and lengths alike, then the CRC.
        (&[&p7, &packet(0, 9, 0, b"123456789")], "03"),
        (&[&p7, &packet(0, 9, crc16(b"123456780"), b"123456780")], "01"),
        (&[&p7, &packet(0, 8, crc16(b"23456789"), b"23456789")], "01"),
        (&[&p7, &packet(0, 8, 0x4B37, b"123456789")], "01"),
        (&[&p7, &packet(1, 9, 0x4B37, b"123456789")], "02"),
        (&[&p7, "set last 0", &p7], "01"),
        (&[&p7, "set next 65536", &p7], "01"),
    ];
    for (lines, state) in cases {
        let answer = last_answer(&receiving(lines));
        t.same(&lines.join("; "), value(&answer, "reply").get(14..16), Some(state));
        ends(t, &answer, "area=- |");
    }
}

fn number_65535_is_the_last(t: &mut Tally) {
    let last = [&[10, 0xFF, 0xFF, 0, 9, 0x4B, 0x37], &b"123456789"[..]].concat();
    let last = feed(&framed(0x10, 0xFD, &last));
    let all = answers(&receiving(&["set announced 18", "set next 65535", &last, &last, &feed(P7)]));
    ends(t, &all[7], "| next=65536 stored=9 last=9");
    ends(t, &all[8], "reply=55AA00FD00020A0008 past=- area=- |");
    ends(t, &all[9], "reply=55AA00FD00020A0109 past=- area=- |");
}
