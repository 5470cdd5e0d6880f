//! Self-tests: the bench frames of 01, the check sums, round trips, live
//! reading against its wording, packets sent again (document 02, K2), the
//! outcomes a replay cannot show. The end check's (K5), the sender's, the
//! exchange's, the console's and that of the two receivers have files of their
//! own.

use crate::check::EndCheck;
use crate::crc::{crc16, crc32, CRC32_START};
use crate::frame::{self, judge, parse, Front, MAX_DATA, MAX_FRAME};
use crate::generate::{generate, KINDS, LONG_KIND};
use crate::reader::Reader;
use crate::receiver::{Outcome, Receiver, Report, MAX_AREA, REPLY_ROOM};
use crate::replay::{bench_receiver, replay_bytes, Replay, BENCH_AREA, BENCH_BOARD};
use crate::rng::Rng;
use crate::selftest_check;
use crate::selftest_console;
use crate::selftest_exchange;
use crate::selftest_receivers;
use crate::selftest_sender;
use crate::session::{Board, Identity, Phase, Session, NO_NEXT_NUMBER};
use crate::stored::{hex, stored};
use crate::wire::{self, Image};

/// Counts checks and prints those that fail.
#[derive(Default)]
pub struct Tally {
    checks: usize,
    failed: usize,
}

impl Tally {
    pub fn holds(&mut self, what: &str, holds: bool) {
        self.checks += 1;
        if !holds {
            self.failed += 1;
            println!("FAILED {what}");
        }
    }

    pub fn same<T: PartialEq + std::fmt::Debug>(&mut self, what: &str, got: T, wanted: T) {
        self.checks += 1;
        if got != wanted {
            self.failed += 1;
            println!("FAILED {what}\n  got    {got:?}\n  wanted {wanted:?}");
        }
    }
}

/// Runs them all; false if one failed.
pub fn run() -> bool {
    let mut tally = Tally::default();
    check_sums(&mut tally);
    bench_frames(&mut tally);
    frames(&mut tally);
    fronts(&mut tally);
    live_reading(&mut tally);
    generated_captures(&mut tally);
    stored_capture(&mut tally);
    opening(&mut tally);
    refused_calls(&mut tally);
    lawful_records(&mut tally);
    two_boards(&mut tally);
    repeated_packets(&mut tally);
    last_packet_kept_and_forgotten(&mut tally);
    repeated_or_not(&mut tally);
    last_number(&mut tally);
    selftest_check::run(&mut tally);
    selftest_sender::run(&mut tally);
    selftest_exchange::run(&mut tally);
    selftest_console::run(&mut tally);
    selftest_receivers::run(&mut tally);
    println!("selftest: {} checks, {} failed", tally.checks, tally.failed);
    tally.failed == 0
}

pub fn unhex(text: &str) -> Vec<u8> {
    let digits: Vec<u8> = text.bytes().filter(|byte| !byte.is_ascii_whitespace()).collect();
    let pair = |pair: &[u8]| u8::from_str_radix(std::str::from_utf8(pair).unwrap(), 16).unwrap();
    digits.chunks(2).map(pair).collect()
}

fn check_sums(t: &mut Tally) {
    t.same("CRC-16 of 123456789", crc16(b"123456789"), 0x4B37);
    t.same("CRC-16 of nothing", crc16(b""), 0xFFFF);
    t.same("CRC-32 of 123456789", crc32(b"123456789"), 0xCBF4_3926);
    t.same("CRC-32 of nothing", crc32(b""), 0);
    let bytes = Rng::new(1).bytes(1000);
    t.same("CRC-16 bit by bit", crc16(&bytes), bitwise_crc16(&bytes));
    t.same("CRC-32 bit by bit", crc32(&bytes), bitwise_crc32(&bytes));
}

fn bitwise_crc16(bytes: &[u8]) -> u16 {
    let mut crc = 0xFFFF_u16;
    for bit in bytes.iter().flat_map(|byte| (0..8).map(move |shift| (byte >> shift) & 1)) {
        let out = (crc >> 15) as u8 ^ bit;
        crc = (crc << 1) ^ if out == 1 { 0x8005 } else { 0 };
    }
    crc.reverse_bits()
}

fn bitwise_crc32(bytes: &[u8]) -> u32 {
    !bitwise_crc32_over(CRC32_START, bytes)
}

pub fn bitwise_crc32_over(register: u32, bytes: &[u8]) -> u32 {
    let mut crc = register;
    for bit in bytes.iter().flat_map(|byte| (0..8).map(move |shift| u32::from(byte >> shift) & 1)) {
        crc = (crc >> 1) ^ if (crc ^ bit) & 1 == 1 { 0xEDB8_8320 } else { 0 };
    }
    crc
}

pub const P1: &str = "55 AA 00 FE 00 01 0A 08";
const P2: &str = "55 AA 00 FE 00 02 0A 03 0C";
pub const P3: &str = "55 AA 00 FA 00 03 0A 01 00 07";
pub const P4: &str = "55 AA 00 FA 00 07 0A 00 01 00 02 02 00 0F";
pub const P6: &str = "55 AA 00 FC 00 05 0A 00 00 00 00 0A";
pub const P7: &str = "55 AA 10 FD 00 10 0A 00 00 00 09 4B 37 31 32 33 34 35 36 37 38 39 8E";
pub const P8: &str = "55 AA 00 FD 00 02 0A 00 08";
const P9: &str = "55 AA 00 F9 00 08 01 0A 01 00 02 01 00 00 0F";

/// A receiver with its area; frames go in whole, replies come out.
pub struct Desk {
    pub receiver: Receiver,
    pub area: Vec<u8>,
}

impl Desk {
    pub fn new() -> Self {
        Desk { receiver: bench_receiver(), area: vec![0; BENCH_AREA] }
    }

    /// The bench desk with a leg open for this image, agreed size 64, and packets
    /// of these lengths in.
    pub fn receiving(image: &Image, packets: &[usize]) -> Self {
        let mut desk = Desk::new();
        desk.send(&wire::fa(10, 64));
        desk.send(&wire::fb(10, image));
        desk.send(&wire::fc(10, 0));
        let mut start = 0;
        for (number, n) in packets.iter().enumerate() {
            desk.send(&wire::fd(10, number as u16, &image.bytes[start..start + n]));
            start += n;
        }
        assert_eq!(desk.receiver.session().stored as usize, start, "all packets are in");
        desk
    }

    /// Feeds a frame; an end check that it starts is made in one go.
    pub fn send(&mut self, frame: &[u8]) -> (u8, Vec<u8>) {
        let mut room = [0xEE; REPLY_ROOM + 5];
        let report = self.receiver.feed(frame, &mut self.area, &mut room);
        let report = self.receiver.finish_check(report, usize::MAX, &self.area, &mut room);
        assert!(room[report.reply..].iter().all(|&byte| byte == 0xEE), "room past the reply");
        (report.outcome as u8, room[..report.reply].to_vec())
    }
}

fn replayed(capture: &[u8]) -> String {
    String::from_utf8(replay_bytes(capture)).unwrap()
}

fn bench_frames(t: &mut Tally) {
    t.same("P1", hex(&wire::fe(10)), hex(&unhex(P1)));
    t.same("P2", Desk::new().send(&unhex(P1)), (0, unhex(P2)));
    t.same("P3", hex(&wire::fa(10, 256)), hex(&unhex(P3)));
    t.same("P4", Desk::new().send(&unhex(P3)), (0, unhex(P4)));
    let flag_1 = unhex("55 AA 00 FA 00 07 0A 01 01 00 02 02 00 10");
    t.same("P5, Len1 15", Desk::new().send(&wire::fa(10, 15)), (0, flag_1));
    t.same("P5, Len1 16", Desk::new().send(&wire::fa(10, 16)), (0, unhex(P4)));

    let mut desk = Desk::new();
    let image = Image::new([1, 0, 3], 0, b"123456789".to_vec());
    desk.send(&unhex(P3));
    let accepted = wire::frame(0x10, 0xFB, &[&[10][..], &[0; 25]].concat());
    t.same("FB for 9 bytes", desk.send(&wire::fb(10, &image)), (0, accepted));
    t.same("P6", desk.send(&unhex(P6)), (0, unhex(P6)));
    t.same("P7 as written", hex(&wire::fd(10, 0, b"123456789")), hex(&unhex(P7)));
    t.same("P8", desk.send(&unhex(P7)), (0, unhex(P8)));
    t.same("P8 again", desk.send(&unhex(P7)), (0, unhex(P8)));
    t.same("the area", &desk.area[..10], b"123456789\0");
    let done = unhex("55 AA 00 FE 00 02 0A 00 09");
    t.same("FE after P7", desk.send(&unhex(P1)), (0, done));

    let mut room = [0xEE; 16];
    t.same("P9 outcome", bench_receiver().report_boards(&mut room), (Outcome::Answered, 15));
    t.same("P9", hex(&room), hex(&[unhex(P9), vec![0xEE]].concat()));
    let mut small = [0xEE; 14];
    let refused = bench_receiver().report_boards(&mut small);
    t.same("outward F9, room 14", refused, (Outcome::SmallReportRoom, 0));
    t.same("outward F9, nothing written", small, [0xEE; 14]);

    let p10 = unhex(&format!("55 AA 00 FE 00 01 {P1}"));
    t.same("P10", replayed(&p10), "6 FE 0 55AA00FE00020A030C\nend dropped 6\n".into());
    let p11 = unhex(&format!("55 AA 00 56 00 00 {P1}"));
    t.same("P11", replayed(&p11), "0 56 2 -\nend dropped 7\n".into());
    t.same("empty capture", replayed(b""), "end dropped 0\n".into());
}

fn frames(t: &mut Tally) {
    let mut rng = Rng::new(2);
    for length in [0, 1, 2, 7, 36, 255, 256, 511, 512, 518, 519] {
        let data = rng.bytes(length);
        let mut room = vec![0xEE; length + 10];
        let written = frame::write(&mut room, 0x12, 0x34, &data);
        t.same("written length", written, 7 + length);
        t.same("bytes past the frame", &room[written..], &[0xEE; 3][..]);
        let read =
            parse(&room).map(|frame| (frame.version, frame.command, frame.data, frame.wire_len()));
        t.same("round trip", read, Some((0x12, 0x34, &data[..], written)));
        t.holds("cut by one, no frame", parse(&room[..written - 1]).is_none());
        let mut short = vec![0xEE; written - 1];
        t.same("room too small", frame::write(&mut short, 0, 0, &data), 0);
        t.holds("room untouched", short.iter().all(|&byte| byte == 0xEE));
        room[written - 1] ^= 1;
        t.holds("wrong sum, no frame", parse(&room).is_none());
    }
    let mut room = vec![0xEE; 600];
    t.same("520 bytes of data", frame::write(&mut room, 0, 0, &[0; 520]), 0);
    t.holds("room untouched", room.iter().all(|&byte| byte == 0xEE));
}

/// "A front that can no longer become a frame", at the earliest byte.
fn fronts(t: &mut Tally) {
    let cases: [(&[u8], Front); 15] = [
        (&[], Front::Needs(1)),
        (&[0x54], Front::Dead),
        (&[0xAA, 0x55], Front::Dead),
        (&[0x55], Front::Needs(2)),
        (&[0x55, 0x55], Front::Dead),
        (&[0x55, 0xAA], Front::Needs(5)),
        (&[0x55, 0xAA, 0xFF, 0xFF], Front::Needs(5)),
        (&[0x55, 0xAA, 0, 0, 3], Front::Dead),
        (&[0x55, 0xAA, 0, 0, 0xFF], Front::Dead),
        (&[0x55, 0xAA, 0, 0, 2], Front::Needs(6)),
        (&[0x55, 0xAA, 0, 0, 2, 8], Front::Dead),
        (&[0x55, 0xAA, 0, 0, 2, 7], Front::Needs(526)),
        (&[0x55, 0xAA, 0, 0, 0, 0], Front::Needs(7)),
        (&[0x55, 0xAA, 0, 0, 0, 0, 0xFF], Front::Whole(7)),
        (&[0x55, 0xAA, 0, 0, 0, 0, 0xFE, 0xFF], Front::Dead),
    ];
    for (bytes, wanted) in cases {
        t.same(&format!("front {bytes:02X?}"), judge(bytes), wanted);
    }
    let longest = wire::frame(0, 0, &[7; MAX_DATA]);
    t.same("length 02 07 can be a frame", judge(&longest), Front::Whole(MAX_FRAME));
}

/// Live reading as 01 words it, byte by byte.
#[derive(Default)]
struct WordedReader {
    held: Vec<u8>,
}

type WordedStep = (usize, usize, Option<(u8, u8, Vec<u8>)>);

impl WordedReader {
    fn take_front(&mut self) -> Option<(u8, u8, Vec<u8>)> {
        let frame = parse(&self.held)?;
        let (read, length) =
            ((frame.version, frame.command, frame.data.to_vec()), frame.wire_len());
        self.held.drain(..length);
        Some(read)
    }

    /// "can no longer become a frame": stated about the bytes, not by `judge`.
    fn hopeless(&self) -> bool {
        let h = &self.held;
        let at = |place: usize| h.get(place).copied();
        let whole = match (at(4), at(5)) {
            (Some(high), Some(low)) => usize::from(high) * 256 + usize::from(low) + 7,
            _ => usize::MAX,
        };
        at(0).is_some_and(|byte| byte != 0x55)
            || at(1).is_some_and(|byte| byte != 0xAA)
            || at(4).is_some_and(|byte| byte >= 3)
            || (whole != usize::MAX && whole > 526)
            || h.len() >= whole
    }

    fn feed(&mut self, new: &[u8]) -> WordedStep {
        let (mut taken, mut dropped) = (0, 0);
        loop {
            if let Some(frame) = self.take_front() {
                return (taken, dropped, Some(frame));
            } else if self.hopeless() {
                self.held.remove(0);
                dropped += 1;
            } else if taken < new.len() {
                self.held.push(new[taken]);
                taken += 1;
            } else {
                return (taken, dropped, None);
            }
        }
    }

    fn quiet(&mut self) -> WordedStep {
        let mut dropped = 0;
        while !self.held.is_empty() {
            if let Some(frame) = self.take_front() {
                return (0, dropped, Some(frame));
            }
            self.held.remove(0);
            dropped += 1;
        }
        (0, dropped, None)
    }
}

fn plain(step: crate::reader::Step<'_>) -> WordedStep {
    let frame = step.frame.map(|frame| (frame.version, frame.command, frame.data.to_vec()));
    (step.taken, step.dropped, frame)
}

/// Every call of the reader against the worded one, at random cuts.
fn live_reading(t: &mut Tally) {
    let mut rng = Rng::new(3);
    for round in 0..400 {
        let kind = KINDS[round % (KINDS.len() - 1)];
        let capture = generate(kind, rng.next()).unwrap();
        let capture = &capture[..capture.len().min(4000)];
        let (mut reader, mut worded) = (Reader::default(), WordedReader::default());
        let mut place = 0;
        let mut equal = true;
        let most = rng.pick(&[1, 3, 20, 600, 5000]);
        loop {
            let offer = rng.between(0, most).min(capture.len() - place);
            let new = &capture[place..place + offer];
            let step = worded.feed(new);
            place += step.0;
            let (took, found) = (step.0, step.2.is_some());
            equal &= plain(reader.feed(new)) == step && reader.held() == worded.held;
            equal &= reader.held_places()[worded.held.len()..].iter().all(|&byte| byte == 0);
            if place == capture.len() && !found && took == offer {
                break;
            }
        }
        loop {
            let step = worded.quiet();
            let found = step.2.is_some();
            equal &= plain(reader.quiet()) == step && reader.held() == worded.held;
            if !found {
                break;
            }
        }
        t.holds(&format!("live reading, {kind}, round {round}"), equal);
    }
}

/// "The reading of a byte sequence", answered frame by frame.
fn read_whole(capture: &[u8]) -> String {
    let mut desk = Desk::new();
    let (mut place, mut dropped, mut text) = (0, 0, String::new());
    while place < capture.len() {
        if let Some(frame) = parse(&capture[place..]) {
            let end = place + frame.wire_len();
            let (outcome, reply) = desk.send(&capture[place..end]);
            let reply = if reply.is_empty() { "-".into() } else { hex(&reply) };
            text += &format!("{place} {:02X} {outcome} {reply}\n", frame.command);
            place = end;
        } else {
            place += 1;
            dropped += 1;
        }
    }
    text + &format!("end dropped {dropped}\n")
}

/// Replays do not depend on the pieces and equal the reading of the whole; a
/// capture depends on kind and seed alone; every outcome turns up that a replay
/// can have.
fn generated_captures(t: &mut Tally) {
    let mut rng = Rng::new(4);
    let mut seen = [0_usize; 20];
    for round in 0..330 {
        let kind = KINDS[round % (KINDS.len() - 1)];
        let seed = rng.next();
        let capture = generate(kind, seed).unwrap();
        t.holds("same seed, same capture", generate(kind, seed).as_ref() == Some(&capture));
        let text = replayed(&capture);
        t.same(&format!("whole reading, {kind} {seed}"), &text, &read_whole(&capture));
        let piece = rng.pick(&[1, 2, 7, 64, 525, 526, 527, 4096]);
        let mut replay = Replay::new(Vec::new());
        capture.chunks(piece).for_each(|piece| replay.feed(piece).unwrap());
        let pieces = replay.finish().unwrap();
        t.holds(&format!("pieces of {piece}, {kind} {seed}"), pieces == text.as_bytes());
        let frames = text.lines().filter(|line| !line.starts_with("end"));
        for outcome in frames.filter_map(|line| line.split(' ').nth(2)?.parse::<usize>().ok()) {
            seen[outcome] += 1;
        }
    }
    for outcome in [0, 2, 3, 4, 10] {
        t.holds(&format!("outcome {outcome} turns up"), seen[outcome] > 50);
        seen[outcome] = 0;
    }
    t.same("no other outcome ever", seen, [0; 20]);
    let sound = replayed(&wire::sound(200_000));
    t.holds("sound transfers drop nothing", sound.ends_with("end dropped 0\n"));
    let ends: Vec<&str> = sound.lines().filter(|line| line.contains(" FE 0 ")).collect();
    let accepted = ends.iter().all(|line| line.ends_with("55AA00FE00020A0009"));
    t.holds("sound transfers are accepted", ends.len() >= 3 && accepted);
}

fn stored_capture(t: &mut Tally) {
    let stored = stored();
    let text = replayed(&stored.capture);
    let wanted = stored.expected();
    for (got, wanted) in text.lines().zip(wanted.lines()) {
        t.same("a line of the stored capture", got, wanted);
    }
    t.same("lines of the stored capture", text.lines().count(), wanted.lines().count());
    t.same("the stored capture, read whole", &read_whole(&stored.capture), &wanted);
    for outcome in [0, 2, 3, 4, 10] {
        let found = text.lines().any(|line| line.split(' ').nth(2) == Some(&outcome.to_string()));
        t.holds(&format!("the stored capture has outcome {outcome}"), found);
    }
    let states = [
        ("00FA00070A", 0..=1),
        ("10FB001A0A", 0..=3),
        ("00FD00020A", 0..=4),
        ("00FE00020A", 0..=1),
        ("00FE00020A", 3..=3),
    ];
    for (head, range) in states {
        for state in range {
            let reply = format!("55AA{head}{state:02X}");
            t.holds(&format!("the stored capture has {reply}"), text.contains(&reply));
        }
    }
}

fn opening(t: &mut Tally) {
    let board = |channel| Board { channel, ..BENCH_BOARD };
    let open = |channels: &[u8], area| {
        let boards: Vec<Board> = channels.iter().map(|&channel| board(channel)).collect();
        Receiver::open(&boards, area).err()
    };
    let ten: Vec<u8> = (10..=19).collect();
    t.same("one board", open(&[10], 1), None);
    t.same("ten boards", open(&ten, MAX_AREA), None);
    t.same("no board", open(&[], 1), Some(Outcome::BadList));
    t.same("eleven boards", open(&[&ten[..], &[10]].concat(), 1), Some(Outcome::BadList));
    t.same("channel 9", open(&[9], 1), Some(Outcome::BadList));
    t.same("channel 20", open(&[20], 1), Some(Outcome::BadList));
    t.same("a channel twice", open(&[10, 11, 10], 1), Some(Outcome::BadList));
    t.same("no area", open(&[10], 0), Some(Outcome::BadAreaLength));
    t.same("area too long", open(&[10], MAX_AREA + 1), Some(Outcome::BadAreaLength));
    t.same("8 before 7", open(&[9], 0), Some(Outcome::BadList));
    let mut room = [0; 80];
    let receiver = Receiver::open(&[board(19), board(10)], 1).unwrap();
    t.same("outward F9, two boards", receiver.report_boards(&mut room), (Outcome::Answered, 22));
    let wanted = wire::frame(0, 0xF9, &[2, 19, 1, 0, 2, 1, 0, 0, 10, 1, 0, 2, 1, 0, 0]);
    t.same("in list order", hex(&room[..22]), hex(&wanted));
}

/// "Calls check 9, 6, 5"; such a call changes nothing.
fn refused_calls(t: &mut Tally) {
    let refused =
        |outcome| Report { outcome, taken: 0, dropped: 0, command: 0, length: 0, reply: 0 };
    let mut receiver = bench_receiver();
    let (mut area, mut room) = (vec![0; BENCH_AREA], [0; REPLY_ROOM]);
    let p1 = unhex(P1);
    receiver.feed(&p1[..3], &mut area, &mut room);
    let held = receiver.reader().held().to_vec();
    for (area_len, room_len, outcome) in [
        (BENCH_AREA, 32, Outcome::SmallRoom),
        (BENCH_AREA - 1, 33, Outcome::OtherArea),
        (0, 0, Outcome::OtherArea),
    ] {
        let (mut area, mut room) = (vec![0; area_len], vec![0; room_len]);
        let report = receiver.feed(&p1[3..], &mut area, &mut room);
        t.same("refused feeding call", report, refused(outcome));
        t.same("refused quiet call", receiver.quiet(&mut area, &mut room), refused(outcome));
        t.same("held as before", receiver.reader().held(), &held[..]);
    }
    receiver.session.stored = 1;
    t.same("9 before 6 and 5", receiver.quiet(&mut [], &mut []), refused(Outcome::BadRecord));
    t.same("outward F9: 9 before 11", receiver.report_boards(&mut []), (Outcome::BadRecord, 0));
    receiver.session.stored = 0;
    let report = receiver.feed(&p1[3..], &mut area, &mut room);
    let wanted = Report {
        outcome: Outcome::Answered,
        taken: 5,
        dropped: 0,
        command: 0xFE,
        length: 1,
        reply: 9,
    };
    t.same("the frame, after all", report, wanted);
}

/// "Outcome 9 is given exactly when", on the session's fields.
fn lawful_records(t: &mut Tally) {
    let identity = Identity { length: 100, ..Identity::default() };
    let open = Session {
        phase: Phase::Receiving,
        channel: 10,
        packet_size: 16,
        next_number: NO_NEXT_NUMBER,
        stored: 100,
        last_packet: 100,
        identity,
        check: EndCheck::default(),
    };
    let mut check = |what: &str, lawful: bool, change: fn(&mut Session)| {
        let mut receiver = bench_receiver();
        receiver.session = open.clone();
        change(&mut receiver.session);
        t.same(what, receiver.lawful(), lawful);
    };
    check("an open leg", true, |_| {});
    check("stored above announced", false, |s| s.stored = 101);
    check("last packet's length above stored", false, |s| s.last_packet = 101);
    check("... in idle too", false, |s| (s.phase, s.stored) = (Phase::Idle, 99));
    check("last packet's length 512, above the agreed size", true, |s| {
        (s.last_packet, s.stored, s.identity.length) = (512, 512, 600)
    });
    check("last packet's length 513", false, |s| {
        (s.last_packet, s.stored, s.identity.length) = (513, 600, 600)
    });
    check("last packet's length 0", true, |s| s.last_packet = 0);
    check("announced the area's", true, |s| s.identity.length = 65_536);
    check("announced above the area's", false, |s| s.identity.length = 65_537);
    check("... in idle too", false, |s| (s.phase, s.identity.length) = (Phase::Idle, 65_537));
    check("next number 65,537", false, |s| s.next_number = 65_537);
    check("channel not listed", false, |s| s.channel = 11);
    check("channel not listed, idle", true, |s| (s.phase, s.channel) = (Phase::Idle, 11));
    check("agreed size 15", false, |s| s.packet_size = 15);
    check("agreed size 513", false, |s| (s.phase, s.packet_size) = (Phase::Asked, 513));
    check("agreed size 0, idle", true, |s| (s.phase, s.packet_size) = (Phase::Idle, 0));
    check("agreed size 512", true, |s| s.packet_size = 512);
    check("announced 0, asked", true, |s| {
        (s.phase, s.stored, s.last_packet, s.identity.length) = (Phase::Asked, 0, 0, 0)
    });
    check("announced 0, told", false, |s| {
        (s.phase, s.stored, s.last_packet, s.identity.length) = (Phase::Told, 0, 0, 0)
    });
    check("announced 0, done", false, |s| {
        (s.phase, s.stored, s.last_packet, s.identity.length) = (Phase::Done, 0, 0, 0)
    });
    check("identity of another channel", true, |s| s.identity.channel = 99);
}

/// The session's channel, a board without permit, and moving between boards.
fn two_boards(t: &mut Tally) {
    let boards = [
        BENCH_BOARD,
        Board { channel: 12, pid: *b"PID-0012", ..BENCH_BOARD },
        Board { channel: 19, permit: false, ..BENCH_BOARD },
    ];
    let mut desk =
        Desk { receiver: Receiver::open(&boards, BENCH_AREA).unwrap(), area: vec![0; BENCH_AREA] };
    let first = Image::new([1, 0, 3], 1, b"abcdefgh".to_vec());
    let mut second = first.clone();
    second.pid = *b"PID-0012";
    let state = |answer: (u8, Vec<u8>)| (answer.0, answer.1.get(7).copied());

    t.same("no permit: flag 1", state(desk.send(&wire::fa(19, 512))), (0, Some(1)));
    t.same("FA on 10", state(desk.send(&wire::fa(10, 512))), (0, Some(0)));
    t.same("FB on another channel", state(desk.send(&wire::fb(12, &second))), (10, None));
    t.same("FB on 10", state(desk.send(&wire::fb(10, &first))), (0, Some(0)));
    t.same("FC on another channel", state(desk.send(&wire::fc(12, 0))), (10, None));
    t.same("FC on 10", state(desk.send(&wire::fc(10, 0))), (0, Some(0)));
    t.same("FD on another channel", state(desk.send(&wire::fd(12, 0, b"abcd"))), (0, Some(4)));
    t.same("FD on 10", state(desk.send(&wire::fd(10, 0, b"abcd"))), (0, Some(0)));
    t.same("FD on 10 again", state(desk.send(&wire::fd(10, 0, b"abcd"))), (0, Some(0)));
    t.same("... on another channel", state(desk.send(&wire::fd(12, 0, b"abcd"))), (0, Some(4)));
    t.same("FE on another channel", state(desk.send(&wire::fe(12))), (0, Some(3)));
    t.same("no permit: flag 1 again", state(desk.send(&wire::fa(19, 512))), (0, Some(1)));
    t.same("FE on 10, incomplete", state(desk.send(&wire::fe(10))), (0, Some(1)));
    t.same("FA on 12 moves the session", state(desk.send(&wire::fa(12, 512))), (0, Some(0)));
    t.same("FB on 10 now", state(desk.send(&wire::fb(10, &first))), (10, None));
    desk.send(&wire::fa(10, 512));
    let (_, reply) = desk.send(&wire::fb(10, &first));
    let mut wanted = vec![10, 0, 0, 0, 0, 4];
    wanted.extend(crc32(b"abcd").to_be_bytes());
    t.same("10 resumes", &reply[6..16], &wanted[..]);
    desk.send(&wire::fa(12, 512));
    let (_, reply) = desk.send(&wire::fb(12, &second));
    t.same("12's image is another one", &reply[6..16], &[12, 0, 0, 0, 0, 0, 0, 0, 0, 0][..]);
}

/// Sends an FD that must get this state and change neither record nor area.
fn refused_or_repeated(t: &mut Tally, desk: &mut Desk, what: &str, frame: &[u8], state: u8) {
    let (session, area) = (desk.receiver.session().clone(), desk.area.clone());
    t.same(what, desk.send(frame), (0, wire::frame(0x00, 0xFD, &[10, state])));
    t.same(&format!("{what}: the record stays"), desk.receiver.session(), &session);
    t.holds(&format!("{what}: the area stays"), desk.area == area);
}

/// Sixty bytes, no two alike.
pub fn sixty() -> Image {
    Image::new([1, 0, 3], 1, (0..60).map(|place| place * 4 + 3).collect())
}

/// Document 02, K2: a packet whose reply was lost, and what is not that packet.
fn repeated_packets(t: &mut Tally) {
    let image = sixty();
    let bytes = &image.bytes[..];
    let last = &bytes[20..32];
    let again = wire::fd(10, 1, last);
    let raw = |number, n, crc, bytes: &[u8]| wire::fd_raw(10, number, n, crc, bytes);
    let changed = |place: usize| {
        let mut bytes = last.to_vec();
        bytes[place] ^= 0x10;
        bytes
    };
    let mut desk = Desk::receiving(&image, &[20, 12]);
    let mut check = |what: &str, frame: &[u8], state| {
        refused_or_repeated(t, &mut desk, what, frame, state);
    };
    check("packet 1 again", &again, 0);
    check("... a second time", &again, 0);
    check("... a third time", &again, 0);
    check("again, CRC-16 wrong", &raw(1, 12, !crc16(last), last), 3);
    check("... and right once more", &again, 0);
    check("again, first byte another", &wire::fd(10, 1, &changed(0)), 1);
    check("again, last byte another", &wire::fd(10, 1, &changed(11)), 1);
    check("... CRC-16 wrong too: 01", &raw(1, 12, crc16(last), &changed(11)), 1);
    check("the area's last 11 bytes", &wire::fd(10, 1, &bytes[21..32]), 1);
    check("the area's last 13 bytes", &wire::fd(10, 1, &bytes[19..32]), 1);
    check("all 32 bytes stored", &wire::fd(10, 1, &bytes[..32]), 1);
    for there in [21..32, 20..31, 19..32, 20..33] {
        let what = format!("n 12, bytes {there:?} there");
        let there = &bytes[there];
        check(&what, &raw(1, 12, crc16(there), there), 1);
    }
    check("n 11, 12 bytes there", &raw(1, 11, crc16(last), last), 1);
    check("n 13, 12 bytes there", &raw(1, 13, crc16(last), last), 1);
    check("n 12 + 256, 12 bytes there", &raw(1, 12 + 256, crc16(last), last), 1);
    check("no bytes", &wire::fd(10, 1, &[]), 1);
    check("packet 0, two back", &wire::fd(10, 0, &bytes[..20]), 1);
    check("packet 1's bytes as 0", &wire::fd(10, 0, last), 1);
    check("packet 1's bytes as 3", &wire::fd(10, 3, last), 1);
    check("packet 0's last bytes as 1", &wire::fd(10, 1, &bytes[8..20]), 1);
    check("the next, CRC-16 wrong", &raw(2, 8, !crc16(&bytes[32..40]), &bytes[32..40]), 3);
    check("the next, too long", &wire::fd(10, 2, &[0; 29]), 2);
    check("packet 1 after refused ones", &again, 0);
    let (outcome, reply) = desk.send(&wire::fe(10));
    t.same("FE, incomplete", (outcome, reply[7]), (0, 1));
    refused_or_repeated(t, &mut desk, "packet 1 after FE", &again, 0);
    let (outcome, reply) = desk.send(&wire::fa(10, 15));
    t.same("FA, flag 1", (outcome, reply[7]), (0, 1));
    refused_or_repeated(t, &mut desk, "packet 1 after a flag 1", &again, 0);

    t.same("packet 2", desk.send(&wire::fd(10, 2, &bytes[32..])).1[7], 0);
    t.same("stored", desk.receiver.session().stored, 60);
    refused_or_repeated(t, &mut desk, "packet 1, two back now", &again, 1);
    let again = wire::fd(10, 2, &bytes[32..]);
    refused_or_repeated(t, &mut desk, "packet 2 again, nothing is missing", &again, 0);
    let wrong = raw(2, 28, 0, &bytes[32..]);
    refused_or_repeated(t, &mut desk, "... its CRC-16 wrong", &wrong, 3);
    t.same("FE", desk.send(&wire::fe(10)).1[7], 0);
    refused_or_repeated(t, &mut desk, "packet 2 again in done", &again, 4);
}

/// "The record gains the last packet's length, 0 after FC and whenever stored
/// becomes 0; while it is 0 the test never holds."
fn last_packet_kept_and_forgotten(t: &mut Tally) {
    let image = sixty();
    let bytes = &image.bytes[..];
    let again = wire::fd(10, 1, &bytes[20..32]);
    let fields = |desk: &Desk| {
        let session = desk.receiver.session();
        (session.phase, session.stored, session.last_packet)
    };
    t.same("a fresh record", fields(&Desk::new()), (Phase::Idle, 0, 0));

    let mut desk = Desk::receiving(&image, &[20, 12]);
    t.same("two packets in", fields(&desk), (Phase::Receiving, 32, 12));
    desk.send(&wire::fc(10, 32));
    t.same("FC at stored", fields(&desk), (Phase::Receiving, 32, 0));
    refused_or_repeated(t, &mut desk, "packet 1 after FC at stored", &again, 1);
    let below_none = wire::fd(10, 0xFFFF, &bytes[20..32]);
    refused_or_repeated(t, &mut desk, "no number is below 0", &below_none, 1);
    let nothing = wire::fd(10, 0xFFFF, &[]);
    refused_or_repeated(t, &mut desk, "no bytes, below 0", &nothing, 1);
    desk.send(&wire::fd(10, 0, &bytes[32..36]));
    t.same("a packet of the new leg", fields(&desk), (Phase::Receiving, 36, 4));
    let again_0 = wire::fd(10, 0, &bytes[32..36]);
    refused_or_repeated(t, &mut desk, "... sent again", &again_0, 0);
    desk.send(&wire::fc(10, 35));
    t.same("FC not at stored", fields(&desk), (Phase::Receiving, 0, 0));
    refused_or_repeated(t, &mut desk, "packet 1 after that", &again, 1);

    let mut desk = Desk::receiving(&image, &[20, 12]);
    desk.send(&wire::fa(10, 16));
    t.same("FA keeps it", fields(&desk), (Phase::Asked, 32, 12));
    refused_or_repeated(t, &mut desk, "packet 1 in asked", &again, 4);
    desk.send(&wire::fb(10, &image));
    t.same("FB keeps it, same identity", fields(&desk), (Phase::Told, 32, 12));
    refused_or_repeated(t, &mut desk, "packet 1 in told", &again, 4);
    let refused = Image { length: 0, ..image.clone() };
    desk.send(&wire::fb(10, &refused));
    t.same("a refused FB keeps it", fields(&desk), (Phase::Idle, 32, 12));
    desk.send(&wire::fa(10, 16));
    desk.send(&wire::fb(10, &image));
    desk.send(&wire::fc(10, 32));
    t.same("FC of the resumed leg", fields(&desk), (Phase::Receiving, 32, 0));
    refused_or_repeated(t, &mut desk, "packet 1 in the resumed leg", &again, 1);

    let mut desk = Desk::receiving(&image, &[20, 12]);
    let other = Image { md5: [2; 16], ..image.clone() };
    desk.send(&wire::fb(10, &other));
    t.same("another identity", fields(&desk), (Phase::Told, 0, 0));

    let bad = Image { crc32: !image.crc32, ..image.clone() };
    let mut desk = Desk::receiving(&bad, &[20, 40]);
    desk.send(&wire::fe(10));
    t.same("a failed end check", fields(&desk), (Phase::Idle, 0, 0));
    let mut desk = Desk::receiving(&image, &[20, 40]);
    desk.send(&wire::fe(10));
    t.same("a passed one keeps it", fields(&desk), (Phase::Done, 60, 40));
}

/// FD in receiving on all lawful corners of the record, some of which no leg
/// leads to: next number, last packet's length and stored against number, n,
/// bytes there, bytes right and CRC-16 right.
fn repeated_or_not(t: &mut Tally) {
    let image = Image::new([1, 0, 3], 1, (0..100).collect());
    let stored = 85; // 15 bytes are missing, one less than the agreed size
    let mut desk = Desk::new();
    let session = |next_number, last_packet| Session {
        phase: Phase::Receiving,
        channel: 10,
        packet_size: 16,
        next_number,
        stored: stored as u32,
        last_packet,
        identity: Identity { length: image.length, ..Identity::default() },
        check: EndCheck::default(),
    };
    let mut states = [0_usize; 5];
    for (next, last) in [0, 1, 2, 0x100, 0xFFFF, NO_NEXT_NUMBER]
        .into_iter()
        .flat_map(|next| [0, 1, 15, 16, 40].map(|last: u16| (next, last)))
    {
        for (number, n) in [0, 1, 2, 0xFF, 0x100, 0xFFFE, 0xFFFF]
            .into_iter()
            .flat_map(|number| [0, 1, 14, 15, 16, 17, 40, 41].map(|n: u16| (number, n)))
        {
            for (there, right_bytes, right_crc) in [0, 1, 14, 15, 16, 17, 40, 41]
                .into_iter()
                .flat_map(|there| [true, false].map(|right| (there, right)))
                .flat_map(|(there, right)| [true, false].map(|crc| (there, right, crc)))
            {
                let mut bytes = image.bytes[stored - there..stored].to_vec();
                if let (Some(first), false) = (bytes.first_mut(), right_bytes) {
                    *first ^= 0x80;
                }
                let crc = if right_crc { crc16(&bytes) } else { !crc16(&bytes) };
                let repeated = last > 0
                    && next == u32::from(number) + 1
                    && n == last
                    && there == usize::from(last)
                    && right_bytes;
                let wanted = if repeated && right_crc {
                    0
                } else if repeated {
                    3
                } else if u32::from(number) != next {
                    1
                } else if usize::from(n) != there || n == 0 || n > 15 {
                    2
                } else if !right_crc {
                    3
                } else {
                    0
                };
                states[wanted] += 1;

                desk.receiver.session = session(next, last);
                desk.area[..100].copy_from_slice(&image.bytes);
                let frame = wire::fd_raw(10, number, n, crc, &bytes);
                let mut after = session(next, last);
                let mut area = image.bytes.clone();
                if wanted == 0 && !repeated {
                    area[stored..stored + there].copy_from_slice(&bytes);
                    after.stored += u32::from(n);
                    after.next_number += 1;
                    after.last_packet = n;
                }
                let (_, reply) = desk.send(&frame);
                let got =
                    (reply.get(7).copied(), desk.receiver.session().clone(), &desk.area[..100]);
                let wanted = (Some(wanted as u8), after, &area[..]);
                t.same("an FD on a corner", got, wanted);
            }
        }
    }
    t.holds("states 00 to 03 all turn up", states[..4].iter().all(|&count| count > 20));
}

/// "After number 65,535 no packet is next", but it is the one below 65,536.
fn last_number(t: &mut Tally) {
    let capture = generate(LONG_KIND, 5).unwrap();
    let text = replayed(&capture);
    let ends: Vec<&str> = text
        .lines()
        .filter(|line| !line.starts_with("end"))
        .map(|line| &line[line.len() - 4..])
        .collect();
    let (body, tail) = ends.split_at(ends.len() - 17);
    let count = |end: &str| body.iter().filter(|&&other| other == end).count();
    // FA, FB and FC; then a packet of each number, some sent again.
    let (right, wrong) = (count("0008"), count("030B"));
    t.same("nothing else", 3 + right + wrong, body.len());
    t.holds("packets again", right > 65_536 + 30 && wrong > 30);
    let after_the_last = [
        "0109", "0109", "0109", "0008", // FD 0, 1, 65,534; 65,535 again
        "030B", "0109", "0008", // its CRC-16 wrong; another byte; again
        "0009", "040C", // FE; in done
    ];
    t.same("numbers after the last", &tail[..9], &after_the_last[..]);
    // FB, FC at stored
    t.same("a new leg: 65,535; 0, past the end; FE", &tail[11..14], &["0109", "020A", "0009"][..]);
    // FB, FC at 1
    t.same("FD after the reset", tail[16], "0008");
}
