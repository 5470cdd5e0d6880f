//! Self-tests of the end check in slices (document 02, K5): portion calls, frames
//! while a check runs, outcome 9's new part. Those on random records and runs have
//! a file of their own.

use crate::check::{EndCheck, Portion, Verdict};
use crate::crc::{crc32, crc32_over, CRC32_START};
use crate::frame::parse;
use crate::receiver::{Outcome, Receiver, Report, REPLY_ROOM};
use crate::replay::{BENCH_AREA, BENCH_BOARD};
use crate::rng::Rng;
use crate::selftest::{bitwise_crc32_over, sixty, Desk, Tally};
use crate::selftest_check_random;
use crate::session::{Board, Identity, Phase, Session};
use crate::wire::{self, Image};

pub fn run(t: &mut Tally) {
    outcome_numbers(t);
    register_in_parts(t);
    starting(t);
    slicings(t);
    unfinished_calls(t);
    verdicts(t);
    no_check(t);
    refusals_in_order(t);
    reader_untouched(t);
    frames_while_running(t);
    lawful_checks(t);
    answered_at_once(t);
    ended_again(t);
    changed_bytes(t);
    selftest_check_random::run(t);
}

/// What may stand in the check's fields while none runs.
pub const LEFTOVERS: EndCheck = EndCheck { running: false, read: 77_777, register: 0x1234_5678 };
/// With this before it, as the head of a longest frame, a frame waits for a quiet
/// call.
pub const FALSE_HEAD: [u8; 6] = [0x55, 0xAA, 0x00, 0x00, 0x02, 0x07];
/// What the room is full of before a call.
pub const UNWRITTEN: u8 = 0xEE;

pub fn boards() -> [Board; 3] {
    [
        BENCH_BOARD,
        Board { channel: 12, ..BENCH_BOARD },
        Board { channel: 19, permit: false, ..BENCH_BOARD },
    ]
}

/// The bench area with all of this image stored on channel 10, an FE being next;
/// past the image the area is not zero.
fn all_stored(image: &Image) -> Desk {
    let mut receiver = Receiver::open(&boards(), BENCH_AREA).unwrap();
    receiver.session = Session {
        phase: Phase::Receiving,
        channel: 10,
        packet_size: 64,
        next_number: 3,
        stored: image.length,
        last_packet: 1,
        identity: Identity {
            channel: 10,
            version: image.version,
            length: image.length,
            md5: image.md5,
            crc32: image.crc32,
        },
        check: LEFTOVERS,
    };
    let mut area = image.bytes.clone();
    area.resize(BENCH_AREA, 0xA5);
    Desk { receiver, area }
}

/// The same once FE has started the check.
fn checking(image: &Image) -> Desk {
    let mut desk = all_stored(image);
    desk.call_feed(&wire::fe(10));
    assert!(desk.receiver.session.check.running, "FE starts a check");
    desk
}

/// The same once the check has read that many bytes.
fn checked_up_to(image: &Image, read: usize) -> Desk {
    let mut desk = checking(image);
    let (_, portion, _) = desk.call_portion(read);
    assert_eq!(portion.count, read, "that many bytes are read");
    desk
}

/// An image that FB announced with another CRC-32.
fn falsely_announced(image: Image) -> Image {
    Image { crc32: image.crc32 ^ 1, ..image }
}

impl Desk {
    /// A feeding call and nothing after it: its report and the room.
    fn call_feed(&mut self, bytes: &[u8]) -> (Report, [u8; REPLY_ROOM]) {
        let mut room = [UNWRITTEN; REPLY_ROOM];
        let report = self.receiver.feed(bytes, &mut self.area, &mut room);
        (report, room)
    }

    /// A portion call with what it gives and the room.
    pub fn call_portion(&mut self, most: usize) -> (Outcome, Portion, [u8; REPLY_ROOM]) {
        let mut room = [UNWRITTEN; REPLY_ROOM];
        let (outcome, portion) = self.receiver.portion(most, &self.area, &mut room);
        (outcome, portion, room)
    }
}

/// What an unfinished portion call of that many bytes gives.
fn unfinished(count: usize) -> (Outcome, Portion, [u8; REPLY_ROOM]) {
    let portion = Portion { count, verdict: Verdict::Unfinished, reply: 0 };
    (Outcome::CheckUnfinished, portion, [UNWRITTEN; REPLY_ROOM])
}

/// What the finishing portion call of that many bytes gives on channel 10.
fn finished(count: usize, right: bool) -> (Outcome, Portion, [u8; REPLY_ROOM]) {
    let (verdict, state) = if right { (Verdict::Right, 0x00) } else { (Verdict::Wrong, 0x03) };
    let mut room = [UNWRITTEN; REPLY_ROOM];
    room[..9].copy_from_slice(&wire::frame(0x00, 0xFE, &[10, state]));
    (Outcome::Answered, Portion { count, verdict, reply: 9 }, room)
}

/// The record after the verdict: "makes FE's changes and zeroes the check's own
/// fields".
pub fn after_verdict(before: &Session, right: bool) -> Session {
    let check = EndCheck { running: false, read: 0, register: 0 };
    if right {
        return Session { phase: Phase::Done, check, ..before.clone() };
    }
    Session {
        phase: Phase::Idle,
        stored: 0,
        last_packet: 0,
        identity: Identity { channel: 0, version: [0; 3], length: 0, md5: [0; 16], crc32: 0 },
        check,
        ..before.clone()
    }
}

fn outcome_numbers(t: &mut Tally) {
    let numbers = [Outcome::CheckRunning, Outcome::NoCheck, Outcome::CheckUnfinished];
    t.same("outcomes 12, 18 and 19", numbers.map(|outcome| outcome as u8), [12, 18, 19]);
    t.same("no check", EndCheck::default(), EndCheck { running: false, read: 0, register: 0 });
    let started = EndCheck { running: true, read: 0, register: 0xFFFF_FFFF };
    t.same("a check started", EndCheck::STARTED, started);
}

fn register_in_parts(t: &mut Tally) {
    let bytes = Rng::new(20).bytes(300);
    for cut in 0..=bytes.len() {
        let (front, back) = bytes.split_at(cut);
        let register = crc32_over(crc32_over(CRC32_START, front), back);
        t.same("CRC-32 in two parts", !register, crc32(&bytes));
        let register = crc32_over(!cut as u32, front);
        t.same("any register, bit by bit", register, bitwise_crc32_over(!cut as u32, front));
    }
}

/// "An FE that gets as far as the CRC starts a check (outcome 0, no reply)"; what
/// the check's fields held before does not matter.
fn starting(t: &mut Tally) {
    for phase in [Phase::Receiving, Phase::Done] {
        for image in [sixty(), falsely_announced(sixty())] {
            let mut desk = all_stored(&image);
            desk.receiver.session.phase = phase;
            let (before, area) = (desk.receiver.session.clone(), desk.area.clone());
            let wanted = Report {
                outcome: Outcome::Answered,
                taken: 8,
                dropped: 0,
                command: 0xFE,
                length: 1,
                reply: 0,
            };
            let got = desk.call_feed(&wire::fe(10));
            t.same("FE starts a check", got, (wanted, [UNWRITTEN; REPLY_ROOM]));
            let after = Session { check: EndCheck::STARTED, ..before };
            t.same("... and changes nothing else", &desk.receiver.session, &after);
            t.holds("... nor the area", desk.area == area);
        }
    }
}

/// "That count is the smaller of the largest number and what is left unread"; the
/// "verdict is that of the check in one go", however it is sliced.
fn slicings(t: &mut Tally) {
    let mut rng = Rng::new(21);
    let lengths = [1, 2, 3, 59, 60, 999, 1_000, 1_001, BENCH_AREA];
    for round in 0..90 {
        let length = *lengths.get(round).unwrap_or(&rng.between(1, 5_000));
        let mut image = Image::new([1, 0, 3], 1, rng.bytes(length));
        if rng.chance(500) {
            let place = rng.below(length);
            image.bytes[place] ^= 1 << rng.below(8);
        }
        let right = bitwise_crc32_over(CRC32_START, &image.bytes) == !image.crc32;
        let least = length.div_ceil(300); // no more than 300 calls
        for most in [least, least + 6, 1_000, length - 1, length, length + 1, usize::MAX] {
            slicing(t, &image, right, &mut || most.max(1));
        }
        for most in [length / 20 + 1, length / 3 + 1, length] {
            slicing(t, &image, right, &mut || rng.between(0, most));
        }
    }
    for image in [sixty(), falsely_announced(sixty())] {
        slicing(t, &image, image.crc32 == crc32(&image.bytes), &mut || 1);
    }
}

/// Finishes the check of the image with portions of these sizes.
fn slicing(t: &mut Tally, image: &Image, right: bool, most: &mut dyn FnMut() -> usize) {
    let mut desk = checking(image);
    let before = desk.receiver.session.clone();
    let (mut left, mut equal) = (image.bytes.len(), true);
    while left > 0 {
        let most = most();
        let count = if most < left { most } else { left };
        left -= count;
        let wanted = if left > 0 { unfinished(count) } else { finished(count, right) };
        equal &= desk.call_portion(most) == wanted;
        equal &= desk.receiver.session.check.running == (left > 0);
    }
    t.holds(&format!("counts and verdict, {} bytes", image.length), equal);
    t.same("the record at the end", desk.receiver.session, after_verdict(&before, right));
}

/// "before that it is 19": read and register move on, nothing else changes.
fn unfinished_calls(t: &mut Tally) {
    let image = sixty();
    let mut desk = checking(&image);
    let mut read = 0;
    for most in [0, 1, 0, 0, 20, 7, 30, 0, 1, 0] {
        let before = desk.receiver.clone();
        t.same(&format!("{most} bytes from {read} on"), desk.call_portion(most), unfinished(most));
        read += most;
        let register = bitwise_crc32_over(CRC32_START, &image.bytes[..read]);
        let mut wanted = before;
        wanted.session.check = EndCheck { running: true, read: read as u64, register };
        t.same("read and register", desk.receiver.session.check, wanted.session.check);
        t.holds("all else stays", desk.receiver == wanted);
    }
    t.same("one byte is left", read, 59);
    t.same("most above it", desk.call_portion(2), finished(1, true));
}

/// The finishing call: FE's reply, FE's changes, the fields zeroed.
fn verdicts(t: &mut Tally) {
    for (image, right) in [(sixty(), true), (falsely_announced(sixty()), false)] {
        for phase in [Phase::Receiving, Phase::Done] {
            for (read, most) in [(0, 60), (0, usize::MAX), (59, 1), (30, 30), (30, 31)] {
                let mut desk = checked_up_to(&image, read);
                desk.receiver.session.phase = phase;
                let mut wanted = desk.receiver.clone();
                wanted.session = after_verdict(&wanted.session, right);
                let what = format!("verdict in {phase:?}, {read} read, most {most}");
                t.same(&what, desk.call_portion(most), finished(60 - read, right));
                t.same("... the session", &desk.receiver.session, &wanted.session);
                t.holds("... all of the record", desk.receiver == wanted);
                t.holds("... which is lawful", desk.receiver.lawful());
            }
        }
    }
    let image = sixty();
    let mut desk = Desk::receiving(&image, &[20, 40]);
    desk.receiver.feed(&wire::fe(10), &mut desk.area, &mut [0; REPLY_ROOM]);
    let mut room = [UNWRITTEN; REPLY_ROOM + 5];
    let (_, portion) = desk.receiver.portion(60, &desk.area, &mut room);
    t.same("a longer room", (&room[..9], portion.reply), (&finished(60, true).2[..9], 9));
    t.holds("... stays past the reply", room[9..].iter().all(|&byte| byte == UNWRITTEN));

    let mut desk = all_stored(&sixty());
    desk.receiver.session.channel = 12; // the identity's is another one
    desk.call_feed(&wire::fe(12));
    let (_, _, room) = desk.call_portion(60);
    let wanted = wire::frame(0x00, 0xFE, &[12, 0]);
    t.same("the session's channel in the reply", &room[..9], &wanted[..]);
}

/// 18: "count 0, unfinished, nothing changed".
fn no_check(t: &mut Tally) {
    let refused = (Outcome::NoCheck, Portion::default(), [UNWRITTEN; REPLY_ROOM]);
    let none = Portion { count: 0, verdict: Verdict::Unfinished, reply: 0 };
    t.same("count 0, unfinished, no reply", refused.1, none);
    let mut check = |what: &str, desk: &mut Desk| {
        for most in [0, 1, 60, usize::MAX] {
            let before = desk.receiver.clone();
            t.same(what, desk.call_portion(most), refused);
            t.holds("18 changes nothing", desk.receiver == before);
        }
    };
    check("a fresh record", &mut Desk::new());
    check("all is stored", &mut all_stored(&sixty()));
    for image in [sixty(), falsely_announced(sixty())] {
        let mut desk = checked_up_to(&image, 59);
        desk.call_portion(1);
        check("after the verdict", &mut desk);
    }
    let mut desk = Desk::receiving(&sixty(), &[20]);
    desk.call_feed(&wire::fe(10));
    check("after an FE 01", &mut desk);
    desk.receiver.session.check = LEFTOVERS;
    check("leftovers in the fields", &mut desk);
}

/// "refuse 9, 6, 5, then 18": each alone, each pair, all; nothing changes.
fn refusals_in_order(t: &mut Tally) {
    for met in 0..16 {
        let [unlawful, other_area, small_room, no_check] = [1, 2, 4, 8].map(|bit| met & bit != 0);
        let mut desk = checked_up_to(&sixty(), 10);
        desk.receiver.session.check.running = !no_check;
        if unlawful {
            desk.receiver.session.next_number = 65_537;
        }
        let wanted = match () {
            _ if unlawful => Outcome::BadRecord,
            _ if other_area => Outcome::OtherArea,
            _ if small_room => Outcome::SmallRoom,
            _ if no_check => Outcome::NoCheck,
            _ => continue,
        };
        let before = desk.receiver.clone();
        for area_len in if other_area { vec![0, 60, BENCH_AREA - 1] } else { vec![BENCH_AREA] } {
            for room_len in if small_room { vec![0, 9, 32] } else { vec![33, 34] } {
                for most in [0, 1, 50, 60] {
                    let mut room = vec![UNWRITTEN; room_len];
                    let got = desk.receiver.portion(most, &desk.area[..area_len], &mut room);
                    t.same(&format!("refusals {met:04b}"), got, (wanted, Portion::default()));
                    t.holds("the record stays", desk.receiver == before);
                    t.holds("the room stays", room.iter().all(|&byte| byte == UNWRITTEN));
                }
            }
        }
    }
}

/// "Portion calls leave what stands past the held bytes", and the held ones.
fn reader_untouched(t: &mut Tally) {
    for (image, right) in [(sixty(), true), (falsely_announced(sixty()), false)] {
        for held in [0, 1, 100, 525] {
            let mut desk = checking(&image);
            let unfinished_frame = &wire::frame(0, 0, &[7; 519])[..held];
            t.same("1 while a check runs", desk.call_feed(unfinished_frame).0.outcome as u8, 1);
            // A front that is given up leaves bytes past the held ones in the reader.
            if held == 525 {
                desk.call_feed(&[0, 0x55, 0xAA]);
                t.same("held after it", desk.receiver.reader().held(), &[0x55, 0xAA][..]);
            }
            let reader = desk.receiver.reader().clone();
            let mut room = [UNWRITTEN; REPLY_ROOM];
            let mut outcomes = Vec::new();
            let mut call = |desk: &mut Desk, most, area_len, room_len| {
                let (area, room) = (&desk.area[..area_len], &mut room[..room_len]);
                outcomes.push(desk.receiver.portion(most, area, room).0 as u8);
                t.holds("the reader stays", *desk.receiver.reader() == reader);
            };
            call(&mut desk, 10, BENCH_AREA - 1, REPLY_ROOM);
            call(&mut desk, 10, BENCH_AREA, REPLY_ROOM - 1);
            call(&mut desk, 10, BENCH_AREA, REPLY_ROOM);
            desk.receiver.session.stored = 59;
            call(&mut desk, 10, BENCH_AREA, REPLY_ROOM);
            desk.receiver.session.stored = 60;
            call(&mut desk, 50, BENCH_AREA, REPLY_ROOM);
            call(&mut desk, 50, BENCH_AREA, REPLY_ROOM);
            t.same("outcomes", outcomes, vec![6, 5, 19, 9, 0, 18]);
            t.same("the verdict", desk.receiver.session.phase == Phase::Done, right);
        }
    }

    // A frame of which a part is held when the verdict comes is read as ever.
    let mut desk = checked_up_to(&sixty(), 20);
    let request = wire::fa(10, 15);
    desk.call_feed(&request[..6]);
    desk.call_portion(40);
    let (report, room) = desk.call_feed(&request[6..]);
    t.same("the frame held", (report.outcome as u8, report.reply, room[7]), (0, 14, 1));
}

/// "While a check runs, FA to FE get a new outcome 12 after 4, as 2"; F9 is not
/// among them. A feeding and a quiet call, right after FE and later.
fn frames_while_running(t: &mut Tally) {
    let image = sixty();
    let mut frames = vec![
        (0, wire::f9(0)),
        (3, wire::frame(0x10, 0xF9, &[0])),
        (3, wire::frame(0x00, 0xF9, &[])),
        (3, wire::frame(0x00, 0xF9, &[0, 0])),
        (12, wire::fa(10, 15)),
        (12, wire::fb(10, &Image { length: 0, ..image.clone() })),
        (12, wire::fc(10, 60)),
        (12, wire::fd(10, 3, b"x")),
        (12, wire::fd_raw(10, 3, 1, 0, b"x")),
        (12, wire::fd(10, 2, &image.bytes[59..])), // the packet accepted last
        (2, wire::frame(0x00, 0x00, &[])),
    ];
    for channel in [10, 12, 19, 9, 11, 13, 20] {
        let outcome = if [10, 12, 19].contains(&channel) { 12 } else { 4 };
        for frame in [
            wire::fa(channel, 64),
            wire::fb(channel, &image),
            wire::fc(channel, 0),
            wire::fd(channel, 3, &[]),
            wire::fe(channel),
        ] {
            let read = parse(&frame).unwrap();
            let (version, command, data) = (read.version, read.command, read.data);
            let longer = [data, &[channel]].concat();
            let shorter = &data[..data.len() - 1];
            let longer_outcome = if command == 0xFD { outcome } else { 3 };
            frames.push((3, wire::frame(version ^ 0x10, command, data)));
            frames.push((3, wire::frame(version, command, shorter)));
            frames.push((longer_outcome, wire::frame(version, command, &longer)));
            frames.push((2, wire::frame(version, command - 0xF0, data)));
            frames.push((2, wire::frame(version, 0xF8, shorter)));
            frames.push((2, wire::frame(version, 0xFF, data)));
            frames.push((outcome, frame));
        }
    }
    for desk in [checking(&image), checked_up_to(&image, 37)] {
        for (outcome, frame) in &frames {
            frame_while_running(t, &desk, *outcome, frame);
        }
    }
}

/// The frame gets this outcome, is used up and changes nothing; the check goes on.
fn frame_while_running(t: &mut Tally, desk: &Desk, outcome: u8, frame: &[u8]) {
    let Desk { receiver, area } = desk;
    for quiet in [false, true] {
        let mut desk = Desk { receiver: receiver.clone(), area: area.clone() };
        let mut room = [UNWRITTEN; REPLY_ROOM];
        let report = if quiet {
            desk.call_feed(&[&FALSE_HEAD[..], frame].concat());
            desk.receiver.quiet(&mut desk.area, &mut room)
        } else {
            desk.receiver.feed(frame, &mut desk.area, &mut room)
        };
        let what = format!("{:02X} while a check runs, quiet: {quiet}", frame[3]);
        let got = (report.outcome as u8, report.command, report.length, report.reply);
        t.same(&what, got, (outcome, frame[3], frame.len() - 7, 0));
        let counts = if quiet { (0, FALSE_HEAD.len()) } else { (frame.len(), 0) };
        t.same("taken and dropped", (report.taken, report.dropped), counts);
        t.same("the session stays", &desk.receiver.session, &receiver.session);
        t.holds("the frame is used up", desk.receiver.reader().held().is_empty());
        t.holds("area and room stay", desk.area == *area && room == [UNWRITTEN; REPLY_ROOM]);
        let left = 60 - receiver.session.check.read as usize;
        t.same("the check goes on", desk.call_portion(60), finished(left, true));
    }
}

/// Outcome 9's new part, in every call that gives it.
fn lawful_checks(t: &mut Tally) {
    let image = sixty();
    let mut check = |what: &str, lawful: bool, change: fn(&mut Session)| {
        let mut desk = checked_up_to(&image, 10);
        change(&mut desk.receiver.session);
        t.same(what, desk.receiver.lawful(), lawful);
        let before = desk.receiver.clone();
        let (mut room, area) = ([UNWRITTEN; 80], &mut desk.area);
        let reports = [
            desk.receiver.feed(&[], area, &mut room).outcome,
            desk.receiver.quiet(area, &mut room).outcome,
            desk.receiver.report_boards(&mut room).0,
            desk.receiver.portion(0, area, &mut room).0,
        ];
        let nine = reports.map(|outcome| outcome == Outcome::BadRecord);
        t.same(&format!("9: {what}"), nine, [!lawful; 4]);
        t.holds("nothing changes", desk.receiver == before);
    };
    check("a running check", true, |_| {});
    check("nothing read", true, |s| s.check.read = 0);
    check("all but one byte read", true, |s| s.check.read = 59);
    check("the announced length read", false, |s| s.check.read = 60);
    check("more read", false, |s| s.check.read = 61);
    check("most read", false, |s| s.check.read = u64::MAX);
    check("any register", true, |s| s.check.register = 0);
    check("stored is not announced", false, |s| s.stored = 59);
    check("announced is not stored", false, |s| s.identity.length = 61);
    check("nothing stored", false, |s| (s.stored, s.last_packet) = (0, 0));
    check("done", true, |s| s.phase = Phase::Done);
    check("told", false, |s| s.phase = Phase::Told);
    check("asked", false, |s| s.phase = Phase::Asked);
    check("idle", false, |s| s.phase = Phase::Idle);
    check("all three", false, |s| (s.phase, s.stored, s.check.read) = (Phase::Idle, 59, 60));
    check("no check, leftovers", true, |s| s.check = LEFTOVERS);
    check("no check, all read", true, |s| (s.check.running, s.check.read) = (false, 60));
    check("no check, stored below announced", true, |s| (s.check, s.stored) = (LEFTOVERS, 59));
    check("no check, idle", true, |s| (s.check, s.phase) = (LEFTOVERS, Phase::Idle));
    check("no check, told", true, |s| (s.check, s.phase) = (LEFTOVERS, Phase::Told));
    check("no check, most read", true, |s| (s.check.running, s.check.read) = (false, u64::MAX));
}

/// An FE that does not get as far as the CRC: its state at once, nothing changes.
fn answered_at_once(t: &mut Tally) {
    for check in [EndCheck::default(), LEFTOVERS] {
        let mut fe = |what: &str, channel: u8, state: u8, change: fn(&mut Session)| {
            let mut desk = all_stored(&sixty());
            desk.receiver.session.check = check;
            change(&mut desk.receiver.session);
            let before = desk.receiver.clone();
            let (report, room) = desk.call_feed(&wire::fe(channel));
            let reply = wire::frame(0x00, 0xFE, &[channel, state]);
            t.same(what, (report.outcome as u8, &room[..report.reply]), (0, &reply[..]));
            t.holds(&format!("{what}: nothing changes"), desk.receiver == before);
            t.same("... and no check runs", desk.call_portion(60).0 as u8, 18);
        };
        fe("FE in idle", 10, 3, |s| s.phase = Phase::Idle);
        fe("FE in asked", 10, 3, |s| s.phase = Phase::Asked);
        fe("FE in told", 10, 3, |s| s.phase = Phase::Told);
        fe("FE on another channel", 12, 3, |_| {});
        fe("... without permit", 19, 3, |_| {});
        fe("... in done", 12, 3, |s| s.phase = Phase::Done);
        fe("... and not all stored", 12, 3, |s| s.stored = 59);
        fe("FE, not all stored", 10, 1, |s| s.stored = 59);
        fe("FE, nothing stored", 10, 1, |s| (s.stored, s.last_packet) = (0, 0));
        fe("FE in done, not all stored", 10, 1, |s| (s.phase, s.stored) = (Phase::Done, 59));
    }
}

/// After a right verdict FE starts a check again, which reads the area again; after
/// a wrong one it is answered at once.
fn ended_again(t: &mut Tally) {
    let mut desk = checking(&sixty());
    t.same("the first check", desk.call_portion(60), finished(60, true));
    for _ in 0..2 {
        let done = desk.receiver.session.clone();
        t.same("done", done.phase, Phase::Done);
        t.same("FE in done", desk.call_feed(&wire::fe(10)).0.reply, 0);
        let started = Session { check: EndCheck::STARTED, ..done.clone() };
        t.same("... starts a check", &desk.receiver.session, &started);
        t.same("... of all the bytes", desk.call_portion(59), unfinished(59));
        t.same("... and is right again", desk.call_portion(59), finished(1, true));
        t.same("... done as before", &desk.receiver.session, &done);
    }
    desk.area[59] ^= 1;
    desk.call_feed(&wire::fe(10));
    t.same("the area has changed", desk.call_portion(60), finished(60, false));
    let (outcome, reply) = desk.send(&wire::fe(10));
    t.same("FE after a wrong verdict", (outcome, reply[7]), (0, 3));
    t.same("... starts nothing", desk.receiver.session.check, EndCheck::default());
}

/// A byte of the area changed between two portions: not seen where it was read
/// already, seen where it was not, and no matter past the image.
fn changed_bytes(t: &mut Tally) {
    for read in [1, 30, 59] {
        for place in 0..64 {
            let mut desk = checked_up_to(&sixty(), read);
            desk.area[place] ^= 0x40;
            let right = place < read || place >= 60;
            let what = format!("place {place} changed, {read} read");
            t.same(&what, desk.call_portion(60), finished(60 - read, right));
        }
    }
    let mut desk = checked_up_to(&sixty(), 30);
    desk.area[45] ^= 0x40;
    t.same("changed", desk.call_portion(10), unfinished(10));
    desk.area[45] ^= 0x40;
    t.same("changed and back, unread", desk.call_portion(60), finished(20, true));
}
