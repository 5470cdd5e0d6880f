//! The stored capture: made by hand, every frame for a reason.
//!
//! Each entry carries the line 01 asks for, written here by hand and not by
//! the session; the self-test compares them with the replay.

use crate::crc::{crc16, crc32};
use crate::wire::{self, fa, fb, fc, fd, fd_raw, fe, frame, Image};

/// A piece of the capture: stray bytes (no line) or a frame with its line.
pub struct Entry {
    pub place: usize,
    pub line: Option<String>,
    pub bytes: usize,
    pub note: String,
}

/// The stored capture and the notes on it.
#[derive(Default)]
pub struct Stored {
    pub capture: Vec<u8>,
    pub entries: Vec<Entry>,
    pub dropped: usize,
}

const CHANNEL: u8 = 10;

impl Stored {
    fn stray(&mut self, bytes: &[u8], note: &str) {
        let (place, note) = (self.capture.len(), note.to_string());
        self.capture.extend_from_slice(bytes);
        self.entries.push(Entry { place, line: None, bytes: bytes.len(), note });
        self.dropped += bytes.len();
    }

    /// A frame, the outcome and the reply's bytes it must get.
    fn frame(&mut self, bytes: &[u8], outcome: u8, reply: &[u8], note: &str) {
        let (place, note) = (self.capture.len(), note.to_string());
        let reply = if reply.is_empty() { "-".into() } else { hex(reply) };
        let line = Some(format!("{place} {:02X} {outcome} {reply}", bytes[3]));
        self.capture.extend_from_slice(bytes);
        self.entries.push(Entry { place, line, bytes: bytes.len(), note });
    }

    fn no_reply(&mut self, outcome: u8, bytes: &[u8], note: &str) {
        self.frame(bytes, outcome, &[], note);
    }

    fn ask(&mut self, len1: u16, flag: u8, note: &str) {
        let reply = frame(0x00, 0xFA, &[CHANNEL, flag, 1, 0, 2, 2, 0]);
        self.frame(&fa(CHANNEL, len1), 0, &reply, note);
    }

    /// FB, its state, and the bytes that are stored.
    fn tell(&mut self, image: &Image, state: u8, stored: &[u8], note: &str) {
        let mut data = vec![CHANNEL, state];
        data.extend_from_slice(&(stored.len() as u32).to_be_bytes());
        data.extend_from_slice(&crc32(stored).to_be_bytes());
        data.extend_from_slice(&[0; 16]);
        self.frame(&fb(CHANNEL, image), 0, &frame(0x10, 0xFB, &data), note);
    }

    fn offset(&mut self, offset: u32, granted: u32, note: &str) {
        self.frame(&fc(CHANNEL, offset), 0, &fc(CHANNEL, granted), note);
    }

    fn packet(&mut self, bytes: &[u8], state: u8, note: &str) {
        self.frame(bytes, 0, &frame(0x00, 0xFD, &[CHANNEL, state]), note);
    }

    fn end(&mut self, state: u8, note: &str) {
        self.frame(&fe(CHANNEL), 0, &frame(0x00, 0xFE, &[CHANNEL, state]), note);
    }

    /// The expected replay output.
    pub fn expected(&self) -> String {
        let mut text = String::new();
        for line in self.entries.iter().filter_map(|entry| entry.line.as_ref()) {
            text.push_str(line);
            text.push('\n');
        }
        text + &format!("end dropped {}\n", self.dropped)
    }

    /// `stored.md`: what each piece of the capture is for, line by line.
    pub fn notes(&self) -> String {
        let mut text = format!(
            "# The stored capture\n\n`crates/replay/stdin`, {} bytes, made by `model stored`; \
             `crates/replay/stdout` is its replay. Below, in order, every piece of it: the line of the \
             replay it gives \
             (stray bytes give none), its place and length in the capture, what comes out \
             (outcome, reply state) and what it is for.\n\n\
             | line | place | bytes | cmd | outcome | for |\n|---|---|---|---|---|---|\n",
            self.capture.len()
        );
        let mut number = 0;
        for entry in &self.entries {
            let (place, bytes, note) = (entry.place, entry.bytes, &entry.note);
            let row = match &entry.line {
                None => format!("| | {place} | {bytes} | stray | dropped | {note} |\n"),
                Some(line) => {
                    number += 1;
                    let mut words = line.split(' ').skip(1);
                    let command = words.next().unwrap_or_default();
                    let outcome = words.next().unwrap_or_default();
                    format!("| {number} | {place} | {bytes} | {command} | {outcome} | {note} |\n")
                }
            };
            text.push_str(&row);
        }
        text + &format!("| {} | | | | | all drops: {} |\n", number + 1, self.dropped)
    }
}

pub fn hex(bytes: &[u8]) -> String {
    bytes.iter().map(|byte| format!("{byte:02X}")).collect()
}

/// Builds the stored capture.
pub fn stored() -> Stored {
    let mut s = Stored::default();
    idle(&mut s);
    shapes(&mut s);
    requests_and_refused_files(&mut s);
    first_leg(&mut s);
    resumed_leg(&mut s);
    done_and_after(&mut s);
    other_offsets(&mut s);
    other_identities(&mut s);
    full_packets(&mut s);
    failed_end_check(&mut s);
    bench_transfer(&mut s);
    repeated_packets(&mut s);
    repeats_and_legs(&mut s);
    equal_packets(&mut s);
    several_portions(&mut s);
    frames_in_frames(&mut s);
    torn_end(&mut s);
    s
}

/// Forty bytes that no two packets share.
fn counted() -> Image {
    Image::new([1, 0, 3], 0xB0, (0..40).map(|byte| byte * 5 + 1).collect())
}

fn idle(s: &mut Stored) {
    s.stray(
        &[0x55, 0xAA, 0x00, 0xFE, 0x00, 0x01],
        "P10's stray: with the next two bytes a wrong sum",
    );
    s.end(3, "P1, P2: FE on the fresh record, state 03 (wrong phase: idle)");
    s.stray(&[0x00, 0xFF, 0x13, 0xAA], "noise without a 55");
    s.stray(&[0x55], "55 alone before a frame");
    s.end(3, "read after a lone 55");
    s.stray(&[0x55, 0xAA, 0x00, 0xFE, 0x03], "high length byte 03: no frame at five bytes");
    s.stray(&[0x55, 0xAA, 0x10, 0xFD, 0xFF, 0xFF], "length FF FF: no frame");
    s.stray(&[0x55, 0xAA, 0x10, 0xFD, 0x02, 0x08], "length 02 08: never a frame");
    s.stray(
        &wire::overlong(0x10, 0xFD, &[0; 520]),
        "length 02 08 with all 520 bytes and the right sum: still never a frame",
    );
    s.stray(
        &[0x55, 0xAA, 0x10, 0xFD, 0x02, 0x07],
        "length 02 07 can be a frame: waits for 526 bytes, which have a wrong sum",
    );
    s.packet(
        &fd(CHANNEL, 0, b"abc"),
        4,
        "FD in idle, all else sound: state 04 (read 520 bytes late)",
    );
    s.packet(
        &fd_raw(CHANNEL, 9, 99, 0, b"abc"),
        4,
        "FD in idle, number, n and CRC-16 wrong too: 04 first",
    );
    s.no_reply(10, &fc(CHANNEL, 0), "FC in idle: outcome 10");
    s.no_reply(10, &fb(CHANNEL, &counted()), "FB in idle: outcome 10");
    let mut other_pid = counted();
    other_pid.pid[0] = 1;
    s.no_reply(10, &fb(CHANNEL, &other_pid), "FB in idle with another PID: 10 comes before 01");
}

fn shapes(s: &mut Stored) {
    s.no_reply(0, &wire::f9(0), "F9 of the module, success: noted, no reply");
    s.no_reply(0, &wire::f9(1), "F9, failure: noted, no reply");
    s.no_reply(0, &wire::f9(99), "F9: its byte is a state, no channel (exempt from 4)");
    s.no_reply(3, &frame(0x10, 0xF9, &[0]), "F9 of version 10: wrong version");
    s.no_reply(3, &frame(0x00, 0xF9, &[]), "F9 with L 0: wrong L");
    s.no_reply(3, &frame(0x00, 0xF9, &[1, 10]), "F9 with L 2: wrong L");

    s.no_reply(2, &frame(0x00, 0x56, &[]), "unknown command 56");
    s.no_reply(2, &frame(0x00, 0xE8, &[10]), "unknown command E8, an MCU command");
    s.no_reply(
        2,
        &frame(0x77, 0xF8, &[11]),
        "unknown command F8, version and channel wrong too: 2 first",
    );
    s.no_reply(2, &frame(0x00, 0xFF, &[10]), "unknown command FF");

    s.no_reply(3, &frame(0x10, 0xFA, &[10, 1, 0]), "FA of version 10: wrong version");
    s.no_reply(3, &frame(0x00, 0xFA, &[]), "FA with L 0: wrong L");
    s.no_reply(3, &frame(0x00, 0xFA, &[10, 1]), "FA with L 2: wrong L");
    s.no_reply(3, &frame(0x00, 0xFA, &[10, 1, 0, 0]), "FA with L 4: wrong L");
    let data = wire::fb_data(CHANNEL, &counted());
    s.no_reply(3, &frame(0x00, 0xFB, &data), "FB of version 00: wrong version");
    s.no_reply(3, &frame(0x10, 0xFB, &data[..35]), "FB with L 35: wrong L");
    s.no_reply(3, &frame(0x00, 0xFC, &[10, 0, 0, 0]), "FC with L 4: wrong L");
    s.no_reply(3, &frame(0x00, 0xFC, &[10, 0, 0, 0, 0, 0]), "FC with L 6: wrong L");
    s.no_reply(
        3,
        &frame(0x00, 0xFD, &[10, 0, 0, 0, 1, 0, 0, 1]),
        "FD of version 00: wrong version",
    );
    s.no_reply(3, &frame(0x10, 0xFD, &[10, 0, 0, 0, 0, 0]), "FD with L 6: wrong L");
    s.no_reply(3, &frame(0x10, 0xFE, &[10]), "FE of version 10: wrong version");
    s.no_reply(3, &frame(0x00, 0xFE, &[]), "FE with L 0: wrong L");
    s.no_reply(3, &frame(0x00, 0xFE, &[11, 0]), "FE with L 2, channel unlisted too: 3 first");

    s.no_reply(4, &fa(11, 256), "FA for channel 11: not in the list");
    s.no_reply(4, &fb(19, &counted()), "FB for channel 19: not in the list");
    s.no_reply(4, &fc(9, 0), "FC for channel 9: not in the list");
    s.no_reply(4, &fd(0x10, 0, b"x"), "FD for channel 16: not in the list");
    s.no_reply(4, &fe(0), "FE for channel 0, the fresh record's: not in the list");
}

fn requests_and_refused_files(s: &mut Stored) {
    s.ask(15, 1, "P5: FA, Len1 15: flag 1");
    s.ask(0, 1, "FA, Len1 0: flag 1");
    s.no_reply(10, &fb(CHANNEL, &counted()), "FB: the flag 1 left the phase idle, outcome 10");
    s.ask(16, 0, "P5: FA, Len1 16: flag 0, phase asked");
    s.no_reply(10, &fc(CHANNEL, 0), "FC in asked: outcome 10");
    s.packet(&fd(CHANNEL, 0, b"abc"), 4, "FD in asked: state 04");
    s.end(3, "FE in asked: state 03");

    let good = counted();
    let bad = |change: fn(&mut Image)| {
        let mut image = good.clone();
        change(&mut image);
        image
    };
    s.tell(&bad(|i| i.pid[7] = 1), 1, &[], "FB, last PID byte differs: state 01, phase idle");
    s.no_reply(10, &fb(CHANNEL, &good), "FB: state 01 left the phase idle, outcome 10");
    s.ask(16, 0, "FA again");
    let image = bad(|i| (i.pid, i.version, i.length) = ([9; 8], [1, 0, 0], 0));
    s.tell(&image, 1, &[], "FB with PID, version and length all wrong: 01 first");
    s.ask(16, 0, "FA again");
    s.tell(&bad(|i| i.version = [1, 0, 2]), 2, &[], "FB, version equal to the board's: state 02");
    s.ask(16, 0, "FA again");
    let image = bad(|i| (i.version, i.length) = ([0, 255, 255], 0));
    s.tell(&image, 2, &[], "FB, version lower by its first part, length 0 too: 02 first");
    s.ask(16, 0, "FA again");
    s.tell(&bad(|i| i.length = 0), 3, &[], "FB, length 0: state 03");
    s.ask(16, 0, "FA again");
    s.tell(&bad(|i| i.length = 65_537), 3, &[], "FB, length 65,537, one above the area: state 03");
    s.ask(16, 0, "FA again");
    s.tell(&bad(|i| i.length = u32::MAX), 3, &[], "FB, length FF FF FF FF: state 03");
    s.ask(16, 0, "FA again");
    s.tell(&bad(|i| i.length = 65_536), 0, &[], "FB, length 65,536, the area's: state 00");
}

fn first_leg(s: &mut Stored) {
    let image = counted();
    let bytes = &image.bytes[..];
    s.ask(16, 0, "FA in told, agreed size 16");
    s.tell(
        &image,
        0,
        &[],
        "FB of the counted image, 40 bytes, 1.0.3: state 00, stored 0, CRC-32 of nothing 0",
    );
    s.packet(&fd(CHANNEL, 0, &bytes[..16]), 4, "FD in told, all else sound: state 04");
    s.end(3, "FE in told: state 03");
    s.offset(0, 0, "FC at stored (0), P6: granted");
    s.end(1, "FE with 0 of 40 stored: state 01");
    s.packet(
        &fd_raw(CHANNEL, 1, 99, 0, &bytes[..16]),
        1,
        "FD 1 instead of 0, n and CRC-16 wrong too: 01 first",
    );
    s.packet(&fd(CHANNEL, 0xFFFF, &bytes[..16]), 1, "FD 65,535 instead of 0: state 01");
    s.packet(
        &fd_raw(CHANNEL, 0, 15, 0, &bytes[..16]),
        2,
        "FD, n is not L - 7 (15, 16 there), CRC-16 wrong too: 02 first",
    );
    s.packet(
        &fd_raw(CHANNEL, 0, 0, 0xFFFF, &[]),
        2,
        "FD, n is 0 (L 7, CRC-16 of nothing): state 02",
    );
    s.packet(&fd(CHANNEL, 0, &bytes[..17]), 2, "FD, n 17 above the agreed 16: state 02");
    s.packet(&fd_raw(CHANNEL, 0, 16, 0x1234, &bytes[..16]), 3, "FD, CRC-16 wrong: state 03");
    s.packet(
        &fd(CHANNEL, 0, &bytes[..16]),
        0,
        "FD 0, 16 bytes: state 00; none of the above changed anything",
    );
    s.packet(
        &fd(CHANNEL, 0, &bytes[..16]),
        0,
        "FD 0 sent again (its reply was lost): state 00, nothing changes",
    );
    s.ask(15, 1, "FA with flag 1 in receiving: changes nothing");
    s.packet(
        &fd(CHANNEL, 1, &bytes[16..32]),
        0,
        "FD 1, 16 bytes: state 00, the leg went on; stored 32",
    );
    s.packet(
        &fd(CHANNEL, 2, &[7; 9]),
        2,
        "FD, stored + n above announced (32 + 9 of 40): state 02",
    );
    s.packet(&fd_raw(CHANNEL, 2, 9, 0, &[7; 9]), 2, "the same with a wrong CRC-16: 02 first");
    s.end(1, "FE with 32 of 40 stored: state 01");
}

fn resumed_leg(s: &mut Stored) {
    let image = counted();
    let bytes = &image.bytes[..];
    s.ask(512, 0, "FA in receiving, Len1 512: phase asked (link lost, resume begins)");
    s.packet(&fd(CHANNEL, 2, &bytes[32..]), 4, "FD 2: the phase is asked, state 04");
    s.tell(&image, 0, &bytes[..32], "FB, same identity: stored stays 32, CRC-32 of the 32");
    s.offset(32, 32, "FC at stored (32): granted, next number 0");
    s.packet(&fd(CHANNEL, 2, &bytes[32..]), 1, "FD 2: numbers began again, state 01");
    s.packet(&fd(CHANNEL, 0, &bytes[32..]), 0, "FD 0, the last 8 bytes: state 00, stored 40");
    s.packet(&fd(CHANNEL, 1, &[0]), 2, "FD 1, one byte too many: state 02");
    s.end(0, "FE: state 00, phase done");
}

fn done_and_after(s: &mut Stored) {
    let image = counted();
    let bytes = &image.bytes[..];
    s.end(0, "FE again in done: state 00 again");
    s.packet(&fd(CHANNEL, 1, &[0]), 4, "FD in done: state 04");
    s.packet(&fd(CHANNEL, 0, &bytes[32..]), 4, "FD 0 sent again in done: state 04");
    s.no_reply(10, &fc(CHANNEL, 40), "FC in done: outcome 10");
    s.ask(15, 1, "FA with flag 1 in done: changes nothing");
    s.end(0, "FE: still done, state 00");
    s.tell(&image, 0, bytes, "FB in done, same identity: phase told, stored 40");
    s.end(3, "FE in told: state 03");
    s.offset(40, 40, "FC at stored (40 of 40): granted");
    s.end(0, "FE: state 00 without a packet");
    let mut other_pid = image.clone();
    other_pid.pid[3] = 0x80;
    s.tell(&other_pid, 1, &[], "FB in done, PID wrong: state 01, zeros replied, phase idle");
    s.end(3, "FE in idle: state 03, nothing changes");
    s.ask(20, 0, "FA, Len1 20");
    s.tell(&image, 0, bytes, "FB, same identity: the refusal had kept stored (40)");
}

fn other_offsets(s: &mut Stored) {
    let image = counted();
    let bytes = &image.bytes[..];
    s.offset(39, 0, "FC smaller than stored (39, 40): reset, reply 0");
    s.end(1, "FE after the reset: 0 of 40 stored, state 01");
    s.packet(&fd(CHANNEL, 0, &bytes[..20]), 0, "FD 0, 20 bytes, just the agreed size: state 00");
    s.offset(21, 0, "FC in receiving, larger than stored (21, 20): reset, reply 0");
    s.packet(
        &fd(CHANNEL, 0, &bytes[..20]),
        0,
        "FD 0, the same 20 bytes again from place 0: state 00",
    );
    s.offset(20, 20, "FC in receiving at stored (20): granted, next number 0");
    s.packet(&fd(CHANNEL, 1, &bytes[20..]), 1, "FD 1: state 01");
    s.packet(&fd(CHANNEL, 0, &bytes[20..]), 0, "FD 0, the other 20 bytes: state 00");
    s.end(0, "FE: state 00, the area's bytes are right");
    s.ask(16, 0, "FA in done");
    s.tell(&image, 0, bytes, "FB, same identity after done: stored 40");
    s.offset(u32::MAX, 0, "FC at FF FF FF FF in told: reset, reply 0");
    s.packet(&fd(CHANNEL, 0, &bytes[..16]), 0, "FD 0, 16 bytes, for the next FB");
}

/// One part of the identity changed at a time; stored is 16 before each.
fn other_identities(s: &mut Stored) {
    let image = counted();
    let first = &image.bytes[..16];
    type Change = (&'static str, fn(&mut Image));
    let changes: [Change; 4] = [
        ("version (1.0.4)", |i| i.version = [1, 0, 4]),
        ("announced length (41)", |i| i.length = 41),
        ("MD5 (its last bit)", |i| i.md5[15] ^= 1),
        ("CRC-32 (its last bit)", |i| i.crc32 ^= 1),
    ];
    for (part, change) in changes {
        let mut other = image.clone();
        change(&mut other);
        s.tell(&image, 0, first, "FB in receiving, same identity: phase told, stored 16");
        s.tell(&other, 0, &[], &format!("FB in told, another {part}: identity replaced, stored 0"));
        s.tell(&image, 0, &[], "FB of the counted image: it is another one again, stored 0");
        s.offset(0, 0, "FC at 0: granted");
        s.packet(&fd(CHANNEL, 0, first), 0, "FD 0, 16 bytes: state 00");
    }
}

fn full_packets(s: &mut Stored) {
    let bytes: Vec<u8> = (0..600u32).map(|place| (place * place / 7) as u8).collect();
    let image = Image::new([1, 1, 0], 0xC0, bytes.clone());
    s.ask(65_535, 0, "FA, Len1 65,535: flag 0, agreed size 512");
    s.tell(&image, 0, &[], "FB of 600 bytes, 1.1.0: state 00");
    s.offset(0, 0, "FC at 0: granted");
    s.packet(
        &fd(CHANNEL, 0, &bytes[..512]),
        0,
        "FD 0, 512 bytes, the longest frame (L 519 = 02 07): state 00",
    );
    s.packet(&fd(CHANNEL, 0, &bytes[..512]), 0, "FD 0 sent again, all 512 bytes: state 00");
    s.ask(16, 0, "FA, Len1 16: agreed size 16, below the last packet's length, which stays 512");
    s.tell(&image, 0, &bytes[..512], "FB, same identity: stored 512");
    s.packet(&fd(CHANNEL, 0, &bytes[..512]), 4, "FD 0 sent again in told: state 04");
    s.ask(512, 0, "FA, Len1 512");
    s.tell(&image, 0, &bytes[..512], "FB, same identity: stored 512");
    s.offset(512, 512, "FC at stored (512): granted");
    s.packet(&fd(CHANNEL, 0, &bytes[512..]), 0, "FD 0, 88 bytes: state 00");
    s.end(0, "FE: state 00");
    s.ask(511, 0, "FA, Len1 511: agreed size 511");
    s.tell(&image, 0, &bytes, "FB, same identity: stored 600");
    s.offset(1, 0, "FC at 1: reset, reply 0");
    s.packet(&fd(CHANNEL, 0, &bytes[..512]), 2, "FD 0, 512 bytes above the agreed 511: state 02");
}

fn failed_end_check(s: &mut Stored) {
    let mut image = Image::new([2, 0, 0], 0xD0, b"not what was announced".to_vec());
    let bytes = image.bytes.clone();
    image.crc32 ^= 0x8000_0000;
    s.ask(512, 0, "FA, Len1 512: flag 0");
    s.tell(&image, 0, &[], "FB of 22 bytes with a CRC-32 that is not theirs: state 00");
    s.offset(0, 0, "FC at 0: granted");
    s.packet(&fd(CHANNEL, 0, &bytes), 0, "FD 0, all 22 bytes: state 00");
    s.end(3, "FE, CRC-32 differs: state 03, phase idle, stored 0, identity zero");
    s.end(3, "FE again: idle now, state 03");
    s.packet(&fd(CHANNEL, 1, b"x"), 4, "FD: idle, state 04");
    s.no_reply(10, &fb(CHANNEL, &image), "FB: idle, outcome 10");
    s.ask(513, 0, "FA, Len1 513: flag 0");
    s.tell(&image, 0, &[], "FB, same identity as the failed one: it is forgotten, stored 0");
    s.offset(22, 0, "FC at 22, where the failed leg had been: reset, reply 0");
    s.end(1, "FE: 0 of 22 stored, state 01");
}

fn bench_transfer(s: &mut Stored) {
    let image = Image::new([1, 0, 3], 0xE0, b"123456789".to_vec());
    s.ask(256, 0, "P3, P4: FA, Len1 256");
    s.tell(&image, 0, &[], "FB for 9 bytes: state 00");
    s.offset(0, 0, "P6: FC at 0, the reply is the same bytes");
    s.packet(
        &fd_raw(CHANNEL, 0, 9, 0x29B1, b"123456789"),
        3,
        "packet 0 with the CRC-16 of another kind (29B1, CCITT-FALSE): state 03",
    );
    s.packet(
        &fd_raw(CHANNEL, 0, 9, 0x374B, b"123456789"),
        3,
        "packet 0 with its CRC-16 low byte first, as on a Modbus line: state 03",
    );
    s.packet(&fd(CHANNEL, 0, b"123456789"), 0, "P7, P8: packet 0, text 123456789, CRC-16 4B37");
    s.packet(&fd(CHANNEL, 0, b"123456789"), 0, "P8's second answer: P7 sent again, state 00");
    s.end(0, "FE: CRC-32 CBF43926, state 00");
}

/// Sixty bytes, no two alike, for packets that are sent again.
fn sixty() -> Image {
    Image::new([1, 0, 4], 0xA0, (0..60).map(|byte| byte * 4 + 3).collect())
}

/// Document 02, K2: the packet accepted last, and frames that are not quite it.
fn repeated_packets(s: &mut Stored) {
    let image = sixty();
    let bytes = &image.bytes[..];
    s.ask(20, 0, "FA, Len1 20");
    s.tell(&image, 0, &[], "FB of 60 bytes, no two alike: state 00");
    s.offset(0, 0, "FC at 0: granted");
    s.packet(
        &fd(CHANNEL, 0xFFFF, &[]),
        1,
        "FD 65,535, no bytes: no packet is accepted yet and no number is below 0, state 01",
    );
    s.packet(&fd(CHANNEL, 0, &bytes[..20]), 0, "FD 0, 20 bytes: state 00");
    for time in ["once", "twice", "three times"] {
        s.packet(&fd(CHANNEL, 0, &bytes[..20]), 0, &format!("FD 0 sent again {time}: state 00"));
    }
    s.packet(&fd(CHANNEL, 1, &bytes[20..32]), 0, "FD 1, 12 bytes: state 00, stored 32");

    let last = &bytes[20..32];
    let again = fd(CHANNEL, 1, last);
    let crc = crc16(last);
    let changed = |place: usize| {
        let mut changed = last.to_vec();
        changed[place] ^= 0x10;
        changed
    };
    s.packet(&again, 0, "FD 1 sent again: state 00");
    s.packet(&fd_raw(CHANNEL, 1, 12, !crc, last), 3, "FD 1 again, CRC-16 wrong: state 03");
    s.packet(&again, 0, "FD 1 again, right: state 00");
    s.packet(&fd(CHANNEL, 1, &changed(0)), 1, "FD 1 again, its first byte another: state 01");
    s.packet(&fd(CHANNEL, 1, &changed(11)), 1, "FD 1 again, its last byte another: state 01");
    s.packet(
        &fd_raw(CHANNEL, 1, 12, crc, &changed(6)),
        1,
        "FD 1 again, a byte another and so the CRC-16 wrong: 01, not 03",
    );
    s.packet(&fd(CHANNEL, 1, &bytes[21..32]), 1, "FD 1, only its last 11 bytes: state 01");
    s.packet(&fd(CHANNEL, 1, &bytes[19..32]), 1, "FD 1, the last 13 bytes stored: state 01");
    s.packet(&fd(CHANNEL, 1, &bytes[..20]), 1, "FD 1 with FD 0's bytes and length: state 01");
    s.packet(&fd(CHANNEL, 1, &bytes[8..20]), 1, "FD 1 with FD 0's last 12 bytes: state 01");
    s.packet(&fd_raw(CHANNEL, 1, 11, crc, last), 1, "FD 1 again, n 11, 12 there: state 01");
    s.packet(&fd_raw(CHANNEL, 1, 13, crc, last), 1, "FD 1 again, n 13, 12 there: state 01");
    for (there, what) in [
        (21..32, "its last 11 bytes"),
        (20..31, "its first 11 bytes"),
        (19..32, "the last 13 bytes stored"),
        (20..33, "its bytes and one more"),
    ] {
        let there = &bytes[there];
        s.packet(
            &fd_raw(CHANNEL, 1, 12, crc16(there), there),
            1,
            &format!("FD 1, n 12, but {what} there: state 01"),
        );
    }
    s.packet(&fd(CHANNEL, 1, &[]), 1, "FD 1, no bytes: state 01");
    s.packet(&fd(CHANNEL, 0, &bytes[..20]), 1, "FD 0 again, two packets back: state 01");
    s.packet(&fd(CHANNEL, 0, last), 1, "FD 0 with FD 1's bytes: state 01");
    s.packet(&fd(CHANNEL, 3, last), 1, "FD 3, one above the next, with FD 1's bytes: state 01");

    s.packet(&fd_raw(CHANNEL, 2, 8, 0, &bytes[32..40]), 3, "FD 2, 8 bytes, CRC-16 wrong: state 03");
    s.packet(&fd(CHANNEL, 2, &bytes[32..53]), 2, "FD 2, 21 bytes, above the agreed 20: state 02");
    s.packet(&again, 0, "FD 1 again: refused packets are not the last one, state 00");
    s.end(1, "FE with 32 of 60 stored: state 01");
    s.ask(15, 1, "FA with flag 1");
    s.no_reply(0, &wire::f9(0), "F9");
    s.packet(&again, 0, "FD 1 again after all these: state 00");
    s.stray(&again[..17], "FD 1 again, torn after 17 of 26 bytes ...");
    s.packet(&again, 0, "... and whole: state 00");
    let (&sum, body) = again.split_last().expect("a frame has a sum");
    s.stray(&[body, &[sum ^ 1]].concat(), "FD 1 again with a wrong sum: no frame");
    s.packet(
        &fd(CHANNEL, 2, &bytes[32..52]),
        0,
        "FD 2, 20 bytes: state 00, nothing had changed number or stored",
    );
    s.packet(&again, 1, "FD 1 again: two packets back now, state 01");
    s.packet(&fd(CHANNEL, 2, &bytes[32..52]), 0, "FD 2 sent again: state 00, stored 52");
}

/// FC begins a leg in which no packet is accepted yet.
fn repeats_and_legs(s: &mut Stored) {
    let image = sixty();
    let bytes = &image.bytes[..];
    let before = fd(CHANNEL, 2, &bytes[32..52]);
    s.offset(52, 52, "FC in receiving at stored (52): granted, next number 0");
    s.packet(&before, 1, "FD 2 again: not of this leg, state 01");
    s.packet(
        &fd(CHANNEL, 0xFFFF, &bytes[32..52]),
        1,
        "its bytes as FD 65,535: no number is below 0, state 01",
    );
    let last = fd(CHANNEL, 0, &bytes[52..]);
    s.packet(&last, 0, "FD 0, the last 8 bytes: state 00, stored 60");
    s.packet(&last, 0, "FD 0 sent again: state 00, though no byte is missing");
    s.packet(
        &fd_raw(CHANNEL, 0, 8, 0, &bytes[52..]),
        3,
        "FD 0 again, CRC-16 wrong: 03, though no byte is missing",
    );
    s.packet(&before, 1, "FD 2 again, of the leg before: state 01");
    s.end(0, "FE: state 00, the area's bytes are right");
    s.packet(&last, 4, "FD 0 sent again in done: state 04");
    s.ask(20, 0, "FA, Len1 20");
    s.packet(&last, 4, "FD 0 sent again in asked: state 04");
    s.tell(&image, 0, bytes, "FB, same identity: stored 60");
    s.packet(&last, 4, "FD 0 sent again in told: state 04");
    s.offset(60, 60, "FC at stored (60): granted");
    s.packet(&last, 2, "FD 0: not sent again but the next, 8 bytes too many: state 02");
    s.offset(59, 0, "FC smaller than stored (59, 60): reset, reply 0");
    s.packet(&fd(CHANNEL, 0, &bytes[..20]), 0, "FD 0, 20 bytes: state 00");
    s.packet(&fd(CHANNEL, 1, &bytes[20..40]), 0, "FD 1, 20 bytes: state 00");
    s.offset(0, 0, "FC at 0, not at stored (40): reset, reply 0");
    s.packet(
        &fd(CHANNEL, 1, &bytes[20..40]),
        1,
        "FD 1 again, its bytes still in the area: state 01",
    );
    s.packet(&fd(CHANNEL, 0, &bytes[..20]), 0, "FD 0, 20 bytes, written anew: state 00");
    s.tell(&image, 0, &bytes[..20], "FB, same identity: stored 20");
    s.offset(20, 20, "FC at stored (20): granted");
    s.packet(
        &fd(CHANNEL, 0, &bytes[..20]),
        0,
        "FD 0 of the leg before: now the next, so written at 20, state 00",
    );
    s.tell(
        &image,
        0,
        &[&bytes[..20], &bytes[..20]].concat(),
        "FB, same identity: stored 40, the 20 bytes twice",
    );
}

/// Packets that only their numbers tell apart; the end check fails, and the leg
/// after it knows of no packet.
fn equal_packets(s: &mut Stored) {
    let mut image = Image::new([1, 0, 5], 0xA1, vec![0x77; 48]);
    image.crc32 ^= 1;
    let packet = |number| fd(CHANNEL, number, &[0x77; 16]);
    s.ask(16, 0, "FA, Len1 16");
    s.tell(&image, 0, &[], "FB of 48 equal bytes, CRC-32 not theirs: another identity, stored 0");
    s.offset(0, 0, "FC at 0: granted");
    s.packet(&packet(0), 0, "FD 0, 16 bytes: state 00");
    s.packet(&packet(1), 0, "FD 1, the same 16 bytes: state 00");
    s.packet(&packet(0), 1, "FD 0 again, bytes and length as FD 1's: state 01");
    s.packet(&packet(1), 0, "FD 1 sent again: state 00");
    s.packet(&packet(2), 0, "FD 2, the same 16 bytes: state 00, stored 48");
    s.end(3, "FE, CRC-32 differs: state 03, phase idle, stored 0");
    s.packet(&packet(2), 4, "FD 2 again: idle, state 04");
    s.ask(16, 0, "FA, Len1 16");
    s.tell(&image, 0, &[], "FB: the identity is forgotten, stored 0");
    s.offset(0, 0, "FC at stored (0): granted");
    s.packet(&packet(2), 1, "FD 2 again: state 01");
    s.packet(&packet(0), 0, "FD 0, 16 bytes: state 00");
    s.packet(&packet(0), 0, "FD 0 sent again: state 00");
}

/// An image that no portion of the end check reads back whole (document 02, K5).
fn several_portions(s: &mut Stored) {
    let bytes: Vec<u8> = (0..8704u32).map(|i| (i * 7 + i / 256) as u8).collect();
    let image = Image::new([1, 0, 6], 0xA2, bytes.clone());
    s.ask(512, 0, "FA, Len1 512");
    s.tell(&image, 0, &[], "FB of 8,704 bytes: another identity, stored 0");
    s.offset(0, 0, "FC at 0: granted");
    for (number, packet) in bytes.chunks(512).enumerate() {
        let note = format!("FD {number}, 512 bytes: state 00");
        s.packet(&fd(CHANNEL, number as u16, packet), 0, &note);
    }
    s.end(0, "FE: state 00, after several portions of the end check");
    s.end(0, "FE again, right behind it: state 00");
}

fn frames_in_frames(s: &mut Stored) {
    let inside: Vec<u8> = [fe(CHANNEL), vec![0x55, 0xAA], fa(CHANNEL, 16)].concat();
    let image = Image::new([3, 0, 0], 0xF0, inside.clone());
    s.ask(64, 0, "FA, Len1 64");
    s.tell(&image, 0, &[], "FB of an image that is itself frames: FE, a stray 55 AA, FA");
    s.offset(0, 0, "FC at 0: granted");
    let packet = fd(CHANNEL, 0, &inside);
    s.stray(
        &packet[..13],
        "that image's FD 0 with a wrong sum: not one frame; its first 13 bytes ...",
    );
    s.end(1, "... the FE inside it is read: 0 of 20 stored, state 01");
    s.stray(&[0x55, 0xAA], "... the stray 55 AA inside it (claims 250 bytes, wrong sum)");
    s.ask(16, 0, "... the FA inside it is read: phase asked, agreed size 16");
    s.stray(&[packet[packet.len() - 1] ^ 0xFF], "... and its wrong sum byte");
    s.packet(
        &packet,
        4,
        "the same FD sound, but asked now: state 04, one frame, nothing inside read",
    );
    s.ask(64, 0, "FA, Len1 64");
    s.tell(&image, 0, &[], "FB, same identity: stored 0");
    s.offset(0, 0, "FC at 0: granted");
    s.packet(&packet, 0, "the FD sound: state 00, the frames inside are data");
    s.end(0, "FE: state 00");
    s.no_reply(
        2,
        &[0x55, 0xAA, 0x00, 0x56, 0x00, 0x00, 0x55],
        "P11: a stray and P1's first 55 are a frame of command 56",
    );
    s.stray(&fe(CHANNEL)[1..], "P11: the rest of P1");
    s.stray(&[0x55, 0x55, 0x55, 0xAA, 0x55], "55 55 and 55 AA 55: headers in headers");
    s.end(0, "FE, right behind them: state 00");
    s.stray(&[0x55, 0xAA, 0x55, 0xAA, 0x55, 0xAA, 0x55], "a run of 55 AA");
    s.end(0, "FE, right behind it: state 00");
}

fn torn_end(s: &mut Stored) {
    let inside: Vec<u8> = [vec![0x11; 20], wire::f9(0), vec![0x22; 5]].concat();
    let packet = fd(CHANNEL, 0, &[&inside[..], &[0x33; 400]].concat());
    s.stray(
        &packet[..33],
        "an FD torn off: 46 of 447 bytes come, so all from here on waits for quiet ...",
    );
    s.no_reply(0, &wire::f9(0), "... the F9 inside it is found by quiet");
    s.stray(&[0x22; 5], "... the rest of the torn FD");
    s.end(0, "FE, found by quiet: still done, state 00");
    s.stray(&fa(CHANNEL, 256)[..7], "P3 torn at its seventh byte: dropped by quiet, the end");
}
