//! Seeded captures, sound and damaged.
//!
//! A `Bench` plays the module. Every byte it sends also goes to a receiver of
//! its own (the mirror), so it knows the session's phase and can mostly do the
//! sensible next thing; that leads captures deep into transfers. A `Mix` says
//! how often it does something else. Sizes run from nothing to tens of KiB.

use crate::crc::{crc16, crc32};
use crate::receiver::{Outcome, Receiver, REPLY_ROOM};
use crate::replay::{bench_receiver, BENCH_AREA, PORTION};
use crate::rng::Rng;
use crate::session::{Phase, Session};
use crate::wire::{self, Image};

/// The kinds of captures, by name.
pub const KINDS: [&str; 12] = [
    "sound", "resume", "mistakes", "shapes", "damaged", "headers", "nested", "noise", "runs",
    "tiny", "mixed", "numbers",
];

/// The one kind that is always long (about 1 MB): all packet numbers.
pub const LONG_KIND: &str = "numbers";

/// How often, in a thousand, each kind of step replaces the sensible one.
#[derive(Clone, Copy, Default)]
struct Mix {
    /// Begin again with FA, as after a lost link.
    restart: usize,
    /// Send the packet accepted last in this leg again: its reply was lost.
    lost: usize,
    /// Send it again at any time, in another phase or leg too.
    late: usize,
    /// Send a well-formed frame the session must refuse or reset at.
    mistake: usize,
    /// Send a frame that outcome 2, 3 or 4 refuses, or an F9.
    oddity: usize,
    /// Put stray bytes between frames.
    stray: usize,
    /// Damage the frame just being sent.
    damage: usize,
    /// Turn to another image of the pool.
    switch: usize,
    /// Fill images with frames instead of random bytes.
    nested: usize,
}

/// The capture of this kind and seed, if there is such a kind.
pub fn generate(kind: &str, seed: u64) -> Option<Vec<u8>> {
    let base = Mix { switch: 10, nested: 100, ..Mix::default() };
    let mix = match kind {
        "sound" => Mix { lost: 60, ..base },
        "resume" => Mix { restart: 80, lost: 60, late: 60, switch: 40, ..base },
        "mistakes" => Mix { restart: 30, lost: 60, late: 20, mistake: 350, switch: 30, ..base },
        "shapes" => Mix { restart: 20, lost: 60, mistake: 50, oddity: 500, ..base },
        "damaged" => Mix { restart: 20, lost: 100, mistake: 80, damage: 100, ..base },
        "headers" => Mix { restart: 20, lost: 60, mistake: 50, stray: 300, ..base },
        "nested" => Mix { restart: 20, lost: 60, mistake: 50, damage: 200, nested: 900, ..base },
        "mixed" => Mix {
            restart: 30,
            lost: 60,
            late: 20,
            mistake: 150,
            oddity: 100,
            stray: 80,
            damage: 50,
            switch: 30,
            nested: 400,
        },
        "noise" => return Some(noise(&mut Rng::new(seed))),
        "runs" => return Some(runs(&mut Rng::new(seed))),
        "tiny" => return Some(tiny(&mut Rng::new(seed))),
        "numbers" => return Some(numbers(&mut Rng::new(seed))),
        _ => return None,
    };
    Some(Bench::new(Rng::new(seed), mix).run())
}

/// A packet as the module remembers it.
#[derive(Clone, Default)]
struct Packet {
    number: u16,
    bytes: Vec<u8>,
}

impl Packet {
    fn frame(&self) -> Vec<u8> {
        wire::fd(10, self.number, &self.bytes)
    }
}

/// The module at the bench.
struct Bench {
    rng: Rng,
    mix: Mix,
    capture: Vec<u8>,
    mirror: Receiver,
    area: Vec<u8>,
    images: Vec<Image>,
    image: usize,
    len1: u16,
    /// The two packets accepted last, the later one second, whatever came since.
    accepted: [Packet; 2],
}

impl Bench {
    fn new(mut rng: Rng, mix: Mix) -> Self {
        let images = image_pool(&mut rng, mix.nested);
        let len1 = packet_size(&mut rng);
        Bench {
            rng,
            mix,
            capture: Vec::new(),
            mirror: bench_receiver(),
            area: vec![0; BENCH_AREA],
            images,
            image: 0,
            len1,
            accepted: Default::default(),
        }
    }

    /// Steps until the capture has some random size, then perhaps tears it.
    fn run(mut self) -> Vec<u8> {
        let bounds = [300, 3_000, 3_000, 12_000, 40_000];
        let bound = self.rng.pick(&bounds);
        let size = self.rng.below(bound);
        while self.capture.len() < size {
            self.step();
        }
        if self.mix.damage + self.mix.stray > 0 && self.rng.chance(500) {
            let cut = self.rng.below(self.capture.len().min(600) + 1);
            self.capture.truncate(self.capture.len() - cut);
        }
        self.capture
    }

    fn step(&mut self) {
        if self.rng.chance(self.mix.switch) {
            self.image = self.rng.below(self.images.len());
        }
        if self.rng.chance(self.mix.stray) {
            let stray = stray(&mut self.rng);
            self.put(&stray);
        }
        let frame = if self.rng.chance(self.mix.restart) {
            self.len1 = packet_size(&mut self.rng);
            wire::fa(10, self.len1)
        } else if self.rng.chance(self.mix.lost) {
            self.lost_reply()
        } else if self.rng.chance(self.mix.late) {
            self.accepted[1].frame()
        } else if self.rng.chance(self.mix.mistake) {
            self.mistake()
        } else if self.rng.chance(self.mix.oddity) {
            let like = self.sensible();
            oddity(&mut self.rng, &like)
        } else {
            self.sensible()
        };
        let frame =
            if self.rng.chance(self.mix.damage) { damaged(&mut self.rng, &frame) } else { frame };
        self.put(&frame);
    }

    /// Sends bytes, to the capture and to the mirror, whose end checks are finished
    /// at once, as a replay does.
    fn put(&mut self, bytes: &[u8]) {
        self.capture.extend_from_slice(bytes);
        let mut room = [0; REPLY_ROOM];
        let mut rest = bytes;
        loop {
            let before = self.session().stored as usize;
            let report = self.mirror.feed(rest, &mut self.area, &mut room);
            let report = self.mirror.finish_check(report, PORTION, &self.area, &mut room);
            rest = &rest[report.taken..];
            match report.outcome {
                Outcome::NoFrame => return,
                Outcome::BadRecord => panic!("a frame left the mirror unlawful"),
                _ => self.remember_packet(before),
            }
        }
    }

    /// Remembers a packet if one was accepted: stored has grown by it.
    fn remember_packet(&mut self, before: usize) {
        let session = self.mirror.session();
        if let Some(bytes @ [_, ..]) = self.area.get(before..session.stored as usize) {
            let number = (session.next_number - 1) as u16;
            let packet = Packet { number, bytes: bytes.to_vec() };
            self.accepted.rotate_left(1);
            self.accepted[1] = packet;
        }
    }

    fn session(&self) -> &Session {
        self.mirror.session()
    }

    /// What an honest module sends next.
    fn sensible(&mut self) -> Vec<u8> {
        let session = self.mirror.session();
        match session.phase {
            Phase::Idle => {
                self.len1 = packet_size(&mut self.rng);
                wire::fa(10, self.len1)
            }
            Phase::Asked => wire::fb(10, &self.images[self.image]),
            Phase::Told => wire::fc(10, session.stored),
            Phase::Receiving if session.stored < session.identity.length => self.next_packet(),
            Phase::Receiving => wire::fe(10),
            Phase::Done if self.rng.chance(200) => wire::fe(10),
            Phase::Done => {
                self.image = self.rng.below(self.images.len());
                wire::fa(10, self.len1)
            }
        }
    }

    fn next_packet(&mut self) -> Vec<u8> {
        let session = self.session();
        let number = session.next_number as u16;
        let left = (session.identity.length - session.stored) as usize;
        let full = (session.packet_size as usize).min(left);
        let n = if self.rng.chance(60) { self.rng.between(1, full) } else { full };
        let bytes = self.image_part(n);
        wire::fd(10, number, &bytes)
    }

    /// n bytes of the image from place stored on, zeros past its end.
    fn image_part(&self, n: usize) -> Vec<u8> {
        let stored = self.session().stored as usize;
        let image = &self.images[self.image].bytes;
        let mut bytes = image.get(stored..).unwrap_or(&[]).to_vec();
        bytes.resize(n, 0);
        bytes
    }

    /// A frame of right shape and channel that is wrong where the session is.
    fn mistake(&mut self) -> Vec<u8> {
        let stored = self.session().stored;
        match self.rng.below(16) {
            0 => {
                self.len1 = self.rng.pick(&[0, 1, 14, 15, 16, 17, 511, 512, 513, 0x8000, 0xFFFF]);
                wire::fa(10, self.len1)
            }
            1 => wire::fb(10, &self.images[self.image]),
            2 | 3 => {
                let image = falsified(&mut self.rng, &self.images[self.image]);
                wire::fb(10, &image)
            }
            4 => {
                let any = self.rng.next() as u32;
                let choices = [0, stored, stored + 1, stored.wrapping_sub(1), any, 65_536, !0];
                let offset = self.rng.pick(&choices);
                wire::fc(10, offset)
            }
            5 => wire::fe(10),
            6..=9 => self.wrong_repeat(),
            _ => self.wrong_packet(),
        }
    }

    /// The packet accepted last in this leg again, once or more, as often as its
    /// reply was lost; where there is damage, perhaps torn before it comes whole.
    fn lost_reply(&mut self) -> Vec<u8> {
        if self.session().phase != Phase::Receiving || self.session().next_number == 0 {
            return self.sensible();
        }
        let frame = self.accepted[1].frame();
        let times = self.rng.pick(&[1, 1, 1, 2, 3, 9]);
        let again = frame.repeat(times);
        if self.mix.damage > 0 && self.rng.chance(300) {
            let torn = &frame[..self.rng.below(frame.len())];
            return [torn, &again].concat();
        }
        again
    }

    /// The packet accepted last again, but not quite it, or not at its time.
    fn wrong_repeat(&mut self) -> Vec<u8> {
        let [earlier, last] = self.accepted.clone();
        if last.bytes.is_empty() {
            return self.sensible();
        }
        match self.rng.below(9) {
            0 => earlier.frame(),
            1 => Packet { number: last.number, ..earlier }.frame(),
            2 => {
                let (above, below) = (last.number.wrapping_add(1), last.number.wrapping_sub(1));
                let number = self.rng.pick(&[above, below, earlier.number, !0]);
                Packet { number, ..last }.frame()
            }
            3 => {
                let new_leg = wire::fc(10, self.session().stored);
                let number = self.rng.pick(&[last.number, !0]);
                [new_leg, Packet { number, ..last }.frame()].concat()
            }
            4 => {
                let refused = if self.rng.chance(300) { wire::fe(10) } else { self.bad_crc() };
                [refused, last.frame()].concat()
            }
            _ => {
                let stored = &self.area[..self.mirror.session().stored as usize];
                let wrong = almost(&mut self.rng, &last, stored);
                if self.rng.chance(300) {
                    return [last.frame(), wrong, last.frame()].concat();
                }
                wrong
            }
        }
    }

    /// A packet of the next number, some length and a wrong CRC-16.
    fn bad_crc(&mut self) -> Vec<u8> {
        let n = self.rng.between(1, 16);
        let bytes = self.image_part(n);
        wire::fd_raw(10, self.session().next_number as u16, n as u16, !crc16(&bytes), &bytes)
    }

    /// A packet with one to three things wrong, for the order of the checks.
    fn wrong_packet(&mut self) -> Vec<u8> {
        let session = self.session();
        let (size, next) = (session.packet_size as usize, session.next_number);
        let left = session.identity.length.saturating_sub(session.stored) as usize;
        let fitting = left.min(size).clamp(1, 512);
        let mut n = fitting;
        let mut number = next as u16;
        let mut claimed_more = 0;
        let mut crc_change = 0;
        for _ in 0..self.rng.between(1, 3) {
            match self.rng.below(9) {
                0 => {
                    number = self.rng.pick(&[number.wrapping_add(1), number.wrapping_sub(1), 0, !0])
                }
                1 => claimed_more = self.rng.pick(&[1, !0, 256]),
                2 => n = 0,
                3 => n = (size + 1).min(512),
                4 => n = (left + 1).min(512),
                5 => n = self.rng.between(fitting, 512),
                _ => crc_change = self.rng.pick(&[1, 0x8000, 0xFFFF]),
            }
        }
        let bytes = self.image_part(n);
        let crc = crc16(&bytes) ^ crc_change;
        wire::fd_raw(10, number, (n as u16).wrapping_add(claimed_more), crc, &bytes)
    }
}

/// The packet accepted last with another CRC-16, byte, n or count of bytes;
/// `stored` are the area's stored bytes.
fn almost(rng: &mut Rng, last: &Packet, stored: &[u8]) -> Vec<u8> {
    let length = last.bytes.len();
    let any = rng.between(0, 512);
    let count = rng.pick(&[length - 1, length + 1, any]).min(512);
    let mut n = length as u16;
    let mut crc_change = 0;
    let mut bytes = last.bytes.clone();
    match rng.below(6) {
        0 | 1 => crc_change = rng.pick(&[1, 0x8000, 0xFFFF]),
        2 => {
            let place = rng.pick(&[0, any % length, length - 1]);
            bytes[place] ^= 1 << rng.below(8);
            crc_change = rng.pick(&[0, 0, 1]);
        }
        3 => n = n.wrapping_add(rng.pick(&[1, !0, 256])),
        4 => {
            bytes.resize(count, 0);
            n = rng.pick(&[n, count as u16]);
        }
        _ => {
            bytes = stored[stored.len().saturating_sub(count)..].to_vec();
            n = rng.pick(&[n, bytes.len() as u16]);
        }
    }
    wire::fd_raw(10, last.number, n, crc16(&bytes) ^ crc_change, &bytes)
}

/// Packet sizes modules ask for, most of them allowed.
fn packet_size(rng: &mut Rng) -> u16 {
    match rng.below(10) {
        0 => rng.pick(&[16, 17, 511, 512, 513, 1024, 0xFFFF]),
        1 => rng.between(16, 600) as u16,
        2 => rng.pick(&[15, 16]),
        _ => rng.pick(&[16, 64, 128, 200, 256, 512]),
    }
}

/// A few images, some alike but for one part of the identity.
fn image_pool(rng: &mut Rng, nested: usize) -> Vec<Image> {
    let bound = rng.pick(&[16, 64, 1_000, 1_000, 4_000, 20_000]);
    let length = rng.between(1, bound);
    let bytes = contents(rng, length, nested);
    let first = Image::new(rng.pick(&[[1, 0, 3], [1, 1, 0], [2, 0, 0]]), rng.byte(), bytes);
    let mut pool = vec![first];
    while rng.chance(600) && pool.len() < 5 {
        let like = rng.below(pool.len());
        let next = related(rng, &pool[like], nested);
        pool.push(next);
    }
    pool
}

/// An acceptable image that differs from `image` in one part or in all.
fn related(rng: &mut Rng, image: &Image, nested: usize) -> Image {
    let mut other = image.clone();
    match rng.below(6) {
        0 => other.version = [rng.between(2, 255) as u8, rng.byte(), rng.byte()],
        1 => other.md5[rng.below(16)] ^= 1 << rng.below(8),
        2 => other.crc32 ^= 1 << rng.below(32),
        3 => {
            other.bytes.push(rng.byte());
            other.length += 1;
        }
        4 => {
            let length = rng.between(1, other.bytes.len());
            other.bytes.truncate(length);
            other.length = length as u32;
            other.crc32 = crc32(&other.bytes);
        }
        _ => {
            let length = rng.between(1, 2_000);
            let bytes = contents(rng, length, nested);
            other = Image::new([1, 0, 3], rng.byte(), bytes);
        }
    }
    other
}

/// An image FB may have to refuse: PID, version or length, or several at once.
fn falsified(rng: &mut Rng, image: &Image) -> Image {
    let mut other = image.clone();
    for _ in 0..rng.between(1, 2) {
        match rng.below(5) {
            0 => other.pid[rng.below(8)] ^= 1 << rng.below(8),
            1 | 2 => {
                let any = [rng.below(3) as u8, rng.below(3) as u8, rng.below(5) as u8];
                let choices =
                    [[1, 0, 2], [1, 0, 1], [0, 255, 255], [1, 0, 3], [1, 1, 0], [2, 0, 0], any];
                other.version = rng.pick(&choices);
            }
            3 => other.length = rng.pick(&[0, 65_537, 65_536, 1, 0x0100_0000, !0]),
            _ => other = related(rng, image, 0),
        }
    }
    other
}

/// Image bytes: random, zeros, runs of 55 AA, or whole frames.
fn contents(rng: &mut Rng, length: usize, nested: usize) -> Vec<u8> {
    if rng.chance(nested) {
        let mut bytes = Vec::new();
        while bytes.len() < length {
            bytes.extend(small_frame(rng));
            if rng.chance(300) {
                bytes.extend(stray(rng));
            }
        }
        bytes.truncate(length);
        return bytes;
    }
    match rng.below(8) {
        0 => vec![0; length],
        1 => (0..length).map(|place| if place % 2 == 0 { 0x55 } else { 0xAA }).collect(),
        _ => rng.bytes(length),
    }
}

/// A short whole frame of any command.
fn small_frame(rng: &mut Rng) -> Vec<u8> {
    match rng.below(7) {
        0 => wire::f9(rng.byte()),
        1 => wire::fa(10, rng.pick(&[15, 16, 512])),
        2 => wire::fc(10, rng.below(100) as u32),
        3 => wire::fe(10),
        4 => {
            let n = rng.below(20);
            let bytes = rng.bytes(n);
            wire::fd(10, rng.below(3) as u16, &bytes)
        }
        5 => {
            let image = Image::new([1, 0, rng.below(5) as u8], rng.byte(), rng.bytes(3));
            wire::fb(10, &image)
        }
        _ => {
            let count = rng.below(12);
            let data = rng.bytes(count);
            wire::frame(rng.byte(), rng.byte(), &data)
        }
    }
}

/// A sound frame that outcome 2, 3 or 4 refuses, or an F9; `like` is a frame
/// that would be answered.
fn oddity(rng: &mut Rng, like: &[u8]) -> Vec<u8> {
    let (mut version, mut command) = (like[2], like[3]);
    let mut data = like[6..like.len() - 1].to_vec();
    for _ in 0..rng.between(1, 2) {
        match rng.below(6) {
            0 => command = rng.byte(),
            1 => command = rng.pick(&[0xF8, 0xF9, 0xFA, 0xFB, 0xFC, 0xFD, 0xFE, 0xFF, 0x56, 0xE8]),
            2 => version = rng.pick(&[0x00, 0x10, 0x01, 0x11, 0xFF]),
            3 => {
                let length = rng.pick(&[0, 1, 2, 3, 4, 5, 6, 7, 8, 35, 36, 37, 519]);
                data.resize(length, 0);
            }
            4 => {
                if let Some(channel) = data.first_mut() {
                    *channel = rng.pick(&[0, 9, 11, 19, 20, 0x10, 0xFF]);
                }
            }
            _ => return wire::frame(rng.pick(&[0, 0, 0, 0x10]), 0xF9, &data[..data.len().min(1)]),
        }
    }
    wire::frame(version, command, &data)
}

/// A frame damaged on its way.
fn damaged(rng: &mut Rng, frame: &[u8]) -> Vec<u8> {
    let mut bytes = frame.to_vec();
    let place = rng.below(bytes.len());
    let last = bytes.len() - 1;
    match rng.below(10) {
        0 => bytes[place] ^= 1 << rng.below(8),
        1 => drop(bytes.remove(place)),
        2 => bytes.insert(place, rng.byte()),
        3 => bytes.truncate(place),
        4 | 5 => bytes[last] = bytes[last].wrapping_add(rng.pick(&[1, 0xFF, 0x80])),
        6 => bytes[4] = rng.pick(&[0, 1, 2, 3, 0xFF]),
        7 => (bytes[4], bytes[5]) = rng.pick(&[(2, 7), (2, 8), (0, 0), (0, 1), (3, 0)]),
        8 => {
            let again = bytes[place..].to_vec();
            bytes.extend(again);
        }
        _ => {
            let inner = small_frame(rng);
            bytes.splice(place..place, inner);
        }
    }
    bytes
}

/// Stray bytes: near-miss headers, torn frames, bad sums, noise.
fn stray(rng: &mut Rng) -> Vec<u8> {
    let (version, command) =
        (rng.pick(&[0x00, 0x10, 0x55, 0xAA]), rng.pick(&[0xFD, 0xFE, 0x56, 0xAA]));
    match rng.below(14) {
        0 => vec![0x55],
        1 => vec![0x55, 0xAA],
        2 => vec![0x55, 0xAA, version],
        3 => vec![0x55, 0xAA, version, command],
        4 => vec![0x55, 0xAA, version, command, rng.pick(&[0, 1, 2, 3, 4, 0xFF])],
        5 | 6 => {
            let (high, low) = rng.pick(&[(2, 7), (2, 8), (2, 0xFF), (3, 0), (0xFF, 0xFF), (0, 0)]);
            vec![0x55, 0xAA, version, command, high, low]
        }
        7 => vec![0x55, 0xAA, version, command, rng.below(2) as u8, rng.byte()],
        8 => {
            let frame = small_frame(rng);
            frame[..rng.below(frame.len())].to_vec()
        }
        9 => {
            let mut frame = small_frame(rng);
            let last = frame.len() - 1;
            frame[last] = frame[last].wrapping_add(1);
            frame
        }
        10 => [0x55, 0xAA].repeat(rng.between(1, 20)),
        11 => vec![0x55; rng.between(1, 8)],
        12 if rng.chance(500) => {
            let count = rng.pick(&[520, 520, 521, 600, 768]);
            let data = contents(rng, count, 300);
            wire::overlong(version, command, &data)
        }
        12 => {
            let count = rng.between(1, 600);
            rng.bytes(count)
        }
        _ => {
            let count = rng.between(1, 9);
            rng.bytes(count)
        }
    }
}

/// Bursts of noise, rich in the bytes that matter, with frames between.
fn noise(rng: &mut Rng) -> Vec<u8> {
    const RICH: [u8; 12] = [0x55, 0x55, 0xAA, 0xAA, 0x00, 0x00, 0x01, 0x02, 0x07, 0x08, 0x0A, 0xFE];
    let bound = rng.pick(&[50, 600, 3_000, 20_000]);
    let size = rng.below(bound);
    let mut capture = Vec::new();
    while capture.len() < size {
        let count = rng.between(1, 60);
        match rng.below(4) {
            0 => capture.extend(rng.bytes(count)),
            1 => capture.extend((0..count).map(|_| rng.pick(&RICH))),
            2 => capture.extend(stray(rng)),
            _ => capture.extend(small_frame(rng)),
        }
    }
    capture
}

/// Long runs of 55 AA, of 55, and of headers that claim much, with frames.
fn runs(rng: &mut Rng) -> Vec<u8> {
    let bound = rng.pick(&[3, 60, 400]);
    let mut capture = Vec::new();
    for _ in 0..rng.between(1, 6) {
        let count = rng.below(bound);
        match rng.below(6) {
            0 => capture.extend([0x55, 0xAA].repeat(count)),
            1 => capture.extend([0x55].repeat(count)),
            2 => capture.extend([0x55, 0xAA, 0x10, 0xFD, 0x02, 0x07].repeat(count)),
            3 => capture.extend([0x55, 0xAA, 0x00, 0xFE, 0x00, 0x01].repeat(count)),
            4 => capture.extend([0x55, 0xAA, 0x55, 0xAA, 0x00, 0x01].repeat(count)),
            _ => capture.extend([0x55, 0xAA, 0x00, 0x00, 0x00, 0x00, 0xFF].repeat(count)),
        }
        if rng.chance(800) {
            capture.extend(small_frame(rng));
        }
        if rng.chance(200) {
            let count = rng.pick(&[510, 511, 512]);
            let bytes = contents(rng, count, 500);
            capture.extend(wire::fd(10, 0, &bytes));
        }
    }
    capture
}

/// Captures of no to a few dozen bytes.
fn tiny(rng: &mut Rng) -> Vec<u8> {
    const ALPHABET: [u8; 10] = [0x55, 0x55, 0xAA, 0x00, 0x01, 0x02, 0x03, 0x07, 0x0A, 0xFE];
    let mut capture = Vec::new();
    for _ in 0..rng.below(5) {
        match rng.below(5) {
            0 => {
                let count = rng.below(9);
                capture.extend((0..count).map(|_| rng.pick(&ALPHABET)));
            }
            1 => capture.extend([0x55, 0xAA, 0x00, 0x56, 0x00, 0x00]),
            2 => {
                let frame = small_frame(rng);
                capture.extend(&frame[..rng.between(0, frame.len())]);
            }
            3 => {
                let frame = small_frame(rng);
                capture.extend(damaged(rng, &frame));
            }
            _ => capture.extend(small_frame(rng)),
        }
    }
    capture
}

/// Every packet number: 65,536 packets of one byte fill the area, some sent
/// again; then no number is the next, until FC. "After number 65,535 no packet is
/// next", but 65,535 is one below it and may come again.
fn numbers(rng: &mut Rng) -> Vec<u8> {
    let image = Image::new([1, 0, 3], rng.byte(), rng.bytes(BENCH_AREA));
    let mut capture = wire::fa(10, 16);
    capture.extend(wire::fb(10, &image));
    capture.extend(wire::fc(10, 0));
    for (number, byte) in image.bytes.iter().enumerate() {
        let packet = wire::fd(10, number as u16, &[*byte]);
        capture.extend(&packet);
        if rng.chance(1) {
            capture.extend(&packet);
        }
        if rng.chance(1) {
            capture.extend(wire::fd_raw(10, number as u16, 1, !crc16(&[*byte]), &[*byte]));
        }
    }
    let last = image.bytes[BENCH_AREA - 1];
    for number in [0, 1, 0xFFFE, 0xFFFF] {
        capture.extend(wire::fd(10, number, &[last]));
    }
    capture.extend(wire::fd_raw(10, 0xFFFF, 1, !crc16(&[last]), &[last]));
    capture.extend(wire::fd(10, 0xFFFF, &[!last]));
    capture.extend(wire::fd(10, 0xFFFF, &[last]));
    capture.extend(wire::fe(10));
    capture.extend(wire::fd(10, 0xFFFF, &[last]));
    capture.extend(wire::fb(10, &image));
    capture.extend(wire::fc(10, BENCH_AREA as u32));
    capture.extend(wire::fd(10, 0xFFFF, &[last]));
    capture.extend(wire::fd(10, 0, &[last]));
    capture.extend(wire::fe(10));
    capture.extend(wire::fb(10, &image));
    capture.extend(wire::fc(10, 1));
    capture.extend(wire::fd(10, 0, &image.bytes[..16]));
    capture
}
