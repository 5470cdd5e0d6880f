//! The module as random sessions play it: over several boards, with several images,
//! mostly sound.

use crate::console::record::{Board, Phase};
use crate::crc::crc16;
use crate::rng::Rng;
use crate::sessions::Script;
use crate::stored::hex;
use crate::wire::{self, Image};

/// The boards of the list, the images it has for them, and where it stands.
pub struct Module {
    pub boards: Vec<Board>,
    /// The length that the record is opened with.
    pub opened: usize,
    /// Each may go to any board: FB then carries that board's PID.
    pub images: Vec<Image>,
    /// The board it works on, as a place in the list, and the image.
    pub place: usize,
    pub image: usize,
    /// The packet sent last: number and bytes.
    pub sent: (u16, Vec<u8>),
}

impl Module {
    /// Writes a list, opens the record with it and lends an area of its length.
    pub fn open(script: &mut Script) -> Module {
        let boards = some_boards(&mut script.rng);
        let opened = some_length(&mut script.rng);
        for (place, board) in boards.iter().enumerate() {
            script.line(&format!("board {place} {}", board_words(board)));
        }
        script.line(&format!("area {opened}"));
        script.line(&format!("open {} {opened}", boards.len()));
        let images = some_images(&mut script.rng, &boards, opened);
        let mut module =
            Module { boards, opened, images, place: 0, image: 0, sent: Default::default() };
        module.turn(script);
        module
    }

    /// Turns to another board and image, mostly a board with a permit.
    pub fn turn(&mut self, script: &mut Script) {
        for _ in 0..3 {
            self.place = script.rng.below(self.boards.len());
            if self.boards[self.place].permit {
                break;
            }
        }
        self.image = script.rng.below(self.images.len());
    }

    pub fn board(&self) -> Board {
        self.boards[self.place]
    }

    pub fn channel(&self) -> u8 {
        self.board().channel
    }

    /// The image it works on, for its board.
    pub fn announced(&self) -> Image {
        Image { pid: self.board().pid, ..self.images[self.image].clone() }
    }

    /// What a sound module does next; while an end check runs, a portion call.
    pub fn step(&mut self, script: &mut Script) {
        if script.bench.record.check.running {
            return script.portion();
        }
        let frame = self.next_frame(script);
        script.send(&frame);
    }

    /// The frame that a sound module sends next.
    pub fn next_frame(&mut self, script: &mut Script) -> Vec<u8> {
        let record = script.bench.record.clone();
        let channel = self.channel();
        if record.phase == Phase::Idle || record.channel != channel {
            if script.rng.chance(300) {
                self.turn(script);
            }
            return wire::fa(self.channel(), self.packet_size(&mut script.rng));
        }
        match record.phase {
            Phase::Idle | Phase::Asked => wire::fb(channel, &self.announced()),
            Phase::Told => wire::fc(channel, record.stored as u32),
            Phase::Receiving if record.stored < record.identity.announced => {
                self.next_packet(script)
            }
            Phase::Receiving => wire::fe(channel),
            Phase::Done if script.rng.chance(300) => wire::fe(channel),
            Phase::Done => {
                self.turn(script);
                wire::fa(self.channel(), self.packet_size(&mut script.rng))
            }
        }
    }

    /// A packet size with which the image takes some ten packets, or any.
    fn packet_size(&self, rng: &mut Rng) -> u16 {
        let tenth = ((self.images[self.image].bytes.len() / 10) as u16 + 1).max(16);
        match rng.below(6) {
            0 => rng.pick(&[16, 17, 511, 512, 513, 0x8000, 0xFFFF]),
            1 => 16 + rng.below(600) as u16,
            _ => tenth,
        }
    }

    fn next_packet(&mut self, script: &mut Script) -> Vec<u8> {
        let record = &script.bench.record;
        let left = record.identity.announced.saturating_sub(record.stored) as usize;
        let full = (record.agreed as usize).clamp(1, 512).min(left.max(1));
        let (number, stored) = (record.next as u16, record.stored as usize);
        let n = if script.rng.chance(60) { script.rng.between(1, full) } else { full };
        let mut bytes = self.images[self.image].bytes.get(stored..).unwrap_or(&[]).to_vec();
        bytes.resize(n, 0);
        self.sent = (number, bytes);
        self.packet_again()
    }

    /// The packet sent last, as after a lost reply.
    pub fn packet_again(&self) -> Vec<u8> {
        wire::fd(self.channel(), self.sent.0, &self.sent.1)
    }

    /// A frame of right shape and listed channel that is wrong where the session is,
    /// or at least another one than the next.
    pub fn mistake(&mut self, script: &mut Script) -> Vec<u8> {
        let record = script.bench.record.clone();
        let stored = record.stored as u32;
        let rng = &mut script.rng;
        let other = rng.pick(&self.boards).channel;
        let channel = if rng.chance(800) { self.channel() } else { other };
        let telling = record.phase == Phase::Asked && rng.chance(500);
        let sending = record.phase == Phase::Receiving && rng.chance(500);
        match rng.below(12) {
            _ if sending => self.wrong_packet(script, channel),
            2 | 3 => self.wrong_image(script, channel),
            _ if telling => self.wrong_image(script, channel),
            0 => wire::fa(channel, rng.pick(&[0, 1, 15, 16, 17, 511, 512, 513, 0xFFFF])),
            1 => wire::fb(channel, &self.announced()),
            4 | 5 => {
                let (any, above) = (rng.next() as u32, stored.wrapping_add(1));
                let choices = [0, stored, above, stored.wrapping_sub(1), any, 65_536, !0];
                wire::fc(channel, rng.pick(&choices))
            }
            6 => wire::fe(channel),
            7 => wire::f9(rng.byte()),
            8 => self.packet_again(),
            _ => self.wrong_packet(script, channel),
        }
    }

    fn wrong_image(&self, script: &mut Script, channel: u8) -> Vec<u8> {
        let (announced, board) = (self.announced(), self.board());
        let image = falsified(&mut script.rng, &announced, &board, &self.boards, self.opened);
        wire::fb(channel, &image)
    }

    /// The next packet or the one sent last, with one or two things wrong: number, n,
    /// CRC-16, a byte, or more bytes than agreed or left.
    fn wrong_packet(&mut self, script: &mut Script, channel: u8) -> Vec<u8> {
        let record = script.bench.record.clone();
        let sent = self.sent.clone();
        self.next_packet(script);
        let rng = &mut script.rng;
        if rng.chance(400) {
            self.sent = sent;
        }
        let (mut number, mut bytes) = self.sent.clone();
        let (mut more, mut crc_change) = (0, 0);
        for _ in 0..rng.between(1, 2) {
            match rng.below(7) {
                6 if bytes.len() > 1 => {
                    bytes.remove(0); // n says that it is still there
                    more = 1;
                }
                0 => number = rng.pick(&[number.wrapping_add(1), number.wrapping_sub(1), 0, !0]),
                1 => more = rng.pick(&[1, !0, 0x100]),
                2 => crc_change = 1 << rng.below(16),
                3 if !bytes.is_empty() => bytes[0] ^= 1,
                4 => bytes.truncate(rng.below(bytes.len() + 1)),
                _ => {
                    let left = record.identity.announced.saturating_sub(record.stored);
                    let edge = rng.pick(&[record.agreed, left]).min(511) as usize;
                    bytes.resize(edge + 1, 0);
                }
            }
        }
        let n = (bytes.len() as u16).wrapping_add(more);
        wire::fd_raw(channel, number, n, crc16(&bytes) ^ crc_change, &bytes)
    }
}

/// Permit and bytes of a board, as `board` and `set board` take them.
pub fn board_words(board: &Board) -> String {
    let Board { channel, soft, hard, pid, permit } = board;
    let permit = u8::from(*permit);
    format!("{permit} {channel:02X} {} {} {}", hex(soft), hex(hard), hex(pid))
}

/// One to ten boards, no channel twice; some lists have one PID and one soft version
/// for all, so that boards differ in their channels only.
fn some_boards(rng: &mut Rng) -> Vec<Board> {
    let mut channels: Vec<u8> = (10..=19).collect();
    let alike = rng.chance(300);
    let pid = some_pid(rng);
    let soft = some_version(rng);
    let count = if rng.chance(50) { 1 } else { rng.between(2, 10) };
    let mut board = || Board {
        channel: channels.swap_remove(rng.below(channels.len())),
        soft: if alike { soft } else { some_version(rng) },
        hard: some_version(rng),
        pid: if alike { pid } else { some_pid(rng) },
        permit: rng.chance(750),
    };
    (0..count).map(|_| board()).collect()
}

fn some_version(rng: &mut Rng) -> [u8; 3] {
    [0; 3].map(|_| if rng.chance(900) { rng.below(4) as u8 } else { rng.byte() })
}

/// Any bytes, or zeros with one other byte.
fn some_pid(rng: &mut Rng) -> [u8; 8] {
    let mut pid = [0; 8];
    if rng.chance(500) {
        return pid.map(|_| rng.byte());
    }
    pid[rng.below(8)] = rng.byte();
    pid
}

/// Mostly small, so that sessions are fast.
fn some_length(rng: &mut Rng) -> usize {
    match rng.below(10) {
        0 => rng.between(1, 16),
        1 => 65_536,
        2 | 3 => rng.between(1, 3_000),
        _ => rng.between(17, 400),
    }
}

/// A few images that fit, newer than the boards' versions, most of them.
fn some_images(rng: &mut Rng, boards: &[Board], opened: usize) -> Vec<Image> {
    let newest = boards.iter().map(|board| board.soft).max().unwrap_or_default();
    let mut image = || {
        let most = if rng.chance(700) { opened.min(200) } else { opened.min(3_000) };
        let length = rng.between(1, most);
        let bytes = rng.bytes(length);
        let version = match rng.below(4) {
            0 => some_version(rng),
            1 => [newest[0], newest[1], newest[2].saturating_add(1)],
            _ => [newest[0].saturating_add(1), rng.byte(), rng.byte()],
        };
        Image::new(version, rng.below(3) as u8, bytes)
    };
    (0..3).map(|_| image()).collect()
}

/// The image announced wrongly in one or two fields.
fn falsified(
    rng: &mut Rng,
    image: &Image,
    board: &Board,
    boards: &[Board],
    opened: usize,
) -> Image {
    let mut image = image.clone();
    for _ in 0..rng.between(1, 2) {
        match rng.below(7) {
            0 => image.pid[rng.below(8)] ^= 1 << rng.below(8),
            1 => image.pid = rng.pick(boards).pid,
            2 => image.version = board.soft,
            3 => image.version = around(rng, board.soft),
            4 => image.length = rng.pick(&[0, opened as u32, opened as u32 + 1, !0]),
            5 => image.md5[rng.below(16)] ^= 1,
            _ => image.crc32 ^= 1 << rng.below(32),
        }
    }
    image
}

/// A version with one part one above or below.
fn around(rng: &mut Rng, version: [u8; 3]) -> [u8; 3] {
    let mut version = version;
    let part = &mut version[rng.below(3)];
    *part = part.wrapping_add(rng.pick(&[1, !0]));
    version
}
