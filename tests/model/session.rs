//! The session: what the controller answers to each frame of the module.
//!
//! 01, "How the session answers", and its tables; document 02, K2, where a
//! packet is sent again, and K5, where the end check is made in slices.

use std::ops::RangeInclusive;

use crate::check::{EndCheck, Portion, Verdict};
use crate::crc::{crc16, crc32};
use crate::frame::{self, Frame};

/// "Versions compare part by part, first part first", as arrays do.
pub type Version = [u8; 3];
pub type Pid = [u8; 8];
pub type Md5 = [u8; 16];

pub const MAX_BOARDS: usize = 10;
/// Len2, the most the controller takes in one packet.
pub const MAX_PACKET: u16 = 512;
/// Len1 below this is refused.
pub const MIN_PACKET: u16 = 16;
/// The agreed sizes that outcome 9 allows unless idle: "16 to 512".
pub const AGREED_SIZES: RangeInclusive<u64> = MIN_PACKET as u64..=MAX_PACKET as u64;
/// Number, n, CRC-16 and channel before a packet's bytes.
const PACKET_HEAD: usize = 7;
/// The next number once packet 65,535 is in: no packet has it.
pub const NO_NEXT_NUMBER: u32 = 65_536;

/// One expansion board of the list.
#[derive(Clone, Copy, Debug, Default, PartialEq, Eq)]
pub struct Board {
    pub channel: u8,
    pub soft: Version,
    pub hard: Version,
    pub pid: Pid,
    pub permit: bool,
}

/// "1 to 10 boards (channel 10 to 19, none twice [...])".
#[derive(Clone, Debug, PartialEq, Eq)]
pub struct BoardList {
    places: [Board; MAX_BOARDS],
    count: usize,
}

impl BoardList {
    /// The list of these boards, unless it breaks the rules above.
    pub fn new(boards: &[Board]) -> Option<Self> {
        if boards.is_empty() || boards.len() > MAX_BOARDS {
            return None;
        }
        let mut places = [Board::default(); MAX_BOARDS];
        places[..boards.len()].copy_from_slice(boards);
        let list = BoardList { places, count: boards.len() };
        list.keeps_rules().then_some(list)
    }

    fn keeps_rules(&self) -> bool {
        let boards = self.boards();
        boards.iter().enumerate().all(|(index, board)| {
            (10..=19).contains(&board.channel)
                && boards[..index].iter().all(|earlier| earlier.channel != board.channel)
        })
    }

    pub fn boards(&self) -> &[Board] {
        &self.places[..self.count]
    }

    pub fn find(&self, channel: u8) -> Option<&Board> {
        self.boards().iter().find(|board| board.channel == channel)
    }
}

#[derive(Clone, Copy, Debug, Default, PartialEq, Eq)]
pub enum Phase {
    #[default]
    Idle,
    Asked,
    Told,
    Receiving,
    Done,
}

impl Phase {
    /// As programs tell it: "idle, asked, told, receiving, done".
    pub fn name(self) -> &'static str {
        match self {
            Phase::Idle => "idle",
            Phase::Asked => "asked",
            Phase::Told => "told",
            Phase::Receiving => "receiving",
            Phase::Done => "done",
        }
    }
}

/// "the image's identity: channel, version, announced length, MD5, CRC-32";
/// the PID is no part of it.
#[derive(Clone, Copy, Debug, Default, PartialEq, Eq)]
pub struct Identity {
    pub channel: u8,
    pub version: Version,
    pub length: u32,
    pub md5: Md5,
    pub crc32: u32,
}

/// What is remembered from frame to frame.
#[derive(Clone, Debug, Default, PartialEq, Eq)]
pub struct Session {
    pub phase: Phase,
    pub channel: u8,
    /// The agreed size: 16 to 512, but while idle any number is lawful.
    pub packet_size: u64,
    pub next_number: u32,
    pub stored: u32,
    /// The length of the packet accepted last in this leg, "0 after FC and
    /// whenever stored becomes 0" (document 02, K2).
    pub last_packet: u16,
    pub identity: Identity,
    /// The end check, which an FE starts and portion calls finish (K5).
    pub check: EndCheck,
}

/// The six commands.
#[derive(Clone, Copy, Debug, PartialEq, Eq)]
#[repr(u8)]
pub enum Command {
    Report = 0xF9,
    Request = 0xFA,
    FileInfo = 0xFB,
    Offset = 0xFC,
    Packet = 0xFD,
    End = 0xFE,
}

/// A data length the table gives for frames of the module.
#[derive(Clone, Copy, Debug)]
enum Length {
    Exactly(usize),
    AtLeast(usize),
}

impl Length {
    fn admits(self, length: usize) -> bool {
        match self {
            Length::Exactly(wanted) => length == wanted,
            Length::AtLeast(least) => length >= least,
        }
    }
}

/// A row of the command table.
struct Row {
    command: Command,
    version: u8,
    length: Length,
    /// Version and L of the reply; F9 has none.
    reply: Option<(u8, usize)>,
}

/// "The command table, as one constant, with lengths of data and the version
/// byte (the page's own mixture of 00 and 10 is kept)".
const COMMANDS: [Row; 6] = [
    row(Command::Report, 0x00, Length::Exactly(1), None),
    row(Command::Request, 0x00, Length::Exactly(3), Some((0x00, 7))),
    row(Command::FileInfo, 0x10, Length::Exactly(36), Some((0x10, 26))),
    row(Command::Offset, 0x00, Length::Exactly(5), Some((0x00, 5))),
    row(Command::Packet, 0x10, Length::AtLeast(PACKET_HEAD), Some((0x00, 2))),
    row(Command::End, 0x00, Length::Exactly(1), Some((0x00, 2))),
];

const fn row(command: Command, version: u8, length: Length, reply: Option<(u8, usize)>) -> Row {
    Row { command, version, length, reply }
}

impl Row {
    fn of(code: u8) -> Option<&'static Row> {
        COMMANDS.iter().find(|row| row.command as u8 == code)
    }

    /// Writes the reply of this row and gives its length.
    fn reply(&self, room: &mut [u8], data: &[u8]) -> usize {
        let Some((version, length)) = self.reply else { return 0 };
        debug_assert_eq!(length, data.len());
        frame::write(room, version, self.command as u8, data)
    }
}

/// Why a frame gets no reply; the session is then the same as before.
#[derive(Clone, Copy, Debug, PartialEq, Eq)]
pub enum Refusal {
    /// "command not in the table"
    UnknownCommand,
    /// "version byte or L wrong (FD: L below 7)"
    WrongShape,
    /// "channel not in the list (F9 exempt)"
    UnlistedChannel,
    /// "FB or FC in a wrong phase or channel"
    OutOfTurn,
    /// "While a check runs, FA to FE get a new outcome 12 after 4, as 2."
    CheckRunning,
}

#[derive(Clone, Copy, Debug, PartialEq, Eq)]
#[repr(u8)]
enum FileState {
    Accepted = 0x00,
    OtherPid = 0x01,
    NotNewer = 0x02,
    BadLength = 0x03,
}

#[derive(Clone, Copy, Debug, PartialEq, Eq)]
#[repr(u8)]
enum PacketState {
    Accepted = 0x00,
    WrongNumber = 0x01,
    WrongLength = 0x02,
    WrongCrc = 0x03,
    NotReceiving = 0x04,
}

/// "State 02 of the page is never sent."
#[derive(Clone, Copy, Debug, PartialEq, Eq)]
#[repr(u8)]
enum EndState {
    Accepted = 0x00,
    Incomplete = 0x01,
    Refused = 0x03,
}

/// The data of an FB frame.
struct FileInfo {
    pid: Pid,
    identity: Identity,
}

/// The data of an FD frame.
struct Packet<'a> {
    channel: u8,
    number: u16,
    announced: u16,
    crc16: u16,
    bytes: &'a [u8],
}

impl Session {
    /// Answers a frame: the reply's length (0 for F9), the reply at the front
    /// of `room`, which has space for every reply.
    ///
    /// "First version byte, L and channel are checked (outcomes 2, 3, 4 below,
    /// in that order)." Then outcome 12, which F9 never gets.
    pub fn answer(
        &mut self,
        boards: &BoardList,
        frame: &Frame<'_>,
        area: &mut [u8],
        room: &mut [u8],
    ) -> Result<usize, Refusal> {
        let row = Row::of(frame.command).ok_or(Refusal::UnknownCommand)?;
        if frame.version != row.version || !row.length.admits(frame.data.len()) {
            return Err(Refusal::WrongShape);
        }
        if row.command == Command::Report {
            return Ok(0); // "noted, no reply, nothing changes"
        }
        let mut fields = Fields(frame.data);
        let channel = fields.byte();
        let board = boards.find(channel).ok_or(Refusal::UnlistedChannel)?;
        if self.check.running {
            return Err(Refusal::CheckRunning);
        }

        match row.command {
            Command::Report => Ok(0),
            Command::Request => {
                let flag = self.request(board, fields.number16());
                let [v1, v2, v3] = board.soft;
                let [high, low] = MAX_PACKET.to_be_bytes();
                Ok(row.reply(room, &[channel, flag, v1, v2, v3, high, low]))
            }
            Command::FileInfo => {
                let info = FileInfo::read(channel, fields);
                let state = self.file_info(board, &info, area.len())?;
                Ok(row.reply(room, &self.file_reply(channel, state, area)))
            }
            Command::Offset => {
                let granted = self.offset(channel, fields.number32())?;
                let [a, b, c, d] = granted.to_be_bytes();
                Ok(row.reply(room, &[channel, a, b, c, d]))
            }
            Command::Packet => {
                let state = self.packet(&Packet::read(channel, fields), area);
                Ok(row.reply(room, &[channel, state as u8]))
            }
            Command::End => match self.end(channel) {
                Some(state) => Ok(row.reply(room, &[channel, state as u8])),
                None => Ok(0), // FE's reply comes with the verdict
            },
        }
    }

    /// FA: "Flag 1 if the board has no permit or Len1 is below 16; nothing
    /// changes. Else flag 0, phase asked, session's channel this one, agreed
    /// size the smaller of Len1 and 512."
    fn request(&mut self, board: &Board, len1: u16) -> u8 {
        if !board.permit || len1 < MIN_PACKET {
            return 1;
        }
        self.phase = Phase::Asked;
        self.channel = board.channel;
        self.packet_size = u64::from(len1.min(MAX_PACKET));
        0
    }

    /// FB: "any phase but idle, on the session's channel; else outcome 10. In
    /// order: PID differs, 01; version not above the board's soft one, 02;
    /// length 0 or above the area's, 03. These set phase idle, change nothing
    /// else [...]. Otherwise 00, phase told; if the identity is the one already
    /// held, stored stays, else the identity is replaced and stored becomes 0."
    fn file_info(
        &mut self,
        board: &Board,
        info: &FileInfo,
        area_len: usize,
    ) -> Result<FileState, Refusal> {
        if self.phase == Phase::Idle || board.channel != self.channel {
            return Err(Refusal::OutOfTurn);
        }
        let state = judge_file(board, info, area_len);
        if state != FileState::Accepted {
            self.phase = Phase::Idle;
            return Ok(state);
        }
        self.phase = Phase::Told;
        if info.identity != self.identity {
            self.identity = info.identity;
            self.forget_stored();
        }
        Ok(state)
    }

    /// FB's reply: stored and its CRC-32, "of the area's first stored bytes at
    /// that moment", both zero on a refusal; then the MD5 field, 16 zero bytes.
    fn file_reply(&self, channel: u8, state: FileState, area: &[u8]) -> [u8; 26] {
        let mut data = [0; 26];
        data[0] = channel;
        data[1] = state as u8;
        if state == FileState::Accepted {
            data[2..6].copy_from_slice(&self.stored.to_be_bytes());
            let crc = crc32(&area[..self.stored as usize]);
            data[6..10].copy_from_slice(&crc.to_be_bytes());
        }
        data
    }

    /// FC: "phase told or receiving, session's channel; else outcome 10. If
    /// offset equals stored, the reply is that offset. Otherwise stored becomes
    /// 0 and the reply is 0. Phase receiving, next number 0." A leg begins: no
    /// packet is accepted in it yet, even where stored stays.
    fn offset(&mut self, channel: u8, offset: u32) -> Result<u32, Refusal> {
        if !matches!(self.phase, Phase::Told | Phase::Receiving) || channel != self.channel {
            return Err(Refusal::OutOfTurn);
        }
        if offset != self.stored {
            self.forget_stored();
        }
        self.phase = Phase::Receiving;
        self.next_number = 0;
        self.last_packet = 0;
        Ok(self.stored)
    }

    /// FD: "not receiving or not the session's channel, 04". Between 04 and 01 a
    /// packet sent again: its CRC-16 "must be right, else 03", and it changes
    /// nothing. Then all others; only a sound one is written, "from place stored
    /// on, into that part of the area only; stored grows by n, next number by 1.
    /// After number 65,535 no packet is next."
    fn packet(&mut self, packet: &Packet<'_>, area: &mut [u8]) -> PacketState {
        if self.phase != Phase::Receiving || packet.channel != self.channel {
            return PacketState::NotReceiving;
        }
        if self.is_repeated(packet, area) {
            return packet.judge_crc();
        }
        let state = self.judge_next(packet);
        if state == PacketState::Accepted {
            let start = self.stored as usize;
            area[start..start + packet.bytes.len()].copy_from_slice(packet.bytes);
            self.stored += u32::from(packet.announced);
            self.next_number += 1; // at most 65,536: that is no packet's number
            self.last_packet = packet.announced;
        }
        state
    }

    /// Document 02, K2: "A packet whose number is one below the next, whose length
    /// (n and L - 7 alike) is that of the packet accepted last in this leg and
    /// whose bytes equal the area's last stored bytes"; while that length is 0,
    /// none. Next number 0 has no number below it.
    fn is_repeated(&self, packet: &Packet<'_>, area: &[u8]) -> bool {
        self.last_packet != 0
            && u32::from(packet.number) + 1 == self.next_number
            && packet.announced == self.last_packet
            && packet.bytes.len() == usize::from(self.last_packet)
            && area[..self.stored as usize].ends_with(packet.bytes)
    }

    /// "number is not the next, 01; n differs from L - 7, or n is 0, or above the
    /// agreed size, or stored + n above announced, 02; CRC-16 wrong, 03. None of
    /// these changes anything."
    fn judge_next(&self, packet: &Packet<'_>) -> PacketState {
        let n = packet.announced;
        if u32::from(packet.number) != self.next_number {
            PacketState::WrongNumber
        } else if usize::from(n) != packet.bytes.len()
            || n == 0
            || u64::from(n) > self.packet_size
            || u32::from(n) > self.identity.length - self.stored
        {
            PacketState::WrongLength
        } else {
            packet.judge_crc()
        }
    }

    /// FE: "Not receiving or done, or another channel: 03, nothing changes.
    /// Stored is not announced: 01, nothing changes." These are answered at once;
    /// "An FE that gets as far as the CRC starts a check" and has no state yet.
    fn end(&mut self, channel: u8) -> Option<EndState> {
        if !self.may_end() || channel != self.channel {
            return Some(EndState::Refused);
        }
        if self.stored != self.identity.length {
            return Some(EndState::Incomplete);
        }
        self.check = EndCheck::STARTED;
        None
    }

    fn may_end(&self) -> bool {
        matches!(self.phase, Phase::Receiving | Phase::Done)
    }

    /// A portion of the running check. "The call that reads the last byte gives
    /// the verdict and FE's reply", which is written to the front of `room`.
    pub fn portion(&mut self, most: usize, area: &[u8], room: &mut [u8]) -> Portion {
        let image = &area[..self.identity.length as usize];
        let count = self.check.read_on(most, image);
        if (self.check.read as usize) < image.len() {
            return Portion { count, ..Portion::default() };
        }
        let (verdict, state) = if self.check.crc32() == self.identity.crc32 {
            (Verdict::Right, EndState::Accepted)
        } else {
            (Verdict::Wrong, EndState::Refused)
        };
        self.finish_check(verdict);
        let row = Row::of(Command::End as u8).expect("FE is in the table");
        let reply = row.reply(room, &[self.channel, state as u8]);
        Portion { count, verdict, reply }
    }

    /// "makes FE's changes and zeroes the check's own fields". FE's changes: "CRC-32
    /// of the area's first announced bytes differs: [...] phase idle, stored 0,
    /// identity all zero (its channel too). Otherwise [...] phase done."
    fn finish_check(&mut self, verdict: Verdict) {
        self.check = EndCheck::default();
        if verdict == Verdict::Right {
            self.phase = Phase::Done;
        } else {
            self.phase = Phase::Idle;
            self.forget_stored();
            self.identity = Identity::default();
        }
    }

    /// Stored becomes 0, and with it the last packet's length.
    fn forget_stored(&mut self) {
        self.stored = 0;
        self.last_packet = 0;
    }

    /// The session's part of "Outcome 9 is given exactly when", and of K2's "also
    /// given if it is above 512 or above stored", and K5's. The agreed size is no
    /// bound for the last packet: FA may agree on a smaller one.
    pub fn lawful(&self, boards: &BoardList, area_len: usize) -> bool {
        let announced = self.identity.length;
        let leg_open = matches!(self.phase, Phase::Told | Phase::Receiving | Phase::Done);
        self.stored <= announced
            && announced as usize <= area_len
            && self.next_number <= NO_NEXT_NUMBER
            && self.last_packet <= MAX_PACKET
            && u32::from(self.last_packet) <= self.stored
            && (self.phase == Phase::Idle
                || (boards.find(self.channel).is_some()
                    && AGREED_SIZES.contains(&self.packet_size)))
            && (!leg_open || announced != 0)
            && (!self.check.running || self.check_lawful())
    }

    /// "Outcome 9 is also given if a running check has read the announced length or
    /// more, or runs though stored is not announced or the phase is not receiving
    /// or done."
    fn check_lawful(&self) -> bool {
        self.check.read < u64::from(self.identity.length)
            && self.stored == self.identity.length
            && self.may_end()
    }
}

fn judge_file(board: &Board, info: &FileInfo, area_len: usize) -> FileState {
    let length = info.identity.length as usize;
    if info.pid != board.pid {
        FileState::OtherPid
    } else if info.identity.version <= board.soft {
        FileState::NotNewer
    } else if length == 0 || length > area_len {
        FileState::BadLength
    } else {
        FileState::Accepted
    }
}

impl FileInfo {
    fn read(channel: u8, mut fields: Fields<'_>) -> Self {
        let pid = fields.array();
        let version = fields.array();
        let md5 = fields.array();
        let length = fields.number32();
        let crc32 = fields.number32();
        FileInfo { pid, identity: Identity { channel, version, length, md5, crc32 } }
    }
}

impl<'a> Packet<'a> {
    fn read(channel: u8, mut fields: Fields<'a>) -> Self {
        let number = fields.number16();
        let announced = fields.number16();
        let crc16 = fields.number16();
        Packet { channel, number, announced, crc16, bytes: fields.0 }
    }

    /// The CRC-16, the last test, once all others are passed.
    fn judge_crc(&self) -> PacketState {
        if crc16(self.bytes) == self.crc16 {
            PacketState::Accepted
        } else {
            PacketState::WrongCrc
        }
    }
}

/// Reads a frame's data field by field: "All numbers are high byte first".
/// The command table has settled that there are enough bytes.
struct Fields<'a>(&'a [u8]);

impl Fields<'_> {
    fn array<const N: usize>(&mut self) -> [u8; N] {
        let (field, rest) = self.0.split_first_chunk().expect("L was checked by the table");
        self.0 = rest;
        *field
    }

    fn byte(&mut self) -> u8 {
        u8::from_be_bytes(self.array())
    }

    fn number16(&mut self) -> u16 {
        u16::from_be_bytes(self.array())
    }

    fn number32(&mut self) -> u32 {
        u32::from_be_bytes(self.array())
    }
}
