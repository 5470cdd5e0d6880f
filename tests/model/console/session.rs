//! "How the session answers": a lawful record, the area of the opened length and one whole frame.

use super::crc::{crc16, crc32, CRC32_START};
use super::frame::Frame;
use super::outcome::Outcome;
use super::record::{Board, Check, Identity, Phase, Record, LEAST_PACKET, MOST_PACKET};
use super::table::{self, Command};

/// A reply yet to be framed; its version byte is the table's.
#[derive(Debug, PartialEq, Eq)]
pub struct Reply {
    pub command: Command,
    pub data: Vec<u8>,
}

impl Reply {
    /// "channel, state": the replies to FD and FE.
    pub fn state(command: Command, channel: u8, state: u8) -> Self {
        Reply { command, data: vec![channel, state] }
    }
}

/// A reply, or none (F9 noted, an end check begun), or outcome 2, 3, 4, 10 or 12 with nothing
/// changed.
type Answer = Result<Option<Reply>, Outcome>;

/// "First version byte, L and channel are checked (outcomes 2, 3, 4 below, in that order)." K5:
/// "While a check runs, FA to FE get a new outcome 12 after 4".
pub fn answer(record: &mut Record, area: &mut [u8], frame: Frame) -> Answer {
    let row = table::find(frame.command).ok_or(Outcome::UnknownCommand)?;
    if frame.version != row.request_version || !row.request_length.allows(frame.data.len()) {
        return Err(Outcome::WrongShape);
    }
    let answer: fn(Turn) -> Answer = match row.command {
        // "noted, no reply, nothing changes"
        Command::F9 => return Ok(None),
        Command::FA => |turn| turn.ask(),
        Command::FB => |turn| turn.tell(),
        Command::FC => |turn| turn.place(),
        Command::FD => |turn| turn.packet(),
        Command::FE => |turn| turn.end(),
    };
    let board = *record.board(frame.data[0]).ok_or(Outcome::UnlistedChannel)?;
    if record.check.running {
        return Err(Outcome::CheckRuns);
    }
    answer(Turn { record, area, board, data: frame.data })
}

/// A frame of FA to FE that met none of 2, 3, 4 and 12, with the board of its channel.
struct Turn<'a> {
    record: &'a mut Record,
    area: &'a mut [u8],
    board: Board,
    data: &'a [u8],
}

impl Turn<'_> {
    /// **FA**, any phase: channel, Len1(2).
    fn ask(self) -> Answer {
        let len1 = u16::from_be_bytes(self.part(1));
        let refused = !self.board.permit || len1 < LEAST_PACKET;
        if !refused {
            self.record.phase = Phase::Asked;
            self.record.channel = self.board.channel;
            self.record.agreed = u64::from(len1.min(MOST_PACKET));
        }
        // "Either reply carries the board's soft version and Len2 = 512."
        let mut data = vec![self.board.channel, u8::from(refused)];
        data.extend(self.board.soft);
        data.extend(MOST_PACKET.to_be_bytes());
        Ok(Some(Reply { command: Command::FA, data }))
    }

    /// **FB**, "any phase but idle, on the session's channel; else outcome 10": channel, PID(8),
    /// version(3), MD5(16), length(4), CRC-32(4).
    fn tell(self) -> Answer {
        if self.record.phase == Phase::Idle || !self.on_session_channel() {
            return Err(Outcome::OutOfTurn);
        }
        let identity = Identity {
            channel: self.board.channel,
            version: self.part(9),
            md5: self.part(12),
            announced: u64::from(u32::from_be_bytes(self.part(28))),
            crc: u32::from_be_bytes(self.part(32)),
        };
        let state = self.judge_offer(&identity);
        let (mut stored, mut crc) = (0, 0);
        if state == 0 {
            self.record.phase = Phase::Told;
            if identity != self.record.identity {
                self.record.identity = identity;
                self.record.forget_stored();
            }
            // Lawful: stored is at most announced, and that at most the area's length.
            stored = self.record.stored;
            crc = crc32(&self.area[..stored as usize]);
        } else {
            // "These set phase idle, change nothing else, and reply with stored and CRC zero."
            self.record.phase = Phase::Idle;
        }
        let mut data = vec![self.board.channel, state];
        data.extend((stored as u32).to_be_bytes());
        data.extend(crc.to_be_bytes());
        // "MD5 field, 16 zero bytes"
        data.extend([0; 16]);
        Ok(Some(Reply { command: Command::FB, data }))
    }

    /// FB's state. "In order: PID differs, 01; version not above the board's soft one, 02; length 0
    /// or above the area's, 03."
    fn judge_offer(&self, identity: &Identity) -> u8 {
        if self.part(1) != self.board.pid {
            1
        } else if identity.version <= self.board.soft {
            // "Versions compare part by part, first part first."
            2
        } else if identity.announced == 0 || identity.announced > self.record.opened {
            3
        } else {
            0
        }
    }

    /// **FC**, "phase told or receiving, session's channel; else outcome 10": channel, offset(4).
    fn place(self) -> Answer {
        let in_turn = matches!(self.record.phase, Phase::Told | Phase::Receiving);
        if !in_turn || !self.on_session_channel() {
            return Err(Outcome::OutOfTurn);
        }
        let mut offset = u32::from_be_bytes(self.part(1));
        if u64::from(offset) != self.record.stored {
            // "Otherwise stored becomes 0 and the reply is 0."
            self.record.forget_stored();
            offset = 0;
        }
        self.record.phase = Phase::Receiving;
        self.record.next = 0;
        // K2: "the last packet's length, 0 after FC"
        self.record.last = 0;
        let mut data = vec![self.board.channel];
        data.extend(offset.to_be_bytes());
        Ok(Some(Reply { command: Command::FC, data }))
    }

    /// **FD**: channel, number(2), n(2), CRC-16(2), n bytes.
    fn packet(self) -> Answer {
        let channel = self.board.channel;
        Ok(Some(Reply::state(Command::FD, channel, self.store())))
    }

    /// Stores FD's packet if all is right with it; gives the reply's state.
    fn store(self) -> u8 {
        let number = u64::from(u16::from_be_bytes(self.part(1)));
        let n = u64::from(u16::from_be_bytes(self.part(3)));
        let bytes = &self.data[7..];
        let crc_is_right = u16::from_be_bytes(self.part(5)) == crc16(bytes);
        let record = &*self.record;

        if record.phase != Phase::Receiving || !self.on_session_channel() {
            return 4;
        }
        // K2: "This test stands in FD between 04 and 01."
        if self.is_repeated(number, n, bytes) {
            // "is answered 00 and changes nothing. Its CRC-16 must be right, else 03."
            return if crc_is_right { 0 } else { 3 };
        }
        if number != record.next {
            return 1;
        }
        let fits = n == bytes.len() as u64
            && n != 0
            && n <= record.agreed
            && record.stored + n <= record.identity.announced;
        if !fits {
            return 2;
        }
        if !crc_is_right {
            return 3;
        }
        // "written from place stored on, into that part of the area only"
        let stored = record.stored as usize;
        self.area[stored..stored + bytes.len()].copy_from_slice(bytes);
        self.record.stored += n;
        self.record.next += 1;
        self.record.last = n;
        0
    }

    /// K2: "A packet whose number is one below the next, whose length (n and L - 7 alike) is that
    /// of the packet accepted last in this leg and whose bytes equal the area's last stored bytes".
    /// "while it is 0 the test never holds."
    fn is_repeated(&self, number: u64, n: u64, bytes: &[u8]) -> bool {
        let Record { last, next, stored, .. } = *self.record;
        // Lawful: last is at most stored, and that at most the area's length.
        let last_stored = &self.area[(stored - last) as usize..stored as usize];
        last != 0 && number + 1 == next && n == last && bytes == last_stored
    }

    /// **FE**: channel. A reply, or none where it "gets as far as the CRC" and "starts a check"
    /// (K5).
    fn end(self) -> Answer {
        let channel = self.board.channel;
        let open = matches!(self.record.phase, Phase::Receiving | Phase::Done);
        if !open || !self.on_session_channel() {
            return Ok(Some(Reply::state(Command::FE, channel, 3)));
        }
        if self.record.stored != self.record.identity.announced {
            return Ok(Some(Reply::state(Command::FE, channel, 1)));
        }
        self.record.check = Check { running: true, read: 0, register: CRC32_START };
        Ok(None)
    }

    fn on_session_channel(&self) -> bool {
        self.board.channel == self.record.channel
    }

    /// The `N` data bytes from place `at` on.
    fn part<const N: usize>(&self, at: usize) -> [u8; N] {
        let mut bytes = [0; N];
        bytes.copy_from_slice(&self.data[at..at + N]);
        bytes
    }
}
