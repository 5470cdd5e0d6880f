//! The controller's record, held raw, and the rules by which outcomes 7, 8 and 9 judge it.

use super::frame::MOST_FRAME;

/// "Opening takes 1 to 10 boards".
pub const MOST_BOARDS: usize = 10;
/// "The record carries up to 526 held bytes inside itself".
pub const MOST_HELD: usize = MOST_FRAME;
/// "the area's length, 1 to 1,048,576"; the sender's image is as long at most.
pub const LONGEST_AREA: u64 = 1_048_576;
/// FA: "Flag 1 if .. Len1 is below 16".
pub const LEAST_PACKET: u16 = 16;
/// FA: "the smaller of Len1 and 512", and "Len2 = 512".
pub const MOST_PACKET: u16 = 512;
/// "After number 65,535 no packet is next."
const PAST_LAST_NUMBER: u64 = 65_536;

pub type Version = [u8; 3];
pub type Pid = [u8; 8];
pub type Md5 = [u8; 16];

/// A board of the list: "channel 10 to 19, none twice; soft and hard version; PID; permit yes or
/// no".
#[derive(Clone, Copy, Debug, Default, PartialEq, Eq)]
pub struct Board {
    pub permit: bool,
    pub channel: u8,
    pub soft: Version,
    pub hard: Version,
    pub pid: Pid,
}

#[derive(Clone, Copy, Debug, Default, PartialEq, Eq)]
pub enum Phase {
    #[default]
    Idle,
    Asked,
    Told,
    Receiving,
    Done,
}

/// "the image's identity: channel, version, announced length, MD5, CRC-32"
#[derive(Clone, Copy, Debug, Default, PartialEq, Eq)]
pub struct Identity {
    pub channel: u8,
    pub version: Version,
    pub announced: u64,
    pub md5: Md5,
    pub crc: u32,
}

/// K5: "the check's own fields".
#[derive(Clone, Copy, Debug, Default, PartialEq, Eq)]
pub struct Check {
    pub running: bool,
    pub read: u64,
    /// The CRC-32's register, before the final xor.
    pub register: u32,
}

#[derive(Clone, Debug, PartialEq, Eq)]
pub struct Record {
    /// How many boards the list has.
    pub boards: u64,
    pub list: [Board; MOST_BOARDS],
    pub opened: u64,
    /// How many bytes are held.
    pub holding: u64,
    pub held: [u8; MOST_HELD],
    pub phase: Phase,
    pub channel: u8,
    pub agreed: u64,
    pub next: u64,
    pub stored: u64,
    pub identity: Identity,
    /// K2: "The record gains the last packet's length".
    pub last: u64,
    pub check: Check,
}

impl Default for Record {
    /// "An unusable record is all zero".
    fn default() -> Self {
        Record {
            boards: 0,
            list: [Board::default(); MOST_BOARDS],
            opened: 0,
            holding: 0,
            held: [0; MOST_HELD],
            phase: Phase::Idle,
            channel: 0,
            agreed: 0,
            next: 0,
            stored: 0,
            identity: Identity::default(),
            last: 0,
            check: Check::default(),
        }
    }
}

/// The list's first `count` boards, if the list has so many.
fn first_boards(list: &[Board; MOST_BOARDS], count: u64) -> Option<&[Board]> {
    list.get(..usize::try_from(count).ok()?)
}

/// Opening's rules for the list: "1 to 10 boards (channel 10 to 19, none twice ..)".
pub fn list_is_lawful(list: &[Board; MOST_BOARDS], count: u64) -> bool {
    let Some(boards) = first_boards(list, count) else {
        return false;
    };
    let in_range = boards.iter().all(|board| (10..=19).contains(&board.channel));
    let none_twice = boards.iter().enumerate().all(|(place, board)| {
        boards[..place].iter().all(|earlier| earlier.channel != board.channel)
    });
    !boards.is_empty() && in_range && none_twice
}

/// Opening's rule for the area's length: "1 to 1,048,576".
pub fn length_is_lawful(length: u64) -> bool {
    (1..=LONGEST_AREA).contains(&length)
}

impl Record {
    /// "A fresh record has its list and opened length, is idle and otherwise zero, unused board
    /// places too."
    pub fn fresh(list: &[Board; MOST_BOARDS], count: u64, length: u64) -> Self {
        let mut record = Record { boards: count, opened: length, ..Record::default() };
        let given = first_boards(list, count).unwrap_or(&[]);
        record.list[..given.len()].copy_from_slice(given);
        record
    }

    /// The boards in use; none where the list breaks its rules by its number.
    pub fn boards(&self) -> &[Board] {
        first_boards(&self.list, self.boards).unwrap_or(&[])
    }

    pub fn board(&self, channel: u8) -> Option<&Board> {
        self.boards().iter().find(|board| board.channel == channel)
    }

    /// Keeps these bytes as the held ones and "leaves zeros past the held bytes".
    pub fn hold(&mut self, bytes: &[u8]) {
        self.held = [0; MOST_HELD];
        self.held[..bytes.len()].copy_from_slice(bytes);
        self.holding = bytes.len() as u64;
    }

    /// Stored becomes 0, and with it K2's length: "0 after FC and whenever stored becomes 0".
    pub fn forget_stored(&mut self) {
        self.stored = 0;
        self.last = 0;
    }

    /// "A record that outcome 9 does not refuse is lawful."
    pub fn is_lawful(&self) -> bool {
        !self.breaks_base_rules() && !self.breaks_last_rule() && !self.breaks_check_rules()
    }

    /// Document 01: "Outcome 9 is given exactly when: ..", clause by clause.
    fn breaks_base_rules(&self) -> bool {
        let announced = self.identity.announced;
        self.holding > MOST_HELD as u64
            || !list_is_lawful(&self.list, self.boards)
            || !length_is_lawful(self.opened)
            || self.stored > announced
            || announced > self.opened
            || self.next > PAST_LAST_NUMBER
            || self.phase != Phase::Idle && !self.session_is_agreed()
            || matches!(self.phase, Phase::Told | Phase::Receiving | Phase::Done) && announced == 0
    }

    /// The session's channel is listed and the agreed size is 16 to 512.
    fn session_is_agreed(&self) -> bool {
        let sizes = u64::from(LEAST_PACKET)..=u64::from(MOST_PACKET);
        self.board(self.channel).is_some() && sizes.contains(&self.agreed)
    }

    /// K2: "Outcome 9 is also given if it is above 512 or above stored."
    fn breaks_last_rule(&self) -> bool {
        self.last > u64::from(MOST_PACKET) || self.last > self.stored
    }

    /// K5: "Outcome 9 is also given if a running check has read the announced length or more, or
    /// runs though stored is not announced or the phase is not receiving or done."
    fn breaks_check_rules(&self) -> bool {
        let announced = self.identity.announced;
        self.check.running
            && (self.check.read >= announced
                || self.stored != announced
                || !matches!(self.phase, Phase::Receiving | Phase::Done))
    }
}
