//! The sender's record (the table in SENDER.md), held raw, and its rules for outcome 9.

use super::record::{Md5, Pid, Version, LEAST_PACKET, LONGEST_AREA, MOST_PACKET};

/// SENDER.md: "silences told since the request last changed, 0 to 3"; "new legs .., 0 to 3".
pub const MOST_TRIES: u64 = 3;

/// The request that the sender stands at.
#[derive(Clone, Copy, Debug, Default, PartialEq, Eq)]
pub enum Stage {
    #[default]
    Asking,
    Telling,
    Placing,
    Sending,
    Ending,
    Done,
    GivenUp,
}

/// The default is the all-zero record: "(phase asking) meets 9".
#[derive(Clone, Debug, Default, PartialEq, Eq)]
pub struct Sender {
    pub channel: u8,
    pub pid: Pid,
    pub version: Version,
    pub md5: Md5,
    /// "the packet size, FA's Len1; two bytes"
    pub size: u16,
    /// "the image's length at opening"
    pub length: u64,
    pub stage: Stage,
    pub place: u64,
    pub number: u64,
    pub silences: u64,
    /// "new legs begun since opening"
    pub legs: u64,
}

/// Opening's rule for the size: not one that FA refuses.
pub fn size_is_lawful(size: u16) -> bool {
    size >= LEAST_PACKET
}

/// Opening's rule for the image: not "empty or above 1,048,576".
pub fn image_is_lawful(length: u64) -> bool {
    (1..=LONGEST_AREA).contains(&length)
}

impl Sender {
    /// "A **packet** has the smaller of size and 512 bytes".
    pub fn packet(&self) -> u64 {
        u64::from(self.size.min(MOST_PACKET))
    }

    /// In sending: "n the smaller of the packet and length - place".
    pub fn packet_here(&self) -> u64 {
        self.packet().min(self.length - self.place)
    }

    /// "Outcome 9 is given exactly when: .."; "Place and number are not looked at in other phases."
    pub fn is_lawful(&self) -> bool {
        size_is_lawful(self.size)
            && image_is_lawful(self.length)
            && self.silences <= MOST_TRIES
            && self.legs <= MOST_TRIES
            && match self.stage {
                Stage::Placing => self.place <= self.length,
                Stage::Sending => self.place < self.length && self.number_is_lawful(),
                _ => true,
            }
    }

    /// Not "number times the packet is above place"; no product of two 64-bit numbers is cut off
    /// here.
    fn number_is_lawful(&self) -> bool {
        u128::from(self.number) * u128::from(self.packet()) <= u128::from(self.place)
    }
}
