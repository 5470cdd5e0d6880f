//! The end check in slices: its own fields and how it reads on (document 02,
//! K5).

use crate::crc::{crc32_over, CRC32_START};

/// The check's own fields; "zeroes the check's own fields" makes all three zero.
/// While no check runs the other two mean nothing.
#[derive(Clone, Copy, Debug, Default, PartialEq, Eq)]
pub struct EndCheck {
    pub running: bool,
    /// How many bytes of the image it has read.
    pub read: u64,
    /// The CRC-32's register after them.
    pub register: u32,
}

/// What a portion call says of the image.
#[derive(Clone, Copy, Debug, Default, PartialEq, Eq)]
pub enum Verdict {
    #[default]
    Unfinished,
    Right,
    Wrong,
}

/// What a portion call gives; "count 0, unfinished" and no reply if it is refused.
#[derive(Clone, Copy, Debug, Default, PartialEq, Eq)]
pub struct Portion {
    /// "how many image bytes it read in this call"
    pub count: usize,
    pub verdict: Verdict,
    /// The reply's length.
    pub reply: usize,
}

impl EndCheck {
    /// A check that has read nothing yet.
    pub const STARTED: EndCheck = EndCheck { running: true, read: 0, register: CRC32_START };

    /// Reads on in the image: "the smaller of the largest number and what is left
    /// unread", which it gives.
    pub fn read_on(&mut self, most: usize, image: &[u8]) -> usize {
        let unread = &image[self.read as usize..];
        let count = most.min(unread.len());
        self.register = crc32_over(self.register, &unread[..count]);
        self.read += count as u64;
        count
    }

    /// The CRC-32 of the bytes read.
    pub fn crc32(&self) -> u32 {
        !self.register
    }
}
