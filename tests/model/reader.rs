//! Live reading: bytes come in pieces, frames come out one per call.
//!
//! 01, "Live reading": "A call looks at the front of what is held: a whole
//! frame is taken; a front that can no longer become a frame loses one byte;
//! otherwise, and only then, the next new byte is taken. The call ends at its
//! first whole frame, or when it needs a new byte and none is left."

use crate::frame::{judge, Frame, Front, MAX_FRAME};

/// Up to 526 bytes that are not decided yet: `bytes[start..start + len]`.
#[derive(Clone, PartialEq, Eq)]
pub struct Reader {
    bytes: [u8; MAX_FRAME],
    start: usize,
    len: usize,
}

/// What one call did.
#[derive(Debug, PartialEq, Eq)]
pub struct Step<'a> {
    /// New bytes taken.
    pub taken: usize,
    /// Bytes dropped, held at entry or new.
    pub dropped: usize,
    /// The frame the call ended at, if it did.
    pub frame: Option<Frame<'a>>,
}

impl Default for Reader {
    fn default() -> Self {
        Reader { bytes: [0; MAX_FRAME], start: 0, len: 0 }
    }
}

impl Reader {
    /// A reader that holds these bytes, at most 526.
    pub fn holding(held: &[u8]) -> Self {
        let mut reader = Reader::default();
        reader.hold(held);
        reader
    }

    /// The held bytes.
    pub fn held(&self) -> &[u8] {
        &self.bytes[self.start..self.start + self.len]
    }

    /// The held bytes as the record shows them: at the front, "zeros past the
    /// held bytes".
    pub fn held_places(&self) -> [u8; MAX_FRAME] {
        let mut places = [0; MAX_FRAME];
        places[..self.len].copy_from_slice(self.held());
        places
    }

    /// Takes bytes of `new` until a frame is whole or none is left.
    pub fn feed<'a>(&'a mut self, new: &'a [u8]) -> Step<'a> {
        let mut taken = 0;
        let mut dropped = 0;
        while self.len > 0 {
            match judge(self.held()) {
                Front::Whole(total) => {
                    return Step { taken, dropped, frame: Some(self.take_frame(total)) };
                }
                Front::Dead => {
                    self.advance(1);
                    dropped += 1;
                }
                Front::Needs(wanted) => {
                    let rest = &new[taken..];
                    let count = rest.len().min(wanted - self.len);
                    if count == 0 {
                        return Step { taken, dropped, frame: None };
                    }
                    self.hold(&rest[..count]);
                    taken += count;
                }
            }
        }
        let step = self.feed_in_place(&new[taken..]);
        Step { taken: taken + step.taken, dropped: dropped + step.dropped, ..step }
    }

    /// `feed` with nothing held: frames are read where they stand in `new`,
    /// and only what is left undecided is copied.
    fn feed_in_place<'a>(&mut self, new: &'a [u8]) -> Step<'a> {
        let mut front = 0; // every byte before it is dropped
        let mut taken = 0; // new[front..taken] is what a byte-wise reader holds
        loop {
            if front == taken {
                front += run_without_start(&new[front..]);
                taken = front;
            }
            match judge(&new[front..taken]) {
                Front::Whole(total) => {
                    let end = front + total;
                    self.hold(&new[end..taken]);
                    let frame = Some(Frame::from_whole(&new[front..end]));
                    return Step { taken, dropped: front, frame };
                }
                Front::Dead => front += 1,
                Front::Needs(wanted) if front + wanted <= new.len() => taken = front + wanted,
                Front::Needs(_) => {
                    self.hold(&new[front..]);
                    return Step { taken: new.len(), dropped: front, frame: None };
                }
            }
        }
    }

    /// "A quiet call takes no new bytes and treats an unfinished front as no
    /// frame; it ends at its first frame or when nothing is held."
    pub fn quiet(&mut self) -> Step<'_> {
        let mut dropped = 0;
        while self.len > 0 {
            if let Front::Whole(total) = judge(self.held()) {
                return Step { taken: 0, dropped, frame: Some(self.take_frame(total)) };
            }
            self.advance(1);
            dropped += 1;
        }
        Step { taken: 0, dropped, frame: None }
    }

    /// Uses up the frame of `total` bytes at the front of what is held.
    fn take_frame(&mut self, total: usize) -> Frame<'_> {
        let start = self.start;
        self.advance(total);
        Frame::from_whole(&self.bytes[start..start + total])
    }

    fn advance(&mut self, count: usize) {
        self.start += count;
        self.len -= count;
    }

    /// Holds `more` behind what is held; an undecided front and what it needs
    /// never exceed the longest frame.
    fn hold(&mut self, more: &[u8]) {
        if self.start + self.len + more.len() > MAX_FRAME || self.len == 0 {
            self.bytes.copy_within(self.start..self.start + self.len, 0);
            self.start = 0;
        }
        let end = self.start + self.len;
        self.bytes[end..end + more.len()].copy_from_slice(more);
        self.len += more.len();
    }
}

/// How many bytes stand before the first 55, none of which can begin a frame.
fn run_without_start(bytes: &[u8]) -> usize {
    bytes.iter().position(|&byte| byte == 0x55).unwrap_or(bytes.len())
}
