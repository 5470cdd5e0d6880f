//! Live reading: which bytes a call takes, which it drops, and which frame it ends at.

use super::frame::{front, Frame, Front};

/// What one call read.
#[derive(Debug, PartialEq, Eq)]
pub struct Reading<'a> {
    /// The first whole frame, at which the call ended.
    pub frame: Option<Frame<'a>>,
    /// "how many new bytes it took"
    pub taken: usize,
    /// "how many bytes it dropped"
    pub dropped: usize,
    /// What is held from now on. A new byte is taken only behind an unfinished front, and 526 bytes
    /// at the front are never unfinished, so that these are at most 526.
    pub left: &'a [u8],
}

/// The feeding call's reading. `bytes` are the held ones, then the new ones; the first `held` are
/// held. Nothing is moved while it reads (K4): what is held at a time is `bytes[begin..end]`.
///
/// "a whole frame is taken; a front that can no longer become a frame loses one byte; otherwise,
/// and only then, the next new byte is taken. The call ends at its first whole frame, or when it
/// needs a new byte and none is left."
pub fn feed(bytes: &[u8], held: usize) -> Reading<'_> {
    let mut begin = 0;
    let mut end = held;
    let frame = loop {
        match front(&bytes[begin..end]) {
            Front::Whole(frame) => break Some(frame),
            Front::Never => begin += 1,
            Front::Unfinished if end < bytes.len() => end += 1,
            Front::Unfinished => break None,
        }
    };
    Reading {
        frame,
        taken: end - held,
        dropped: begin,
        left: &bytes[begin + frame.map_or(0, |frame| frame.size())..end],
    }
}

/// The quiet call's reading: it "takes no new bytes and treats an unfinished front as no frame; it
/// ends at its first frame or when nothing is held."
pub fn quiet(held: &[u8]) -> Reading<'_> {
    let mut begin = 0;
    while begin < held.len() {
        match front(&held[begin..]) {
            Front::Whole(frame) => {
                let left = &held[begin + frame.size()..];
                return Reading { frame: Some(frame), taken: 0, dropped: begin, left };
            }
            Front::Never | Front::Unfinished => begin += 1,
        }
    }
    Reading { frame: None, taken: 0, dropped: begin, left: &[] }
}
