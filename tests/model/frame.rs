//! Frames: what one looks like, reading one from a buffer, writing one.
//!
//! 01, "The frame": "Bytes: 55, AA, version, command, data length L in two
//! bytes, L data bytes, one sum byte. [...] A frame has 7 + L bytes. L is 0 to
//! 519; 55 AA followed by a larger L is no frame."

/// "L is 0 to 519".
pub const MAX_DATA: usize = 519;
/// Every byte of a frame but its data.
pub const OVERHEAD: usize = 7;
/// The longest frame, and so the most that ever has to be held.
pub const MAX_FRAME: usize = OVERHEAD + MAX_DATA;

const START: [u8; 2] = [0x55, 0xAA];
const HEADER_LEN: usize = 6;

/// A frame read; its data is a part of the bytes it was read from, not a copy.
#[derive(Clone, Copy, Debug, PartialEq, Eq)]
pub struct Frame<'a> {
    pub version: u8,
    pub command: u8,
    pub data: &'a [u8],
}

impl<'a> Frame<'a> {
    /// The frame that `whole`, exactly its bytes, spells.
    pub(crate) fn from_whole(whole: &'a [u8]) -> Self {
        Frame { version: whole[2], command: whole[3], data: &whole[HEADER_LEN..whole.len() - 1] }
    }

    /// How many bytes the frame has: 7 + L.
    pub fn wire_len(&self) -> usize {
        OVERHEAD + self.data.len()
    }
}

/// What can be said of the bytes at the front.
#[derive(Clone, Copy, Debug, PartialEq, Eq)]
pub enum Front {
    /// A whole frame of this many bytes begins here; more may follow it.
    Whole(usize),
    /// No continuation of these bytes begins with a frame.
    Dead,
    /// Undecided until this many bytes, more than there are, are there.
    Needs(usize),
}

/// Judges the front of `bytes` at the earliest byte that decides it.
///
/// A high length byte of 03 or more is hopeless at five bytes already, 02 08
/// and above at six, a wrong sum when all 7 + L bytes are there.
pub fn judge(bytes: &[u8]) -> Front {
    match *bytes {
        [] => Front::Needs(1),
        [first, ..] if first != START[0] => Front::Dead,
        [_] => Front::Needs(2),
        [_, second, ..] if second != START[1] => Front::Dead,
        [_, _] | [_, _, _] | [_, _, _, _] => Front::Needs(5),
        [_, _, _, _, high, ..] if usize::from(high) > MAX_DATA >> 8 => Front::Dead,
        [_, _, _, _, _] => Front::Needs(HEADER_LEN),
        [_, _, _, _, high, low, ..] => judge_length(bytes, u16::from_be_bytes([high, low])),
    }
}

fn judge_length(bytes: &[u8], length: u16) -> Front {
    let length = usize::from(length);
    if length > MAX_DATA {
        return Front::Dead;
    }
    let total = OVERHEAD + length;
    match bytes.get(..total) {
        None => Front::Needs(total),
        Some(whole) if sum(&whole[..total - 1]) == whole[total - 1] => Front::Whole(total),
        Some(_) => Front::Dead,
    }
}

/// "The sum is all bytes before it, added modulo 256".
fn sum(bytes: &[u8]) -> u8 {
    bytes.iter().fold(0, |sum: u8, &byte| sum.wrapping_add(byte))
}

/// The whole frame that begins at the buffer's first byte, if one does; bytes
/// after it do not matter.
pub fn parse(buffer: &[u8]) -> Option<Frame<'_>> {
    match judge(buffer) {
        Front::Whole(total) => Some(Frame::from_whole(&buffer[..total])),
        Front::Dead | Front::Needs(_) => None,
    }
}

/// Writes a frame to the front of `room` and gives its length.
///
/// "The writer gives 7 + L; for data over 519 bytes or room below 7 + L it
/// gives 0 and writes nothing. Bytes past the frame stay."
pub fn write(room: &mut [u8], version: u8, command: u8, data: &[u8]) -> usize {
    let total = OVERHEAD + data.len();
    if data.len() > MAX_DATA || room.len() < total {
        return 0;
    }
    let [high, low] = (data.len() as u16).to_be_bytes();
    let (before_sum, rest) = room.split_at_mut(total - 1);
    let (header, body) = before_sum.split_at_mut(HEADER_LEN);
    header.copy_from_slice(&[START[0], START[1], version, command, high, low]);
    body.copy_from_slice(data);
    rest[0] = sum(before_sum);
    total
}
