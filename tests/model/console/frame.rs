//! The frame: "55, AA, version, command, data length L in two bytes, L data bytes, one sum byte."

const HEAD: [u8; 2] = [0x55, 0xAA];
/// The bytes before the data.
const BEFORE_DATA: usize = 6;
/// "A frame has 7 + L bytes."
pub const AROUND_DATA: usize = 7;
/// "L is 0 to 519; 55 AA followed by a larger L is no frame."
pub const MOST_DATA: usize = 519;
/// The longest frame.
pub const MOST_FRAME: usize = AROUND_DATA + MOST_DATA;

#[derive(Clone, Copy, Debug, PartialEq, Eq)]
pub struct Frame<'a> {
    pub version: u8,
    pub command: u8,
    /// The L data bytes, "that part of the caller's bytes, not a copy".
    pub data: &'a [u8],
}

impl Frame<'_> {
    /// How many bytes the whole frame has.
    pub fn size(&self) -> usize {
        AROUND_DATA + self.data.len()
    }
}

/// What stands at the front of a byte sequence.
#[derive(Debug, PartialEq, Eq)]
pub enum Front<'a> {
    /// "a whole frame begins there"
    Whole(Frame<'a>),
    /// It may still become a frame: more bytes are needed.
    Unfinished,
    /// "a front that can no longer become a frame"
    Never,
}

/// "The sum is all bytes before it, added modulo 256."
fn sum(bytes: &[u8]) -> u8 {
    bytes.iter().fold(0, |sum, &byte| sum.wrapping_add(byte))
}

/// Looks at the front of `bytes`, saying `Never` as early as the bytes allow it.
pub fn front(bytes: &[u8]) -> Front<'_> {
    if bytes.iter().zip(HEAD).any(|(&byte, head)| byte != head) {
        return Front::Never;
    }
    // "All numbers are high byte first." With the high byte alone, L is at least 256 times it.
    let high = bytes.get(4).copied().unwrap_or(0);
    let low = bytes.get(5).copied().unwrap_or(0);
    let length = usize::from(u16::from_be_bytes([high, low]));
    if length > MOST_DATA {
        return Front::Never;
    }
    if bytes.len() < AROUND_DATA + length {
        return Front::Unfinished;
    }
    let sum_at = BEFORE_DATA + length;
    if bytes[sum_at] != sum(&bytes[..sum_at]) {
        return Front::Never;
    }
    Front::Whole(Frame { version: bytes[2], command: bytes[3], data: &bytes[BEFORE_DATA..sum_at] })
}

/// The frame that `bytes` are, if they are "exactly one whole frame".
pub fn exactly_one(bytes: &[u8]) -> Option<Frame<'_>> {
    match front(bytes) {
        Front::Whole(frame) if frame.size() == bytes.len() => Some(frame),
        _ => None,
    }
}

/// "The writer gives 7 + L; for data over 519 bytes or room below 7 + L it gives 0 and writes
/// nothing. Bytes past the frame stay."
pub fn write(room: &mut [u8], frame: Frame) -> usize {
    let size = frame.size();
    if size > MOST_FRAME || size > room.len() {
        return 0;
    }
    let sum_at = size - 1;
    let length = (frame.data.len() as u16).to_be_bytes();
    room[..2].copy_from_slice(&HEAD);
    room[2] = frame.version;
    room[3] = frame.command;
    room[4..BEFORE_DATA].copy_from_slice(&length);
    room[BEFORE_DATA..sum_at].copy_from_slice(frame.data);
    room[sum_at] = sum(&room[..sum_at]);
    size
}
