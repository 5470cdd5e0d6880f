//! A record for one board, with its room and area: what the static library `lend` gives (bench/run).

pub const AREA: usize = 65_536;
const ROOM: usize = 33;

#[link(name = "lend", kind = "static")]
extern "C" {
    fn feed_record(bytes: *const u8, count: usize, cut: usize, room: *mut u8, size: usize, area: *mut u8, length: usize) -> usize;
    fn check_record(
        bytes: *const u8,
        count: usize,
        most: usize,
        calls: usize,
        room: *mut u8,
        size: usize,
        area: *mut u8,
        length: usize,
    ) -> usize;
}

/// What calls write to; each feeding opens a record anew.
pub struct Memory {
    pub room: [u8; ROOM],
    pub area: Vec<u8>,
}

impl Memory {
    pub fn new() -> Self {
        Memory { room: [0; ROOM], area: vec![0; AREA] }
    }

    /// Feeds all of the bytes, at most `cut` of them offered to a call; gives the number of frames.
    pub fn feed(&mut self, bytes: &[u8], cut: usize) -> usize {
        let (room, area) = (&mut self.room, &mut self.area);
        unsafe { feed_record(bytes.as_ptr(), bytes.len(), cut, room.as_mut_ptr(), ROOM, area.as_mut_ptr(), AREA) }
    }

    /// Feeds a transfer with its FE and makes so many portion calls; gives how many found the image right.
    pub fn check(&mut self, transfer: &[u8], most: usize, calls: usize) -> usize {
        let (room, area) = (&mut self.room, &mut self.area);
        let (bytes, count) = (transfer.as_ptr(), transfer.len());
        unsafe { check_record(bytes, count, most, calls, room.as_mut_ptr(), ROOM, area.as_mut_ptr(), AREA) }
    }
}
