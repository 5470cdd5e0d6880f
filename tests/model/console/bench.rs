//! What the console holds, and each call made on it, told as the rest of an answer's line.

use std::mem;

use super::controller::{self, Fed};
use super::offer::Sender;
use super::outcome::Outcome;
use super::record::{Board, Record, MOST_BOARDS};
use super::sender::{self, Decision, Offer};
use super::tell;

/// The room and the area have "65,536 bytes".
pub const LENT_SIZE: usize = 65_536;
/// The image has "1,048,577 bytes".
pub const IMAGE_SIZE: usize = 1_048_577;

/// "A memory is lent from its first byte on. Shortening what is lent leaves the bytes behind it as
/// they are."
pub struct Memory {
    pub bytes: Vec<u8>,
    lent: usize,
}

impl Memory {
    fn new(size: usize, lent: usize) -> Self {
        Memory { bytes: vec![0; size], lent }
    }

    pub fn lend(&mut self, lent: usize) {
        self.lent = lent;
    }

    /// Puts the bytes into the memory, lent or not, from place `at` on.
    pub fn write(&mut self, at: usize, bytes: &[u8]) {
        self.bytes[at..at + bytes.len()].copy_from_slice(bytes);
    }

    pub fn lent(&self) -> &[u8] {
        &self.bytes[..self.lent]
    }

    fn lent_mut(&mut self) -> &mut [u8] {
        &mut self.bytes[..self.lent]
    }
}

pub struct Bench {
    /// "ten boards, to be passed to `open`"
    pub list: [Board; MOST_BOARDS],
    pub record: Record,
    pub sender: Sender,
    pub room: Memory,
    pub area: Memory,
    pub image: Memory,
}

impl Bench {
    pub fn new() -> Self {
        Bench {
            list: [Board::default(); MOST_BOARDS],
            record: Record::default(),
            sender: Sender::default(),
            room: Memory::new(LENT_SIZE, LENT_SIZE),
            area: Memory::new(LENT_SIZE, LENT_SIZE),
            image: Memory::new(IMAGE_SIZE, 0),
        }
    }

    /// "What it hands back is the record from then on, the all-zero one where it is refused".
    pub fn open(&mut self, count: u64, length: u64) -> String {
        let (outcome, record) = controller::open(&self.list, count, length);
        let before = mem::replace(&mut self.record, record);
        format!("open {} {}", outcome.number(), tell::record_changes(&before, &self.record))
    }

    pub fn feed(&mut self, bytes: &[u8]) -> String {
        self.fed("feed", |record, area, room| controller::feed(record, area, room, bytes))
    }

    pub fn quiet(&mut self) -> String {
        self.fed("quiet", controller::quiet)
    }

    /// Makes a feeding or quiet call and tells it.
    fn fed(
        &mut self,
        name: &str,
        call: impl FnOnce(&mut Record, &mut [u8], &mut [u8]) -> Fed,
    ) -> String {
        let record = self.record.clone();
        let area = self.area.lent().to_vec();
        let room = self.room.lent().to_vec();
        let fed = call(&mut self.record, self.area.lent_mut(), self.room.lent_mut());
        let Fed { outcome, taken, dropped, command, length, reply } = fed;
        format!(
            "{name} {} taken={taken} dropped={dropped} command={command:02X} length={length} {} \
             area={} {}",
            outcome.number(),
            self.tell_room("reply", reply, &room),
            tell::span(&area, self.area.lent(), 0),
            tell::record_changes(&record, &self.record),
        )
    }

    pub fn portion(&mut self, most: u64) -> String {
        let record = self.record.clone();
        let room = self.room.lent().to_vec();
        let portioned =
            controller::portion(&mut self.record, self.area.lent(), self.room.lent_mut(), most);
        format!(
            "portion {} count={} verdict={} {} {}",
            portioned.outcome.number(),
            portioned.count,
            tell::verdict(portioned.verdict),
            self.tell_room("reply", portioned.reply, &room),
            tell::record_changes(&record, &self.record),
        )
    }

    pub fn report(&mut self) -> String {
        let room = self.room.lent().to_vec();
        let (outcome, length) = controller::report(&self.record, self.room.lent_mut());
        format!("report {} {}", outcome.number(), self.tell_room("frame", length, &room))
    }

    pub fn show(&self) -> String {
        format!("show {}", tell::record_changes(&Record::default(), &self.record))
    }

    pub fn set(&mut self, set: impl FnOnce(&mut Record)) -> String {
        let before = self.record.clone();
        set(&mut self.record);
        format!("set {}", tell::record_changes(&before, &self.record))
    }

    pub fn sender_open(&mut self, size: u16, offer: Offer) -> String {
        let (outcome, sender) = sender::open(offer, size, self.image.lent());
        let before = mem::replace(&mut self.sender, sender);
        format!("sender open {} {}", outcome.number(), tell::sender_changes(&before, &self.sender))
    }

    pub fn sender_request(&mut self) -> String {
        let room = self.room.lent().to_vec();
        let (outcome, length) =
            sender::request(&self.sender, self.image.lent(), self.room.lent_mut());
        format!("sender request {} {}", outcome.number(), self.tell_room("frame", length, &room))
    }

    pub fn sender_reply(&mut self, bytes: &[u8]) -> String {
        self.decided("reply", |sender, image| sender::reply(sender, image, bytes))
    }

    pub fn sender_silence(&mut self) -> String {
        self.decided("silence", sender::silence)
    }

    /// Makes a call of the sender's that decides, and tells it.
    fn decided(
        &mut self,
        name: &str,
        call: impl FnOnce(&mut Sender, &[u8]) -> (Outcome, Decision),
    ) -> String {
        let before = self.sender.clone();
        let (outcome, decision) = call(&mut self.sender, self.image.lent());
        format!(
            "sender {name} {} decision={} {}",
            outcome.number(),
            tell::decision(decision),
            tell::sender_changes(&before, &self.sender),
        )
    }

    pub fn sender_show(&self) -> String {
        format!("sender show {}", tell::sender_changes(&Sender::default(), &self.sender))
    }

    pub fn sender_set(&mut self, set: impl FnOnce(&mut Sender)) -> String {
        let before = self.sender.clone();
        set(&mut self.sender);
        format!("sender set {}", tell::sender_changes(&before, &self.sender))
    }

    /// What the call says that it wrote to the front of the room, and what changed behind that.
    fn tell_room(&self, name: &str, length: usize, before: &[u8]) -> String {
        let now = self.room.lent();
        format!("{name}={} past={}", tell::bytes(&now[..length]), tell::span(before, now, length))
    }
}
