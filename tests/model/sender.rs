//! The sender: the module's end (document 02, K3), written from its table alone.
//!
//! "The sender writes the module's requests of 01's table, one at a time, and
//! judges the controller's replies. It holds no bytes of the image: the image is
//! lent to every call. It sees a reply as one whole frame".

use std::fmt;

use crate::crc::crc32;
use crate::frame::{self, Frame, MAX_FRAME};
use crate::receiver::MAX_AREA;
use crate::session::{Command, Md5, Pid, Version, MAX_PACKET, MIN_PACKET};
use crate::wire::{self, Image};

/// "room below 526 bytes, in every phase".
pub const REQUEST_ROOM: usize = MAX_FRAME;
/// "the image empty or above 1,048,576": the longest area.
pub const MAX_IMAGE: usize = MAX_AREA;
/// "silences told since the request last changed, 0 to 3".
pub const MAX_SILENCES: u64 = 3;
/// "new legs begun since opening, 0 to 3".
pub const MAX_NEW_LEGS: u64 = 3;

/// What a call came to.
#[derive(Clone, Copy, Debug, PartialEq, Eq)]
#[repr(u8)]
pub enum Outcome {
    Taken = 0,
    /// "next request: room below 526 bytes"
    SmallRoom = 5,
    /// "the record breaks its rules"
    BadRecord = 9,
    /// "opening: size below 16, or the image empty or above 1,048,576. Calls: the
    /// image's length is not the record's"
    Misfit = 20,
    /// "not exactly one whole frame; or phase done or given up; or a field that
    /// 01 never gives there"
    NotAReply = 21,
}

/// What the caller does next.
#[derive(Clone, Copy, Debug, PartialEq, Eq)]
pub enum Decision {
    /// "nothing: the call was refused; goes on waiting"
    None,
    GoOn,
    SendAgain,
    NewLeg,
    Done,
    GivenUp,
}

impl fmt::Display for Decision {
    fn fmt(&self, out: &mut fmt::Formatter<'_>) -> fmt::Result {
        out.write_str(match self {
            Decision::None => "none",
            Decision::GoOn => "go on",
            Decision::SendAgain => "send again",
            Decision::NewLeg => "new leg",
            Decision::Done => "done",
            Decision::GivenUp => "given up",
        })
    }
}

#[derive(Clone, Copy, Debug, Default, PartialEq, Eq)]
pub enum Phase {
    #[default]
    Asking,
    Telling,
    Placing,
    Sending,
    Ending,
    Done,
    GivenUp,
}

impl Phase {
    /// "In each phase only the reply to its own request is taken": that reply's
    /// version byte and command. Done and given up wait for none.
    fn awaits(self) -> Option<(u8, Command)> {
        match self {
            Phase::Asking => Some((0x00, Command::Request)),
            Phase::Telling => Some((0x10, Command::FileInfo)),
            Phase::Placing => Some((0x00, Command::Offset)),
            Phase::Sending => Some((0x00, Command::Packet)),
            Phase::Ending => Some((0x00, Command::End)),
            Phase::Done | Phase::GivenUp => None,
        }
    }
}

/// What opening takes beside the image: any bytes, and "the packet size (two
/// bytes)", FA's Len1.
#[derive(Clone, Copy, Debug, Default, PartialEq, Eq)]
pub struct Offer {
    pub channel: u8,
    pub pid: Pid,
    pub version: Version,
    pub md5: Md5,
    pub size: u16,
}

/// The record: "in by value and back by value". Its numbers are wide enough for
/// every value, lawful or not: place and number "are not looked at in other
/// phases" than placing and sending, and what stands there then stays.
#[derive(Clone, Copy, Debug, Default, PartialEq, Eq)]
pub struct Sender {
    pub offer: Offer,
    /// "the image's length at opening"
    pub length: u64,
    pub phase: Phase,
    /// "placing: the offset to ask for. Sending: where in the image the packet to
    /// send begins. Else 0"
    pub place: u64,
    /// "sending: that packet's number. Else 0"
    pub number: u64,
    pub silences: u64,
    pub new_legs: u64,
}

/// Where a reply or a fourth silence leads.
enum Step {
    /// Go on, in this phase with this place and number.
    GoOn {
        phase: Phase,
        place: u64,
        number: u64,
    },
    LegOver,
    Done,
    GivenUp,
}

impl Step {
    /// Go on to a phase that needs neither place nor number.
    fn to(phase: Phase) -> Self {
        Step::GoOn { phase, place: 0, number: 0 }
    }
}

impl Sender {
    /// Opening: 20 gives "the all-zero record".
    pub fn open(offer: Offer, image: &[u8]) -> (Outcome, Sender) {
        if offer.size < MIN_PACKET || image.is_empty() || image.len() > MAX_IMAGE {
            return (Outcome::Misfit, Sender::default());
        }
        (Outcome::Taken, Sender { offer, length: image.len() as u64, ..Sender::default() })
    }

    /// Next request: its length; "the record is only read". "The request stands
    /// at the front of the room; room past it stays."
    pub fn next_request(&self, image: &[u8], room: &mut [u8]) -> (Outcome, usize) {
        if let Err(outcome) = self.check_call(image) {
            return (outcome, 0);
        }
        if room.len() < REQUEST_ROOM {
            return (Outcome::SmallRoom, 0);
        }
        let request = self.request(image);
        room[..request.len()].copy_from_slice(&request);
        (Outcome::Taken, request.len())
    }

    /// Reply: 21 leaves everything, "silences stay too".
    pub fn reply(self, image: &[u8], bytes: &[u8]) -> (Outcome, Decision, Sender) {
        if let Err(outcome) = self.check_call(image) {
            return self.refused(outcome);
        }
        match self.judge(image, bytes) {
            Some(step) => self.take(step),
            None => self.refused(Outcome::NotAReply),
        }
    }

    /// Silence: "Phase done or given up: that decision, nothing changed. Silences
    /// below 3: decision send again, silences + 1, nothing else changed. Silences
    /// 3: leg over."
    pub fn silence(self, image: &[u8]) -> (Outcome, Decision, Sender) {
        if let Err(outcome) = self.check_call(image) {
            return self.refused(outcome);
        }
        match self.phase {
            Phase::Done => (Outcome::Taken, Decision::Done, self),
            Phase::GivenUp => (Outcome::Taken, Decision::GivenUp, self),
            _ if self.silences < MAX_SILENCES => {
                let again = Sender { silences: self.silences + 1, ..self };
                (Outcome::Taken, Decision::SendAgain, again)
            }
            _ => self.take(Step::LegOver),
        }
    }

    /// "Outcome 9 is given exactly when: size is below 16; length is 0 or above
    /// 1,048,576; silences or new legs are above 3; or, in placing, place is above
    /// length; or, in sending, place is not below length, or number times the
    /// packet is above place. [...] Place and number are not looked at in other
    /// phases."
    pub fn lawful(&self) -> bool {
        self.offer.size >= MIN_PACKET
            && self.length != 0
            && self.length <= MAX_IMAGE as u64
            && self.silences <= MAX_SILENCES
            && self.new_legs <= MAX_NEW_LEGS
            && match self.phase {
                Phase::Placing => self.place <= self.length,
                Phase::Sending => self.place < self.length && self.number_fits(),
                _ => true,
            }
    }

    /// Number times the packet is at most place; so it has two bytes.
    fn number_fits(&self) -> bool {
        u128::from(self.number) * self.packet() as u128 <= u128::from(self.place)
    }

    /// All calls check 9, then 20.
    fn check_call(&self, image: &[u8]) -> Result<(), Outcome> {
        if !self.lawful() {
            Err(Outcome::BadRecord)
        } else if image.len() as u64 != self.length {
            Err(Outcome::Misfit)
        } else {
            Ok(())
        }
    }

    /// "decision none, record [...] unchanged".
    fn refused(self, outcome: Outcome) -> (Outcome, Decision, Sender) {
        (outcome, Decision::None, self)
    }

    /// "A packet has the smaller of size and 512 bytes, the last one what is
    /// left."
    fn packet(&self) -> usize {
        usize::from(self.offer.size.min(MAX_PACKET))
    }

    /// The bytes of the packet to send: "n the smaller of the packet and length -
    /// place".
    fn packet_bytes<'a>(&self, image: &'a [u8]) -> &'a [u8] {
        let rest = &image[self.place as usize..];
        &rest[..rest.len().min(self.packet())]
    }

    /// The request of this phase; "done, given up: none", no bytes.
    fn request(&self, image: &[u8]) -> Vec<u8> {
        let channel = self.offer.channel;
        match self.phase {
            Phase::Asking => wire::fa(channel, self.offer.size),
            Phase::Telling => wire::fb(channel, &self.announced(image)),
            Phase::Placing => wire::fc(channel, self.place as u32),
            Phase::Sending => wire::fd(channel, self.number as u16, self.packet_bytes(image)),
            Phase::Ending => wire::fe(channel),
            Phase::Done | Phase::GivenUp => Vec::new(),
        }
    }

    /// What FB says of the image: "PID, version, MD5, length(4), CRC-32 of the
    /// lent image(4)". FB carries none of the image's bytes.
    fn announced(&self, image: &[u8]) -> Image {
        let Offer { pid, version, md5, .. } = self.offer;
        let (length, crc32) = (self.length as u32, crc32(image));
        Image { pid, version, md5, length, crc32, bytes: Vec::new() }
    }

    /// Where a reply leads; none if outcome 21 refuses it.
    fn judge(&self, image: &[u8], bytes: &[u8]) -> Option<Step> {
        let (version, command) = self.phase.awaits()?;
        let frame = one_whole_frame(bytes)?;
        let (&channel, fields) = frame.data.split_first()?;
        if (frame.version, frame.command, channel) != (version, command as u8, self.offer.channel) {
            return None;
        }
        match self.phase {
            Phase::Asking => judge_flag(fields),
            Phase::Telling => self.judge_file(image, fields),
            Phase::Placing => self.judge_offset(fields),
            Phase::Sending => self.judge_packet(image, fields),
            Phase::Ending => judge_end(fields),
            Phase::Done | Phase::GivenUp => None,
        }
    }

    /// Telling: "state 0: go on, placing; place is the reply's stored if that is
    /// at most length and the reply's CRC-32 is that of the image's first stored
    /// bytes, else 0. State 1, 2, 3: given up". Stored and CRC-32 beside another
    /// state, and the MD5 field, are not looked at.
    fn judge_file(&self, image: &[u8], fields: &[u8]) -> Option<Step> {
        let &[state, s1, s2, s3, s4, c1, c2, c3, c4, ref md5 @ ..] = fields else { return None };
        if md5.len() != 16 {
            return None;
        }
        let stored = u64::from(u32::from_be_bytes([s1, s2, s3, s4]));
        let crc = u32::from_be_bytes([c1, c2, c3, c4]);
        match state {
            0x00 => {
                let place = if is_front(image, stored, crc) { stored } else { 0 };
                Some(Step::GoOn { phase: Phase::Placing, place, number: 0 })
            }
            0x01..=0x03 => Some(Step::GivenUp),
            _ => None,
        }
    }

    /// Placing: "offset the asked one or 0"; "go on; place the offset, number 0;
    /// sending if place is below length, else ending".
    fn judge_offset(&self, fields: &[u8]) -> Option<Step> {
        let offset = u64::from(u32::from_be_bytes(fields.try_into().ok()?));
        (offset == self.place || offset == 0).then(|| self.go_on_from(offset, 0))
    }

    /// Sending: "state 0: go on; place + n, number + 1; sending if place is still
    /// below length, else ending. State 1 to 4: leg over".
    fn judge_packet(&self, image: &[u8], fields: &[u8]) -> Option<Step> {
        match *fields {
            [0x00] => {
                let n = self.packet_bytes(image).len() as u64;
                Some(self.go_on_from(self.place + n, self.number + 1))
            }
            [0x01..=0x04] => Some(Step::LegOver),
            _ => None,
        }
    }

    /// "sending if place is below length, else ending", where both are 0.
    fn go_on_from(&self, place: u64, number: u64) -> Step {
        if place < self.length {
            Step::GoOn { phase: Phase::Sending, place, number }
        } else {
            Step::to(Phase::Ending)
        }
    }

    /// The decision of a step and the record after it: silences are 0, and so are
    /// place and number unless the step says otherwise.
    ///
    /// "Leg over. New legs below 3: decision new leg, phase asking, new legs + 1.
    /// New legs 3: decision given up, phase given up."
    fn take(self, step: Step) -> (Outcome, Decision, Sender) {
        let cleared = Sender { place: 0, number: 0, silences: 0, ..self };
        let (decision, sender) = match step {
            Step::GoOn { phase, place, number } => {
                (Decision::GoOn, Sender { phase, place, number, ..cleared })
            }
            Step::LegOver if self.new_legs < MAX_NEW_LEGS => {
                let new_legs = self.new_legs + 1;
                (Decision::NewLeg, Sender { phase: Phase::Asking, new_legs, ..cleared })
            }
            Step::LegOver | Step::GivenUp => {
                (Decision::GivenUp, Sender { phase: Phase::GivenUp, ..cleared })
            }
            Step::Done => (Decision::Done, Sender { phase: Phase::Done, ..cleared }),
        };
        (Outcome::Taken, decision, sender)
    }
}

/// "exactly one whole frame": no byte before it, none after it.
fn one_whole_frame(bytes: &[u8]) -> Option<Frame<'_>> {
    frame::parse(bytes).filter(|frame| frame.wire_len() == bytes.len())
}

/// Stored is at most the image's length and `crc` that of its first stored bytes.
fn is_front(image: &[u8], stored: u64, crc: u32) -> bool {
    image.get(..stored as usize).is_some_and(|front| crc32(front) == crc)
}

/// Asking: "flag 0 or 1, Len2 512"; "flag 0: go on, telling. Flag 1: given up".
/// The version is not looked at.
fn judge_flag(fields: &[u8]) -> Option<Step> {
    let &[flag, _, _, _, high, low] = fields else { return None };
    match flag {
        _ if u16::from_be_bytes([high, low]) != MAX_PACKET => None,
        0 => Some(Step::to(Phase::Telling)),
        1 => Some(Step::GivenUp),
        _ => None,
    }
}

/// Ending: "state 0: done. State 1 or 3: leg over". 01: "State 02 of the page is
/// never sent."
fn judge_end(fields: &[u8]) -> Option<Step> {
    match *fields {
        [0x00] => Some(Step::Done),
        [0x01 | 0x03] => Some(Step::LegOver),
        _ => None,
    }
}
