//! The sender's calls (SENDER.md): opening, next request, reply, silence.

use super::crc::{crc16, crc32};
use super::frame::{self, Frame, MOST_FRAME};
use super::offer::{self, Sender, Stage, MOST_TRIES};
use super::outcome::Outcome;
use super::record::{Md5, Pid, Version, MOST_PACKET};
use super::table::Command;

#[derive(Clone, Copy, Debug, PartialEq, Eq)]
pub enum Decision {
    None,
    GoOn,
    SendAgain,
    NewLeg,
    Done,
    GivenUp,
}

/// What opening takes beside the packet size and the image.
pub struct Offer {
    pub channel: u8,
    pub pid: Pid,
    pub version: Version,
    pub md5: Md5,
}

/// Opening checks 20: "size below 16, or the image empty or above 1,048,576"; then "the all-zero
/// record".
pub fn open(offer: Offer, size: u16, image: &[u8]) -> (Outcome, Sender) {
    let length = image.len() as u64;
    if !offer::size_is_lawful(size) || !offer::image_is_lawful(length) {
        return (Outcome::BadOffer, Sender::default());
    }
    let Offer { channel, pid, version, md5 } = offer;
    let sender = Sender { channel, pid, version, md5, size, length, ..Sender::default() };
    (Outcome::Fine, sender)
}

/// What every call checks first: 9, then 20, "the image's length is not the record's".
fn refusal(sender: &Sender, image: &[u8]) -> Option<Outcome> {
    if !sender.is_lawful() {
        Some(Outcome::Unlawful)
    } else if image.len() as u64 != sender.length {
        Some(Outcome::BadOffer)
    } else {
        None
    }
}

/// Next request: "9, 20, 5", the last "room below 526 bytes, in every phase". Gives the request's
/// length.
pub fn request(sender: &Sender, image: &[u8], room: &mut [u8]) -> (Outcome, usize) {
    let short_room = || (room.len() < MOST_FRAME).then_some(Outcome::ShortRoom);
    if let Some(outcome) = refusal(sender, image).or_else(short_room) {
        return (outcome, 0);
    }
    let Some(command) = command_at(sender.stage) else {
        // "done, given up | none: outcome 0, length 0, nothing written"
        return (Outcome::Fine, 0);
    };
    let data = request_data(sender, image);
    let version = command.row().request_version;
    let written = frame::write(room, Frame { version, command: command.byte(), data: &data });
    (Outcome::Fine, written)
}

/// The command of the request, and of its reply, in each phase.
fn command_at(stage: Stage) -> Option<Command> {
    match stage {
        Stage::Asking => Some(Command::FA),
        Stage::Telling => Some(Command::FB),
        Stage::Placing => Some(Command::FC),
        Stage::Sending => Some(Command::FD),
        Stage::Ending => Some(Command::FE),
        Stage::Done | Stage::GivenUp => None,
    }
}

/// The table "Next request", its last column. A lawful record's place, length and number fit their
/// bytes.
fn request_data(sender: &Sender, image: &[u8]) -> Vec<u8> {
    let mut data = vec![sender.channel];
    match sender.stage {
        Stage::Asking => data.extend(sender.size.to_be_bytes()),
        Stage::Telling => {
            data.extend(sender.pid);
            data.extend(sender.version);
            data.extend(sender.md5);
            data.extend((sender.length as u32).to_be_bytes());
            data.extend(crc32(image).to_be_bytes());
        }
        Stage::Placing => data.extend((sender.place as u32).to_be_bytes()),
        Stage::Sending => {
            let n = sender.packet_here();
            let bytes = &image[sender.place as usize..(sender.place + n) as usize];
            data.extend((sender.number as u16).to_be_bytes());
            data.extend((n as u16).to_be_bytes());
            data.extend(crc16(bytes).to_be_bytes());
            data.extend(bytes);
        }
        Stage::Ending | Stage::Done | Stage::GivenUp => {}
    }
    data
}

/// Reply: "9, 20, 21".
pub fn reply(sender: &mut Sender, image: &[u8], bytes: &[u8]) -> (Outcome, Decision) {
    if let Some(outcome) = refusal(sender, image) {
        return (outcome, Decision::None);
    }
    let Some(step) = own_reply(sender, bytes).and_then(|data| judge(sender, image, data)) else {
        return (Outcome::BadReply, Decision::None);
    };
    let decision = match step {
        Step::GoOn { stage, place, number } => {
            sender.stand_at(stage, place, number);
            Decision::GoOn
        }
        Step::LegOver => sender.leg_over(),
        Step::Done => {
            sender.stand_at(Stage::Done, 0, 0);
            Decision::Done
        }
        Step::GiveUp => sender.give_up(),
    };
    (Outcome::Fine, decision)
}

/// What a reply leads to.
enum Step {
    GoOn { stage: Stage, place: u64, number: u64 },
    LegOver,
    Done,
    GiveUp,
}

/// The reply's data, if it is "exactly one whole frame" and "the reply to its own request" by
/// command, version byte, L and channel.
fn own_reply<'a>(sender: &Sender, bytes: &'a [u8]) -> Option<&'a [u8]> {
    let row = command_at(sender.stage)?.row();
    let frame = frame::exactly_one(bytes)?;
    let fits = frame.command == row.command.byte()
        && frame.version == row.reply_version
        && Some(frame.data.len()) == row.reply_length
        && frame.data[0] == sender.channel;
    fits.then_some(frame.data)
}

/// The table "Replies", beyond what `own_reply` looks at; none for 21.
fn judge(sender: &Sender, image: &[u8], data: &[u8]) -> Option<Step> {
    match (sender.stage, data[1]) {
        // "flag 0 or 1, Len2 512"
        (Stage::Asking, flag @ 0..=1) if data[5..7] == MOST_PACKET.to_be_bytes() => {
            Some(match flag {
                0 => Step::GoOn { stage: Stage::Telling, place: 0, number: 0 },
                _ => Step::GiveUp,
            })
        }
        (Stage::Telling, 0) => {
            let place = agreed_place(image, number_at(data, 2), number_at(data, 6));
            Some(Step::GoOn { stage: Stage::Placing, place, number: 0 })
        }
        (Stage::Telling, 1..=3) => Some(Step::GiveUp),
        (Stage::Placing, _) => {
            // "offset the asked one or 0"
            let offset = u64::from(number_at(data, 1));
            (offset == sender.place || offset == 0).then(|| send_from(sender, offset, 0))
        }
        (Stage::Sending, 0) => {
            let place = sender.place + sender.packet_here();
            Some(send_from(sender, place, sender.number + 1))
        }
        (Stage::Sending, 1..=4) => Some(Step::LegOver),
        (Stage::Ending, 0) => Some(Step::Done),
        (Stage::Ending, 1 | 3) => Some(Step::LegOver),
        _ => None,
    }
}

/// The four bytes from place `at` on.
fn number_at(data: &[u8], at: usize) -> u32 {
    data[at..at + 4].iter().fold(0, |number, &byte| number << 8 | u32::from(byte))
}

/// FB's state 0: "place is the reply's stored if that is at most length and the reply's CRC-32 is
/// that of the image's first stored bytes, else 0".
fn agreed_place(image: &[u8], stored: u32, crc: u32) -> u64 {
    match image.get(..stored as usize) {
        Some(first) if crc32(first) == crc => u64::from(stored),
        _ => 0,
    }
}

/// "sending if place is below length, else ending", where place and number are 0.
fn send_from(sender: &Sender, place: u64, number: u64) -> Step {
    if place < sender.length {
        Step::GoOn { stage: Stage::Sending, place, number }
    } else {
        Step::GoOn { stage: Stage::Ending, place: 0, number: 0 }
    }
}

/// Silence: "9, 20".
pub fn silence(sender: &mut Sender, image: &[u8]) -> (Outcome, Decision) {
    if let Some(outcome) = refusal(sender, image) {
        return (outcome, Decision::None);
    }
    let decision = match sender.stage {
        // "Phase done or given up: that decision, nothing changed."
        Stage::Done => Decision::Done,
        Stage::GivenUp => Decision::GivenUp,
        _ if sender.silences < MOST_TRIES => {
            sender.silences += 1;
            Decision::SendAgain
        }
        _ => sender.leg_over(),
    };
    (Outcome::Fine, decision)
}

impl Sender {
    /// Another request, or the end, "leaves silences 0".
    fn stand_at(&mut self, stage: Stage, place: u64, number: u64) {
        self.stage = stage;
        self.place = place;
        self.number = number;
        self.silences = 0;
    }

    fn give_up(&mut self) -> Decision {
        self.stand_at(Stage::GivenUp, 0, 0);
        Decision::GivenUp
    }

    /// "**Leg over.** New legs below 3: decision new leg, phase asking, new legs + 1. New legs 3:
    /// decision given up, phase given up."
    fn leg_over(&mut self) -> Decision {
        if self.legs < MOST_TRIES {
            self.stand_at(Stage::Asking, 0, 0);
            self.legs += 1;
            Decision::NewLeg
        } else {
            self.give_up()
        }
    }
}
