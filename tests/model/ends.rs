//! The two ends of the program `exchange`, alike for the one who drives them: a
//! frame arrives, the end says what became of it and what it does.

use crate::link::Way;
use crate::receiver::{Receiver, REPLY_ROOM};
use crate::replay::{BENCH_AREA, BENCH_BOARD, PORTION};
use crate::sender::{Decision, Offer, Outcome, Sender, REQUEST_ROOM};
use crate::session::{Board, Phase};
use crate::words::Words;

/// What an end does after a call.
#[derive(Clone, Debug, PartialEq, Eq)]
pub enum Action {
    Nothing,
    Send(Vec<u8>),
    /// "all frames under way are dropped, then it asks for its request (FA) and
    /// sends it"
    DropAllAndSend(Vec<u8>),
    /// "the turns end"
    Stop,
}

/// What an end heard: the last words of the line, and what it does.
pub struct Heard {
    pub told: String,
    pub action: Action,
}

/// An end of the link.
pub trait End {
    /// A frame arrives.
    fn arrives(&mut self, frame: &[u8]) -> Heard;
}

/// The controller: "one board: that channel, soft 1.0.2, hard 1.0.0, PID all
/// zero, permitted; area of 65,536 zeros".
pub struct Controller {
    receiver: Receiver,
    area: Vec<u8>,
}

impl Controller {
    pub fn new(words: &Words) -> Self {
        let board = Board { channel: words.channel, ..BENCH_BOARD };
        let receiver = Receiver::open(&[board], BENCH_AREA).expect("channels are 10 to 19");
        Controller { receiver, area: vec![0; BENCH_AREA] }
    }

    pub fn stored(&self) -> usize {
        self.receiver.session().stored as usize
    }

    pub fn phase(&self) -> Phase {
        self.receiver.session().phase
    }

    /// The stored bytes are the first bytes of the image.
    pub fn stored_as_in(&self, image: &[u8]) -> bool {
        image.starts_with(&self.area[..self.stored()])
    }

    /// The area's first bytes are the whole image.
    pub fn area_equals(&self, image: &[u8]) -> bool {
        self.area.starts_with(image)
    }
}

impl End for Controller {
    /// "the frame's bytes are fed in one call [...]; if there is a reply it is
    /// sent". An end check is finished before that (document 02, K5).
    fn arrives(&mut self, frame: &[u8]) -> Heard {
        let mut room = [0; REPLY_ROOM];
        let report = self.receiver.feed(frame, &mut self.area, &mut room);
        let report = self.receiver.finish_check(report, PORTION, &self.area, &mut room);
        let action = match report.reply {
            0 => Action::Nothing,
            length => Action::Send(room[..length].to_vec()),
        };
        Heard { told: format!("controller {}", report.outcome as u8), action }
    }
}

/// The sender: "that channel, PID all zero, version 1.0.3, MD5 all zero, that
/// size, that image".
pub struct Module<'a> {
    pub sender: Sender,
    image: &'a [u8],
}

impl<'a> Module<'a> {
    pub fn new(words: &'a Words) -> Self {
        let offer = Offer {
            channel: words.channel,
            pid: [0; 8],
            version: [1, 0, 3],
            md5: [0; 16],
            size: words.size,
        };
        let (outcome, sender) = Sender::open(offer, &words.image);
        assert_eq!(outcome, Outcome::Taken, "words have a size and an image that opening takes");
        Module { sender, image: &words.image }
    }

    /// Its request as it stands.
    pub fn request(&self) -> Vec<u8> {
        let mut room = [0; REQUEST_ROOM];
        let (_, length) = self.sender.next_request(self.image, &mut room);
        room[..length].to_vec()
    }

    /// Silence is told.
    pub fn silence(&mut self) -> Heard {
        let (outcome, decision, sender) = self.sender.silence(self.image);
        self.heard(outcome, decision, sender)
    }

    /// "none: nothing. Go on, send again: it asks for its request and sends it.
    /// New leg: all frames under way are dropped, then it asks for its request
    /// (FA) and sends it. Done, given up: the turns end."
    fn heard(&mut self, outcome: Outcome, decision: Decision, sender: Sender) -> Heard {
        assert!(sender.lawful(), "a call left the sender unlawful");
        self.sender = sender;
        let action = match decision {
            Decision::None => Action::Nothing,
            Decision::GoOn | Decision::SendAgain => Action::Send(self.request()),
            Decision::NewLeg => Action::DropAllAndSend(self.request()),
            Decision::Done | Decision::GivenUp => Action::Stop,
        };
        Heard { told: format!("sender {} {decision}", outcome as u8), action }
    }
}

impl End for Module<'_> {
    fn arrives(&mut self, frame: &[u8]) -> Heard {
        let (outcome, decision, sender) = self.sender.reply(self.image, frame);
        self.heard(outcome, decision, sender)
    }
}

/// Both ends.
pub struct Ends<'a> {
    pub controller: Controller,
    pub module: Module<'a>,
}

impl<'a> Ends<'a> {
    pub fn new(words: &'a Words) -> Self {
        Ends { controller: Controller::new(words), module: Module::new(words) }
    }

    /// The end that a frame of this way arrives at.
    pub fn at(&mut self, way: Way) -> &mut dyn End {
        match way {
            Way::ToController => &mut self.controller,
            Way::ToSender => &mut self.module,
        }
    }
}
