//! The program `exchange`: the sender and the controller over a simulated link.

use crate::ends::{Action, Controller, Ends};
use crate::link::{Event, Link, Travelling, Way};
use crate::sender;
use crate::stored::hex;
use crate::words::Words;

/// An exchange under way.
pub struct Exchange<'a> {
    image: &'a [u8],
    pub ends: Ends<'a>,
    link: Link,
    over: bool,
    sound: bool,
    text: String,
}

impl<'a> Exchange<'a> {
    /// "The program begins by sending the first request (FA)."
    pub fn begin(words: &'a Words) -> Self {
        let mut exchange = Exchange {
            image: &words.image,
            ends: Ends::new(words),
            link: Link::new(&words.script),
            over: false,
            sound: true,
            text: String::new(),
        };
        let request = exchange.ends.module.request();
        exchange.send(Way::ToController, request);
        exchange
    }

    /// "Then turns, until the sender says done or given up".
    pub fn turn(&mut self) {
        match self.link.turn() {
            Event::Silence => self.silence(),
            Event::Arrival(frame) => self.arrival(&frame),
        }
        self.sound &= self.ends.controller.stored_as_in(self.image);
    }

    pub fn over(&self) -> bool {
        self.over
    }

    /// After every turn so far the stored bytes were the image's first.
    pub fn sound(&self) -> bool {
        self.sound
    }

    /// The output so far.
    pub fn text(&self) -> &str {
        &self.text
    }

    /// How many copies are under way.
    pub fn under_way(&self) -> usize {
        self.link.under_way()
    }

    /// The `left` lines and the three last ones; then the whole output.
    pub fn finish(mut self) -> String {
        for frame in self.link.clear() {
            self.line(&frame_line(&frame, "left"));
        }
        for line in last_lines(&self.ends, self.image) {
            self.line(&line);
        }
        self.text
    }

    fn silence(&mut self) {
        let heard = self.ends.module.silence();
        self.line(&silence_line(&heard.told));
        self.act(Way::ToController, heard.action);
    }

    /// "The line of an arrival comes first, then the `stored` line, then whatever
    /// the sending that follows from it prints".
    fn arrival(&mut self, frame: &Travelling) {
        let before = self.ends.controller.stored();
        let heard = self.ends.at(frame.way).arrives(&frame.bytes);
        self.line(&frame_line(frame, &heard.told));
        if self.ends.controller.stored() != before {
            self.line(&stored_line(&self.ends.controller, self.image));
        }
        self.act(frame.way.back(), heard.action);
    }

    /// Does what an end wants; what it sends goes this way.
    fn act(&mut self, way: Way, action: Action) {
        match action {
            Action::Nothing => {}
            Action::Send(bytes) => self.send(way, bytes),
            Action::DropAllAndSend(bytes) => {
                for frame in self.link.clear() {
                    self.line(&frame_line(&frame, "dropped"));
                }
                self.send(way, bytes);
            }
            Action::Stop => self.over = true,
        }
    }

    fn send(&mut self, way: Way, bytes: Vec<u8>) {
        let frame = Travelling { way, bytes };
        for _ in 0..self.link.send(&frame) {
            self.line(&frame_line(&frame, "lost"));
        }
    }

    fn line(&mut self, line: &str) {
        self.text.push_str(line);
        self.text.push('\n');
    }
}

/// An exchange from its first request to its last line: the output, and whether
/// the stored bytes were the image's first after every turn.
pub fn exchange(words: &Words) -> (String, bool) {
    let mut exchange = Exchange::begin(words);
    while !exchange.over() {
        exchange.turn();
    }
    let sound = exchange.sound();
    (exchange.finish(), sound)
}

/// The line of a copy: "`->` is to the controller, `<-` to the sender; then the
/// command in hex", all bytes, and what became of it.
pub fn frame_line(frame: &Travelling, fate: &str) -> String {
    let arrow = match frame.way {
        Way::ToController => "->",
        Way::ToSender => "<-",
    };
    let command = frame.bytes.get(3).copied().unwrap_or(0);
    format!("{arrow} {command:02X} {} {fate}", hex(&frame.bytes))
}

/// "silence sender OUTCOME DECISION".
pub fn silence_line(told: &str) -> String {
    format!("silence {told}")
}

/// "stored N of M, as in the image".
pub fn stored_line(controller: &Controller, image: &[u8]) -> String {
    let not = if controller.stored_as_in(image) { "" } else { "NOT " };
    format!("stored {} of {}, {not}as in the image", controller.stored(), image.len())
}

/// "At the end, after the `left` lines, three lines".
pub fn last_lines(ends: &Ends<'_>, image: &[u8]) -> [String; 3] {
    let sender = match ends.module.sender.phase {
        sender::Phase::Done => "done",
        _ => "given up",
    };
    let controller = &ends.controller;
    let area = if controller.area_equals(image) { "equals" } else { "differs from" };
    [
        format!("sender {sender}"),
        format!(
            "controller {}, stored {} of {}",
            controller.phase().name(),
            controller.stored(),
            image.len()
        ),
        format!("area {area} the image"),
    ]
}
