//! Another exchange program's output played through both ends of the model: its
//! sender against the model's controller, its controller against the model's
//! sender. Which copies arrive, and when, is taken from the output: there is no
//! link here, and the model's own output is not looked at.

use std::fmt;

use crate::ends::{Action, Ends, Heard};
use crate::exchange::{frame_line, last_lines, silence_line, stored_line};
use crate::link::{Travelling, Way};
use crate::words::Words;

/// What fitted.
#[derive(Clone, Copy, Debug, Default, PartialEq, Eq)]
pub struct Counts {
    pub requests: usize,
    pub replies: usize,
    pub silences: usize,
}

impl fmt::Display for Counts {
    fn fmt(&self, out: &mut fmt::Formatter<'_>) -> fmt::Result {
        let Counts { requests, replies, silences } = self;
        write!(out, "{requests} requests, {replies} replies, {silences} silences")
    }
}

/// Plays the transcript of an exchange with these words; the first line that does
/// not fit, with what the model has there.
pub fn cross(words: &Words, transcript: &str) -> Result<Counts, String> {
    let mut cross = Cross {
        image: &words.image,
        ends: Ends::new(words),
        lines: transcript.split_inclusive('\n').collect(),
        next: 0,
        requests: Given::default(),
        replies: Given::default(),
        counts: Counts::default(),
    };
    cross.play()?;
    Ok(cross.counts)
}

struct Cross<'a> {
    image: &'a [u8],
    ends: Ends<'a>,
    lines: Vec<&'a str>,
    /// The line that is looked at next.
    next: usize,
    requests: Given,
    replies: Given,
    counts: Counts,
}

/// Whether the turns go on.
#[derive(PartialEq, Eq)]
enum Turns {
    GoOn,
    End,
}

impl<'a> Cross<'a> {
    fn play(&mut self) -> Result<(), String> {
        let request = self.ends.module.request();
        self.give(Way::ToController, request);
        while self.turn()? == Turns::GoOn {}
        self.copies_that_ended("left")?;
        for line in last_lines(&self.ends, self.image) {
            self.expect(&line)?;
        }
        match self.lines.get(self.next) {
            None => Ok(()),
            Some(_) => Err(self.misfit("the transcript's end")),
        }
    }

    /// One arrival or silence with all lines that follow from it.
    fn turn(&mut self) -> Result<Turns, String> {
        match self.front() {
            Some((frame, _)) => self.arrival(frame),
            None if self.front_is_silence() => self.silence(),
            None => Err(self.misfit("an arrival or a silence")),
        }
    }

    /// A copy arrives: it must be one of a frame that the model's other end gave,
    /// and this end must say of it what the transcript says.
    fn arrival(&mut self, frame: Travelling) -> Result<Turns, String> {
        self.see(&frame)?;
        let before = self.ends.controller.stored();
        let heard = self.ends.at(frame.way).arrives(&frame.bytes);
        self.expect(&frame_line(&frame, &heard.told))?;
        if self.ends.controller.stored() != before {
            self.expect(&stored_line(&self.ends.controller, self.image))?;
        }
        match frame.way {
            Way::ToController => self.counts.requests += 1,
            Way::ToSender => self.counts.replies += 1,
        }
        self.act(frame.way.back(), heard)
    }

    fn silence(&mut self) -> Result<Turns, String> {
        let heard = self.ends.module.silence();
        self.expect(&silence_line(&heard.told))?;
        self.counts.silences += 1;
        self.act(Way::ToController, heard)
    }

    /// What follows from an arrival or silence.
    fn act(&mut self, way: Way, heard: Heard) -> Result<Turns, String> {
        match heard.action {
            Action::Nothing => {}
            Action::Send(bytes) => self.give(way, bytes),
            Action::DropAllAndSend(bytes) => {
                self.copies_that_ended("dropped")?;
                self.give(way, bytes);
            }
            Action::Stop => return Ok(Turns::End),
        }
        Ok(Turns::GoOn)
    }

    /// An end of the model gives a frame; the copies of it that were lost at once
    /// have their lines here, two at most.
    fn give(&mut self, way: Way, bytes: Vec<u8>) {
        let lost = frame_line(&Travelling { way, bytes: bytes.clone() }, "lost") + "\n";
        let rest = &self.lines[self.next..];
        let count = rest.iter().take(2).take_while(|line| **line == lost).count();
        self.next += count;
        self.given(way).give(bytes, count);
    }

    /// The lines of all copies that were under way; none may be missing.
    fn copies_that_ended(&mut self, fate: &str) -> Result<(), String> {
        while let Some((frame, _)) = self.front().filter(|(_, theirs)| *theirs == fate) {
            self.see(&frame)?;
            self.expect(&frame_line(&frame, fate))?;
        }
        for way in [Way::ToController, Way::ToSender] {
            if let Some(frame) = self.given(way).missing() {
                return Err(self.misfit(&frame_line(&Travelling { way, bytes: frame }, fate)));
            }
            *self.given(way) = Given::default();
        }
        Ok(())
    }

    /// Sees a copy that stands in the next line.
    fn see(&mut self, frame: &Travelling) -> Result<(), String> {
        if self.given(frame.way).see(&frame.bytes) {
            return Ok(());
        }
        Err(match frame.way {
            Way::ToController => self.misfit("a request that the model's sender gave next"),
            Way::ToSender => self.misfit("a reply that the model's controller gave next"),
        })
    }

    fn given(&mut self, way: Way) -> &mut Given {
        match way {
            Way::ToController => &mut self.requests,
            Way::ToSender => &mut self.replies,
        }
    }

    /// The frame of the next line and its fate, if it is a frame's line.
    fn front(&self) -> Option<(Travelling, &'a str)> {
        read_frame_line(self.lines.get(self.next)?)
    }

    fn front_is_silence(&self) -> bool {
        self.lines.get(self.next).is_some_and(|line| line.starts_with("silence "))
    }

    /// The next line must be this one.
    fn expect(&mut self, line: &str) -> Result<(), String> {
        if self.lines.get(self.next).and_then(|theirs| theirs.strip_suffix('\n')) != Some(line) {
            return Err(self.misfit(line));
        }
        self.next += 1;
        Ok(())
    }

    fn misfit(&self, wanted: &str) -> String {
        let there = self.lines.get(self.next).unwrap_or(&"nothing");
        let there = there.strip_suffix('\n').unwrap_or(there);
        format!("line {} does not fit: {there}; wanted: {wanted}", self.next + 1)
    }
}

/// Arrow, command, bytes, and what became of them; the caller compares the line
/// with the one that the bytes and the fate give.
fn read_frame_line(line: &str) -> Option<(Travelling, &str)> {
    let mut words = line.trim_end().splitn(4, ' ');
    let way = match words.next()? {
        "->" => Way::ToController,
        "<-" => Way::ToSender,
        _ => return None,
    };
    let _command = words.next()?;
    let bytes = read_hex(words.next()?)?;
    Some((Travelling { way, bytes }, words.next()?))
}

fn read_hex(digits: &str) -> Option<Vec<u8>> {
    let digits: Vec<u32> = digits.chars().map(|digit| digit.to_digit(16)).collect::<Option<_>>()?;
    let pair = |pair: &[u32]| match *pair {
        [high, low] => Some((high * 16 + low) as u8),
        _ => None,
    };
    digits.chunks(2).map(pair).collect()
}

/// The frames that an end gave, and how far the copies seen can have come in them.
///
/// "Every copy of a frame gets exactly one line": a frame given has one copy or
/// two, those lost at once included; copies of one way keep their order. Where
/// equal frames follow each other it is open whose copy one is; all cases are
/// kept.
struct Given {
    frames: Vec<GivenFrame>,
    cases: Vec<Case>,
}

struct GivenFrame {
    bytes: Vec<u8>,
    lost: usize,
}

/// The copy seen last may have been of the frame at place `frame`, of which then
/// `copies` are seen; all earlier frames are done with.
#[derive(Clone, Copy, Debug, PartialEq, Eq, PartialOrd, Ord)]
struct Case {
    frame: usize,
    copies: usize,
}

impl Default for Given {
    fn default() -> Self {
        Given { frames: Vec::new(), cases: vec![Case { frame: 0, copies: 0 }] }
    }
}

impl Given {
    fn give(&mut self, bytes: Vec<u8>, lost: usize) {
        self.frames.push(GivenFrame { bytes, lost });
    }

    /// Sees a copy that was not lost; false if it can be none.
    fn see(&mut self, bytes: &[u8]) -> bool {
        let mut cases = Vec::with_capacity(self.cases.len() + 1);
        for case in self.cases.iter().flat_map(|&case| self.reachable(case)) {
            if self.frames.get(case.frame).is_some_and(|frame| frame.bytes == bytes) {
                cases.push(Case { copies: case.copies + 1, ..case });
            }
        }
        cases.retain(|case| case.copies + self.frames[case.frame].lost <= 2);
        cases.sort_unstable();
        cases.dedup();
        self.cases = cases;
        !self.cases.is_empty()
    }

    /// The case itself, and those in which frames that have had a copy are done
    /// with.
    fn reachable(&self, case: Case) -> impl Iterator<Item = Case> + '_ {
        std::iter::successors(Some(case), |case| {
            let frame = self.frames.get(case.frame)?;
            let done = case.copies + frame.lost > 0;
            done.then_some(Case { frame: case.frame + 1, copies: 0 })
        })
    }

    /// A frame of which a copy should have been seen by now, whatever the case.
    fn missing(&self) -> Option<Vec<u8>> {
        let furthest = self.cases.iter().flat_map(|&case| self.reachable(case)).max()?;
        self.frames.get(furthest.frame).map(|frame| frame.bytes.clone())
    }
}
