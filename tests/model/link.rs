//! The simulated link of the program `exchange`: frames under way and the script
//! that loses and repeats them. It knows where a frame goes, not what is there.

use std::collections::VecDeque;

/// "One queue of frames under way [...] It has 64 places."
pub const PLACES: usize = 64;

/// A letter of the script.
#[derive(Clone, Copy, Debug, PartialEq, Eq)]
pub enum Letter {
    /// p: "one copy goes under way"
    Pass,
    /// l: "it is lost"
    Lose,
    /// r: "two copies go under way, one behind the other"
    Repeat,
    /// s: silence is told although something may be under way
    Silence,
}

impl Letter {
    pub fn read(letter: char) -> Option<Letter> {
        match letter {
            'p' => Some(Letter::Pass),
            'l' => Some(Letter::Lose),
            'r' => Some(Letter::Repeat),
            's' => Some(Letter::Silence),
            _ => None,
        }
    }
}

/// The end a frame goes to.
#[derive(Clone, Copy, Debug, PartialEq, Eq)]
pub enum Way {
    ToController,
    ToSender,
}

impl Way {
    /// The way of what the end at this one's end sends.
    pub fn back(self) -> Way {
        match self {
            Way::ToController => Way::ToSender,
            Way::ToSender => Way::ToController,
        }
    }
}

/// A copy of a frame.
#[derive(Clone, Debug, PartialEq, Eq)]
pub struct Travelling {
    pub way: Way,
    pub bytes: Vec<u8>,
}

/// What a turn brings.
pub enum Event {
    Silence,
    Arrival(Travelling),
}

pub struct Link {
    script: VecDeque<Letter>,
    under_way: VecDeque<Travelling>,
}

impl Link {
    pub fn new(script: &[Letter]) -> Self {
        Link { script: script.iter().copied().collect(), under_way: VecDeque::new() }
    }

    /// The next turn: "If the script's next letter is `s`, it is used up and
    /// silence is told to the sender. Otherwise, if nothing is under way, silence
    /// is told to the sender [...]. Otherwise the oldest frame under way arrives".
    pub fn turn(&mut self) -> Event {
        if self.script.front() == Some(&Letter::Silence) {
            self.script.pop_front();
            return Event::Silence;
        }
        self.under_way.pop_front().map_or(Event::Silence, Event::Arrival)
    }

    /// Sends a frame; how many of its copies are lost. "A copy for which all 64
    /// places are taken is lost."
    pub fn send(&mut self, frame: &Travelling) -> usize {
        let copies = match self.letter_for_a_frame() {
            Letter::Pass | Letter::Silence => 1,
            Letter::Lose => return 1,
            Letter::Repeat => 2,
        };
        let taken = (PLACES - self.under_way.len()).min(copies);
        self.under_way.extend(std::iter::repeat_n(frame.clone(), taken));
        copies - taken
    }

    /// "Sending a frame uses up the script's next letter if that is p, l or r (an
    /// `s` is not used up here [...]; then and after the script's end the frame
    /// passes)".
    fn letter_for_a_frame(&mut self) -> Letter {
        match self.script.front() {
            None | Some(Letter::Silence) => Letter::Pass,
            Some(&letter) => {
                self.script.pop_front();
                letter
            }
        }
    }

    pub fn under_way(&self) -> usize {
        self.under_way.len()
    }

    /// All frames under way, oldest first, which are then no longer under way.
    pub fn clear(&mut self) -> impl Iterator<Item = Travelling> {
        std::mem::take(&mut self.under_way).into_iter()
    }
}
