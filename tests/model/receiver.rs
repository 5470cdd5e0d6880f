//! The receiver: board list, reader and session behind the calls of 01, and the
//! portion call of document 02's K5.

use crate::check::{Portion, Verdict};
use crate::frame::{self, Frame};
use crate::reader::Reader;
use crate::session::{Board, BoardList, Command, Refusal, Session};

/// "reply room below 33 bytes": the longest reply, FB's, has 7 + 26.
pub const REPLY_ROOM: usize = 33;
/// "the area's length, 1 to 1,048,576".
pub const MAX_AREA: usize = 1_048_576;

/// 01, "Outcome numbers"; 12, 18 and 19 are K5's.
#[derive(Clone, Copy, Debug, PartialEq, Eq)]
#[repr(u8)]
pub enum Outcome {
    Answered = 0,
    NoFrame = 1,
    UnknownCommand = 2,
    WrongShape = 3,
    UnlistedChannel = 4,
    SmallRoom = 5,
    OtherArea = 6,
    BadAreaLength = 7,
    BadList = 8,
    BadRecord = 9,
    OutOfTurn = 10,
    SmallReportRoom = 11,
    CheckRunning = 12,
    NoCheck = 18,
    CheckUnfinished = 19,
}

impl From<Refusal> for Outcome {
    fn from(refusal: Refusal) -> Self {
        match refusal {
            Refusal::UnknownCommand => Outcome::UnknownCommand,
            Refusal::WrongShape => Outcome::WrongShape,
            Refusal::UnlistedChannel => Outcome::UnlistedChannel,
            Refusal::OutOfTurn => Outcome::OutOfTurn,
            Refusal::CheckRunning => Outcome::CheckRunning,
        }
    }
}

/// What a call tells: "how many new bytes it took, how many bytes it dropped,
/// and the frame's command and L (both 0 without a frame)".
#[derive(Clone, Copy, Debug, PartialEq, Eq)]
pub struct Report {
    pub outcome: Outcome,
    pub taken: usize,
    pub dropped: usize,
    pub command: u8,
    pub length: usize,
    pub reply: usize,
}

impl Report {
    /// "on outcomes 5, 6 and 9 all four are 0".
    pub fn refused(outcome: Outcome) -> Self {
        Report { outcome, taken: 0, dropped: 0, command: 0, length: 0, reply: 0 }
    }
}

/// The record.
#[derive(Clone, PartialEq, Eq)]
pub struct Receiver {
    boards: BoardList,
    area_len: usize,
    reader: Reader,
    pub(crate) session: Session,
}

impl Receiver {
    /// Opening: "8, then 7". "A fresh record has its list and opened length, is
    /// idle and otherwise zero".
    pub fn open(boards: &[Board], area_len: usize) -> Result<Self, Outcome> {
        let boards = BoardList::new(boards).ok_or(Outcome::BadList)?;
        if area_len == 0 || area_len > MAX_AREA {
            return Err(Outcome::BadAreaLength);
        }
        let (reader, session) = (Reader::default(), Session::default());
        Ok(Receiver { boards, area_len, reader, session })
    }

    /// The record with this list, opened length, held bytes (at most 526) and
    /// session; refused as opening refuses.
    pub fn with(
        boards: &[Board],
        area_len: usize,
        held: &[u8],
        session: Session,
    ) -> Result<Self, Outcome> {
        let fresh = Receiver::open(boards, area_len)?;
        Ok(Receiver { reader: Reader::holding(held), session, ..fresh })
    }

    /// A feeding call: takes bytes of `new`, answers at most one frame.
    pub fn feed(&mut self, new: &[u8], area: &mut [u8], room: &mut [u8]) -> Report {
        if let Err(outcome) = self.check_call(area, room) {
            return Report::refused(outcome);
        }
        let step = self.reader.feed(new);
        let (outcome, reply) = match &step.frame {
            None => (Outcome::NoFrame, 0),
            Some(frame) => reply(&mut self.session, &self.boards, frame, area, room),
        };
        report(outcome, step.taken, step.dropped, step.frame, reply)
    }

    /// A quiet call: what is held will not grow any more.
    pub fn quiet(&mut self, area: &mut [u8], room: &mut [u8]) -> Report {
        if let Err(outcome) = self.check_call(area, room) {
            return Report::refused(outcome);
        }
        let step = self.reader.quiet();
        let (outcome, reply) = match &step.frame {
            None => (Outcome::NoFrame, 0),
            Some(frame) => reply(&mut self.session, &self.boards, frame, area, room),
        };
        report(outcome, step.taken, step.dropped, step.frame, reply)
    }

    /// A portion call: reads at most `most` more bytes of the image. It refuses "9,
    /// 6, 5, then 18 when no check runs: count 0, unfinished, nothing changed". The
    /// reader stays as it is: held bytes and "what stands past the held bytes".
    pub fn portion(&mut self, most: usize, area: &[u8], room: &mut [u8]) -> (Outcome, Portion) {
        if let Err(outcome) = self.check_call(area, room) {
            return (outcome, Portion::default());
        }
        if !self.session.check.running {
            return (Outcome::NoCheck, Portion::default());
        }
        let portion = self.session.portion(most, area, room);
        match portion.verdict {
            Verdict::Unfinished => (Outcome::CheckUnfinished, portion),
            Verdict::Right | Verdict::Wrong => (Outcome::Answered, portion),
        }
    }

    /// Finishes the check that the call with this report may have started, by
    /// portion calls of at most `most` bytes, not 0. FE's reply, which comes with
    /// the verdict, then stands in FE's report.
    pub fn finish_check(
        &mut self,
        report: Report,
        most: usize,
        area: &[u8],
        room: &mut [u8],
    ) -> Report {
        let mut reply = report.reply;
        while self.session.check.running {
            let (outcome, portion) = self.portion(most, area, room);
            let made = matches!(outcome, Outcome::Answered | Outcome::CheckUnfinished);
            assert!(made, "area and room are those of the call that started the check");
            reply = portion.reply;
        }
        Report { reply, ..report }
    }

    /// Outward F9: "count n, then per board channel, soft version(3), hard
    /// version(3), in list order."
    pub fn report_boards(&self, room: &mut [u8]) -> (Outcome, usize) {
        if !self.lawful() {
            return (Outcome::BadRecord, 0);
        }
        let mut data = Vec::with_capacity(1 + 7 * self.boards.boards().len());
        data.push(self.boards.boards().len() as u8);
        for board in self.boards.boards() {
            data.push(board.channel);
            data.extend_from_slice(&board.soft);
            data.extend_from_slice(&board.hard);
        }
        match frame::write(room, 0x00, Command::Report as u8, &data) {
            0 => (Outcome::SmallReportRoom, 0),
            written => (Outcome::Answered, written),
        }
    }

    pub fn reader(&self) -> &Reader {
        &self.reader
    }

    pub fn session(&self) -> &Session {
        &self.session
    }

    /// "A record that outcome 9 does not refuse is lawful." List, opened length
    /// and held count keep their rules by construction here.
    pub fn lawful(&self) -> bool {
        self.session.lawful(&self.boards, self.area_len)
    }

    /// "Calls check 9, 6, 5".
    fn check_call(&self, area: &[u8], room: &[u8]) -> Result<(), Outcome> {
        if !self.lawful() {
            Err(Outcome::BadRecord)
        } else if area.len() != self.area_len {
            Err(Outcome::OtherArea)
        } else if room.len() < REPLY_ROOM {
            Err(Outcome::SmallRoom)
        } else {
            Ok(())
        }
    }
}

/// Outcome and reply length of a frame.
fn reply(
    session: &mut Session,
    boards: &BoardList,
    frame: &Frame<'_>,
    area: &mut [u8],
    room: &mut [u8],
) -> (Outcome, usize) {
    match session.answer(boards, frame, area, room) {
        Ok(length) => (Outcome::Answered, length),
        Err(refusal) => (refusal.into(), 0),
    }
}

fn report(
    outcome: Outcome,
    taken: usize,
    dropped: usize,
    frame: Option<Frame<'_>>,
    reply: usize,
) -> Report {
    let (command, length) = frame.map_or((0, 0), |frame| (frame.command, frame.data.len()));
    Report { outcome, taken, dropped, command, length, reply }
}
