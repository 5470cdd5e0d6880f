//! The outcome numbers of document 01's table, of K5 and of the sender's table.

#[derive(Clone, Copy, Debug, PartialEq, Eq)]
pub enum Outcome {
    /// "a frame answered, or F9 noted"; in every other call: all went well.
    Fine = 0,
    /// "no whole frame yet"
    NoFrame = 1,
    /// "command not in the table"
    UnknownCommand = 2,
    /// "version byte or L wrong (FD: L below 7)"
    WrongShape = 3,
    /// "channel not in the list (F9 exempt)"
    UnlistedChannel = 4,
    /// "reply room below 33 bytes"; the sender: "room below 526 bytes"
    ShortRoom = 5,
    /// "area's length is not the opened one"
    OtherArea = 6,
    /// "opening: area's length not 1 to 1,048,576"
    BadLength = 7,
    /// "opening: list breaks its rules"
    BadList = 8,
    /// "record breaks its rules"
    Unlawful = 9,
    /// "FB or FC in a wrong phase or channel"
    OutOfTurn = 10,
    /// "outward F9: room below 8 + 7n"
    ShortReportRoom = 11,
    /// K5: "While a check runs, FA to FE get a new outcome 12"
    CheckRuns = 12,
    /// K5: "18 when no check runs"
    NoCheckRuns = 18,
    /// K5: the check has bytes left to read; "before that it is 19"
    CheckUnfinished = 19,
    /// K3: the packet size or the image does not fit.
    BadOffer = 20,
    /// K3: "not one whole frame, or a reply 01 never gives there"
    BadReply = 21,
}

impl Outcome {
    pub fn number(self) -> u8 {
        self as u8
    }
}
