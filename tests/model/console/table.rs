//! "The command table, as one constant, with lengths of data and the version byte."

#[derive(Clone, Copy, Debug, PartialEq, Eq)]
pub enum Command {
    F9 = 0xF9,
    FA = 0xFA,
    FB = 0xFB,
    FC = 0xFC,
    FD = 0xFD,
    FE = 0xFE,
}

/// How many data bytes a request has.
#[derive(Clone, Copy, Debug, PartialEq, Eq)]
pub enum Length {
    Exactly(usize),
    /// FD: "7 + n"; outcome 3 is for "L below 7".
    AtLeast(usize),
}

impl Length {
    pub fn allows(self, length: usize) -> bool {
        match self {
            Length::Exactly(wanted) => length == wanted,
            Length::AtLeast(least) => length >= least,
        }
    }
}

/// A row: the version byte and L of the module's request, and of the controller's own frame.
#[derive(Clone, Copy, Debug)]
pub struct Row {
    pub command: Command,
    pub request_version: u8,
    pub request_length: Length,
    pub reply_version: u8,
    /// None for F9, which gets no reply.
    pub reply_length: Option<usize>,
}

const fn row(command: Command, request: (u8, Length), reply: (u8, Option<usize>)) -> Row {
    Row {
        command,
        request_version: request.0,
        request_length: request.1,
        reply_version: reply.0,
        reply_length: reply.1,
    }
}

/// In the order of the commands. F9 has no reply; its second version byte is that of "F9 outward".
const TABLE: [Row; 6] = [
    row(Command::F9, (0x00, Length::Exactly(1)), (0x00, None)),
    row(Command::FA, (0x00, Length::Exactly(3)), (0x00, Some(7))),
    row(Command::FB, (0x10, Length::Exactly(36)), (0x10, Some(26))),
    row(Command::FC, (0x00, Length::Exactly(5)), (0x00, Some(5))),
    row(Command::FD, (0x10, Length::AtLeast(7)), (0x00, Some(2))),
    row(Command::FE, (0x00, Length::Exactly(1)), (0x00, Some(2))),
];

/// The row of a frame's command byte.
pub fn find(byte: u8) -> Option<Row> {
    TABLE.into_iter().find(|row| row.command.byte() == byte)
}

impl Command {
    pub fn byte(self) -> u8 {
        self as u8
    }

    pub fn row(self) -> Row {
        TABLE[usize::from(self.byte() - Command::F9.byte())]
    }
}
