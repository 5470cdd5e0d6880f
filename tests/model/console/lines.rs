//! Reading a line: a command's name, its numbers, its bytes; or what is bad about it.

use std::fmt;

use super::commands::{Bytes, Command, TABLES};

/// "It has at most 65,535 bytes".
pub const MOST_LINE: usize = 65_535;
/// "all the digits that stand there, 1 to 20 of them"
const MOST_DIGITS: usize = 20;
/// No command takes more numbers.
const MOST_NUMBERS: usize = 2;

/// What a line gives its command: the numbers (unused ones 0) and the bytes.
pub struct Given {
    pub numbers: [u64; MOST_NUMBERS],
    pub bytes: Vec<u8>,
}

impl Given {
    /// The first `N` of the bytes, for a command that takes at least so many.
    pub fn array<const N: usize>(&self) -> [u8; N] {
        self.part(0)
    }

    /// The `N` bytes from place `at` on.
    pub fn part<const N: usize>(&self, at: usize) -> [u8; N] {
        let mut part = [0; N];
        part.copy_from_slice(&self.bytes[at..at + N]);
        part
    }
}

/// Why a line is no command, in the order of CONSOLE.md's table.
#[derive(Debug, PartialEq, Eq)]
pub enum Bad {
    TooLong,
    NoSuchCommand,
    Number { which: usize, most: u64 },
    NothingExpected,
    NotPairs,
    OtherCount(usize),
    PastEnd,
}

impl fmt::Display for Bad {
    fn fmt(&self, f: &mut fmt::Formatter) -> fmt::Result {
        match self {
            Bad::TooLong => write!(f, "a line has at most {MOST_LINE} bytes"),
            Bad::NoSuchCommand => write!(f, "no such command"),
            Bad::Number { which, most } => write!(f, "number {which} is 0 to {most}"),
            Bad::NothingExpected => write!(f, "nothing is expected behind that"),
            Bad::NotPairs => write!(f, "bytes are pairs of hexadecimal digits"),
            Bad::OtherCount(count) => write!(f, "{count} bytes are expected"),
            Bad::PastEnd => write!(f, "the bytes go past the end"),
        }
    }
}

/// "A line of no bytes, and one that begins with `#`, is passed over"; "a longer one is bad, a
/// comment too".
pub fn is_passed_over(line: &[u8]) -> bool {
    line.len() <= MOST_LINE && matches!(line.first(), None | Some(b'#'))
}

/// The line's command, and what the line gives it.
pub fn parse(line: &[u8]) -> Result<(&'static Command, Given), Bad> {
    if line.len() > MOST_LINE {
        return Err(Bad::TooLong);
    }
    let (command, mut rest) = find_command(line).ok_or(Bad::NoSuchCommand)?;
    let mut numbers = [0; MOST_NUMBERS];
    for (place, &most) in command.most.iter().enumerate() {
        let bad = Bad::Number { which: place + 1, most };
        (numbers[place], rest) = number(rest).filter(|&(number, _)| number <= most).ok_or(bad)?;
    }
    let bytes = match command.bytes {
        Bytes::Nothing if skip_spaces(rest).is_empty() => Vec::new(),
        Bytes::Nothing => return Err(Bad::NothingExpected),
        Bytes::Any | Bytes::Exactly(_) | Bytes::Within(_) => pairs(rest).ok_or(Bad::NotPairs)?,
    };
    match command.bytes {
        Bytes::Exactly(count) if bytes.len() != count => Err(Bad::OtherCount(count)),
        // Their place is number 1, which is below the memory's size.
        Bytes::Within(size) if bytes.len() > size - numbers[0] as usize => Err(Bad::PastEnd),
        _ => Ok((command, Given { numbers, bytes })),
    }
}

/// The command whose name stands at the line's front, and the rest of the line. "Behind a name
/// comes a space or the line's end, so that at most one name fits a line."
fn find_command(line: &[u8]) -> Option<(&'static Command, &[u8])> {
    TABLES.into_iter().flatten().find_map(|command| {
        let rest = line.strip_prefix(command.name.as_bytes())?;
        matches!(rest.first(), None | Some(b' ')).then_some((command, rest))
    })
}

fn skip_spaces(text: &[u8]) -> &[u8] {
    let spaces = text.iter().take_while(|&&byte| byte == b' ').count();
    &text[spaces..]
}

/// A number and what stands behind it. "One space or more stands before each number."
fn number(text: &[u8]) -> Option<(u64, &[u8])> {
    let digits = skip_spaces(text);
    let count = digits.iter().take_while(|byte| byte.is_ascii_digit()).count();
    if digits.len() == text.len() || !(1..=MOST_DIGITS).contains(&count) {
        return None;
    }
    let (digits, rest) = digits.split_at(count);
    let number = digits.iter().try_fold(0_u64, |number, digit| {
        number.checked_mul(10)?.checked_add(u64::from(digit - b'0'))
    })?;
    Some((number, rest))
}

/// All the bytes that the text gives: "two hexadecimal digits, upper or lower case, with nothing
/// between them"; spaces before, between and behind them.
fn pairs(text: &[u8]) -> Option<Vec<u8>> {
    let mut bytes = Vec::with_capacity(text.len() / 2);
    let mut rest = skip_spaces(text);
    while let [high, low, behind @ ..] = rest {
        bytes.push(digit(*high)? << 4 | digit(*low)?);
        rest = skip_spaces(behind);
    }
    rest.is_empty().then_some(bytes)
}

fn digit(byte: u8) -> Option<u8> {
    match byte {
        b'0'..=b'9' => Some(byte - b'0'),
        b'A'..=b'F' => Some(byte - b'A' + 10),
        b'a'..=b'f' => Some(byte - b'a' + 10),
        _ => None,
    }
}
