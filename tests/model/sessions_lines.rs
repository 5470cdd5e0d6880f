//! Random sessions over the lines themselves: bad lines of every kind between good
//! ones, good ones spelled in every way, comments, empty lines, the longest lines, a
//! last line without newline.

use crate::console::commands::{Bytes, Command, TABLES};
use crate::console::lines::MOST_LINE;
use crate::rng::Rng;
use crate::sessions::Script;
use crate::stored::hex;

pub fn lines(script: &mut Script) {
    script.line("board 0 1 0A 010002 010000 0000000000000000");
    script.line("open 1 100");
    script.line("area 100");
    let commands = commands();
    while script.goes_on() {
        let command = script.rng.pick(&commands);
        let line = match script.rng.below(100) {
            0..=3 => Vec::new(),
            4..=7 => b"# room 5".to_vec(),
            8..=29 => no_command(&mut script.rng, command),
            30..=34 => longest(&mut script.rng),
            35..=64 => wrong_line(&mut script.rng, command),
            _ => right_line(&mut script.rng, command),
        };
        script.raw_line(&line);
    }
    script.line("show");
    script.line("sender show");
    if script.rng.chance(500) {
        script.text.pop(); // "the last one may do without"
    }
}

/// All commands in the page's order: the controller's and its fields, then the sender's.
fn commands() -> Vec<&'static Command> {
    let mut commands: Vec<&Command> = TABLES.into_iter().flatten().collect();
    commands.sort_by_key(|command| command.name.starts_with("sender "));
    commands
}

/// Any right line, spelled in any way.
fn right_line(rng: &mut Rng, command: &Command) -> Vec<u8> {
    let (numbers, count) = right_numbers(rng, command);
    let bytes = rng.bytes(count);
    let bytes = spelled(rng, &bytes);
    joined(rng, command.name, &numbers, &bytes)
}

/// Numbers within the table's bounds, and how many bytes may follow them.
fn right_numbers(rng: &mut Rng, command: &Command) -> (Vec<String>, usize) {
    let mut number = |most: u64| {
        let any = rng.next() % most.max(1);
        let value = rng.pick(&[any, 0, 1, most, any % 600]).min(most);
        let zeros = if rng.chance(800) { 0 } else { rng.below(21) };
        (value, format!("{value:0zeros$}"))
    };
    let numbers: Vec<(u64, String)> = command.most.iter().map(|&most| number(most)).collect();
    let count = match command.bytes {
        Bytes::Nothing => 0,
        Bytes::Any => rng.pick(&[0, 1, 9, 33, 60]),
        Bytes::Exactly(count) => count,
        Bytes::Within(size) => {
            let left = size - numbers[0].0 as usize;
            let some = rng.pick(&[0, 1, 2, 40]);
            rng.pick(&[some, some, left]).min(left).min(600)
        }
    };
    (numbers.into_iter().map(|(_, digits)| digits).collect(), count)
}

/// A line that is wrong in its numbers, its bytes or behind them, perhaps in two
/// places, for the order of the messages.
fn wrong_line(rng: &mut Rng, command: &Command) -> Vec<u8> {
    let (mut numbers, mut count) = right_numbers(rng, command);
    for (place, &most) in command.most.iter().enumerate() {
        if rng.chance(200) {
            numbers[place] = wrong_number(rng, most);
        }
    }
    if rng.chance(100) {
        numbers.truncate(rng.below(numbers.len() + 1));
    }
    if rng.chance(600) {
        count = match command.bytes {
            Bytes::Exactly(count) => rng.pick(&[count - 1, count + 1, 0, 2 * count]),
            Bytes::Within(_) => rng.pick(&[count + 1, 527, 601]),
            Bytes::Nothing | Bytes::Any => rng.pick(&[1, 2, count + 1]),
        };
    }
    let bytes = rng.bytes(count);
    let mut bytes = spelled(rng, &bytes);
    if rng.chance(250) {
        let wrong: &[u8] = match rng.below(10) {
            0 => b"5",
            1 => b" 5 5",
            2 => b"0x55",
            3 => b"GG",
            4 => b"\t",
            5 => b"\r",
            6 => &[0xFF, 0x00],
            7 => b" #",
            8 => b"5,",
            _ => b"-",
        };
        bytes.splice(0..0, wrong.iter().copied().filter(|_| rng.chance(500)));
        bytes.extend_from_slice(wrong);
    }
    joined(rng, command.name, &numbers, &bytes)
}

/// What is no number up to `most`.
fn wrong_number(rng: &mut Rng, most: u64) -> String {
    match rng.below(10) {
        0 | 1 => (u128::from(most) + 1).to_string(),
        2 => "18446744073709551616".into(),
        3 => "99999999999999999999".into(),
        4 => format!("{:021}", rng.below(3)),
        5 => "-1".into(),
        6 => "+1".into(),
        7 => format!("{}x", rng.below(3)),
        8 => "x".into(),
        _ => format!("0x{}", rng.below(16)),
    }
}

/// What no name of the table stands at the front of.
fn no_command(rng: &mut Rng, command: &Command) -> Vec<u8> {
    let name = command.name;
    let line = match rng.below(14) {
        0 => format!(" {name} 0 0"),
        1 => format!("{name}x 0"),
        2 => format!("{name}\t0"),
        3 => format!("{name}\r"),
        4 => name.to_uppercase(),
        5 => name.replace(' ', "  "),
        6 => name[..rng.below(name.len() + 1)].to_string() + "?",
        7 => name[..rng.between(1, name.len())].to_string(),
        8 => format!("{name}s 1"),
        9 => format!("{name}#"),
        10 => name.replace(' ', "\t"),
        11 => rng.pick(&["set", "set ", "set phase", "set phase x", "sender", "sender set"]).into(),
        12 => rng.pick(&["write", "write x 0 00", "help", "?", " ", "  ", "\u{e9}"]).into(),
        _ => rng.pick(&["set boards0", "set board", "boards 1", "portion", "open", "feed5"]).into(),
    };
    line.into_bytes()
}

/// The longest lines and one byte more: a command, bytes, a comment, rubbish.
fn longest(rng: &mut Rng) -> Vec<u8> {
    let (start, fill): (&[u8], u8) = match rng.below(6) {
        0 => (b"quiet", b' '),
        1 => (b"write area 3 ", b'7'),
        2 => (b"feed ", b'0'),
        3 => (b"#", b'#'),
        4 => (b"nothing", b'x'),
        _ => (b"room ", b'0'),
    };
    let mut line = start.to_vec();
    line.resize(rng.pick(&[MOST_LINE - 1, MOST_LINE, MOST_LINE, MOST_LINE + 1]), fill);
    line
}

/// The name and what follows it, spaces as the page allows.
fn joined(rng: &mut Rng, name: &str, numbers: &[String], bytes: &[u8]) -> Vec<u8> {
    let mut line = name.as_bytes().to_vec();
    for number in numbers {
        line.extend_from_slice(spaces(rng, 1));
        line.extend_from_slice(number.as_bytes());
    }
    if !bytes.is_empty() {
        line.extend_from_slice(spaces(rng, 1));
        line.extend_from_slice(bytes);
    }
    line.extend_from_slice(spaces(rng, 0));
    line
}

/// So many spaces or some more.
fn spaces(rng: &mut Rng, least: usize) -> &'static [u8] {
    const SPACES: &[u8] = &[b' '; 300];
    let more = rng.pick(&[0, 0, 0, 0, 1, 2, 290]);
    &SPACES[..least + more]
}

/// Bytes in upper, lower or mixed case, with or without spaces between them.
fn spelled(rng: &mut Rng, bytes: &[u8]) -> Vec<u8> {
    let (mixed, apart) = (rng.below(3), rng.chance(300));
    let mut text = Vec::new();
    for &byte in bytes {
        let pair = hex(&[byte]).into_bytes();
        let lower = |digit: u8| digit.to_ascii_lowercase();
        text.extend(pair.iter().map(|&digit| match mixed {
            0 => digit,
            1 => lower(digit),
            _ => rng.pick(&[digit, lower(digit)]),
        }));
        if apart {
            text.extend_from_slice(spaces(rng, 0));
        }
    }
    text
}
