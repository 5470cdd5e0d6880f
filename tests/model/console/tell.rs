//! Output: how bytes, spans, names and changes are written.

use std::fmt::Display;

use super::offer::{Sender, Stage};
use super::portion::Verdict;
use super::record::{Board, Phase, Record};
use super::sender::Decision;

/// "bytes two upper-case hexadecimal digits each, without spaces"
pub fn hex(bytes: &[u8]) -> String {
    const DIGITS: [char; 16] =
        ['0', '1', '2', '3', '4', '5', '6', '7', '8', '9', 'A', 'B', 'C', 'D', 'E', 'F'];
    let mut text = String::with_capacity(2 * bytes.len());
    for byte in bytes {
        text.push(DIGITS[usize::from(byte >> 4)]);
        text.push(DIGITS[usize::from(byte & 0x0F)]);
    }
    text
}

/// BYTES: "`-` for none".
pub fn bytes(bytes: &[u8]) -> String {
    if bytes.is_empty() {
        "-".to_owned()
    } else {
        hex(bytes)
    }
}

/// SPAN, over the places from `from` on: "`AT:BYTES` with the place of the first changed byte and
/// all bytes from it to the last changed one, as they stand now; `-` where none changed".
pub fn span(before: &[u8], now: &[u8], from: usize) -> String {
    let changed = |at: &usize| before[*at] != now[*at];
    if before[from..] == now[from..] {
        return "-".to_owned();
    }
    let first = (from..now.len()).find(changed).unwrap_or(from);
    let last = (from..now.len()).rfind(changed).unwrap_or(from);
    format!("{first}:{}", hex(&now[first..=last]))
}

pub fn verdict(verdict: Verdict) -> &'static str {
    match verdict {
        Verdict::Unfinished => "unfinished",
        Verdict::Right => "right",
        Verdict::Wrong => "wrong",
    }
}

pub fn decision(decision: Decision) -> &'static str {
    match decision {
        Decision::None => "none",
        Decision::GoOn => "go-on",
        Decision::SendAgain => "send-again",
        Decision::NewLeg => "new-leg",
        Decision::Done => "done",
        Decision::GivenUp => "given-up",
    }
}

pub fn phase(phase: Phase) -> &'static str {
    match phase {
        Phase::Idle => "idle",
        Phase::Asked => "asked",
        Phase::Told => "told",
        Phase::Receiving => "receiving",
        Phase::Done => "done",
    }
}

pub fn stage(stage: Stage) -> &'static str {
    match stage {
        Stage::Asking => "asking",
        Stage::Telling => "telling",
        Stage::Placing => "placing",
        Stage::Sending => "sending",
        Stage::Ending => "ending",
        Stage::Done => "done",
        Stage::GivenUp => "given-up",
    }
}

/// "`boardP` as `PERMIT,CHANNEL,SOFT,HARD,PID`: the permit as 0 or 1, the rest as bytes"
fn board(board: Board) -> String {
    let Board { permit, channel, soft, hard, pid } = board;
    let [channel, soft, hard, pid] = [hex(&[channel]), hex(&soft), hex(&hard), hex(&pid)];
    format!("{},{channel},{soft},{hard},{pid}", u8::from(permit))
}

/// CHANGES: "`|`, then for each field of the record that is another than before the command a space
/// and `field=value`".
struct Changes(String);

impl Changes {
    fn new() -> Self {
        Changes("|".to_owned())
    }

    /// Tells the field if it changed, as `value` writes it.
    fn field<T: Copy + PartialEq, V: Display>(
        &mut self,
        name: &str,
        before: T,
        now: T,
        value: impl FnOnce(T) -> V,
    ) {
        if before != now {
            self.0.push_str(&format!(" {name}={}", value(now)));
        }
    }

    fn number<T: Copy + PartialEq + Into<u64>>(&mut self, name: &str, before: T, now: T) {
        self.field(name, before, now, T::into);
    }

    fn array<const N: usize>(&mut self, name: &str, before: [u8; N], now: [u8; N]) {
        self.field(name, before, now, |now| hex(&now));
    }
}

/// The controller's record, "in the order of the tables above".
pub fn record_changes(before: &Record, now: &Record) -> String {
    let mut changes = Changes::new();
    changes.number("boards", before.boards, now.boards);
    for (place, (&before, &now)) in before.list.iter().zip(&now.list).enumerate() {
        changes.field(&format!("board{place}"), before, now, board);
    }
    changes.number("opened", before.opened, now.opened);
    changes.number("holding", before.holding, now.holding);
    changes.field("held", &before.held, &now.held, |now| span(&before.held, now, 0));
    changes.field("phase", before.phase, now.phase, phase);
    changes.number("channel", before.channel, now.channel);
    changes.number("agreed", before.agreed, now.agreed);
    changes.number("next", before.next, now.next);
    changes.number("stored", before.stored, now.stored);
    let (identity_before, identity) = (&before.identity, &now.identity);
    changes.number("image-channel", identity_before.channel, identity.channel);
    changes.array("version", identity_before.version, identity.version);
    changes.number("announced", identity_before.announced, identity.announced);
    changes.array("md5", identity_before.md5, identity.md5);
    changes.array("crc", identity_before.crc.to_be_bytes(), identity.crc.to_be_bytes());
    changes.number("last", before.last, now.last);
    let (check_before, check) = (&before.check, &now.check);
    changes.number("checking", check_before.running, check.running);
    changes.number("read", check_before.read, check.read);
    changes.array("register", check_before.register.to_be_bytes(), check.register.to_be_bytes());
    changes.0
}

/// The sender's record, in its table's order.
pub fn sender_changes(before: &Sender, now: &Sender) -> String {
    let mut changes = Changes::new();
    changes.number("channel", before.channel, now.channel);
    changes.array("pid", before.pid, now.pid);
    changes.array("version", before.version, now.version);
    changes.array("md5", before.md5, now.md5);
    changes.number("size", before.size, now.size);
    changes.number("length", before.length, now.length);
    changes.field("phase", before.stage, now.stage, stage);
    changes.number("place", before.place, now.place);
    changes.number("number", before.number, now.number);
    changes.number("silences", before.silences, now.silences);
    changes.number("legs", before.legs, now.legs);
    changes.0
}
