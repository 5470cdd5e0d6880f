//! K5: one portion of a running end check, on a lawful record and the area of the opened length.

use super::crc::{crc32_advance, crc32_finish};
use super::record::{Check, Identity, Phase, Record};
use super::session::Reply;
use super::table::Command;

#[derive(Clone, Copy, Debug, PartialEq, Eq)]
pub enum Verdict {
    Unfinished,
    Right,
    Wrong,
}

/// What a portion read, and FE's reply once the verdict is there.
pub struct Portion {
    pub count: u64,
    pub verdict: Verdict,
    pub reply: Option<Reply>,
}

/// Reads on by at most `most` bytes: "That count is the smaller of the largest number and what is
/// left unread." The call that reads the last byte gives the verdict.
pub fn read_on(record: &mut Record, area: &[u8], most: u64) -> Portion {
    // Lawful: a running check has read less than announced, and that is at most the area's length.
    let Check { read, register, .. } = record.check;
    let announced = record.identity.announced;
    let count = most.min(announced - read);
    let read_now = read + count;
    let register = crc32_advance(register, &area[read as usize..read_now as usize]);
    if read_now < announced {
        record.check = Check { running: true, read: read_now, register };
        return Portion { count, verdict: Verdict::Unfinished, reply: None };
    }
    let right = crc32_finish(register) == record.identity.crc;
    let (verdict, state) = if right {
        record.phase = Phase::Done;
        (Verdict::Right, 0)
    } else {
        // FE: "03, phase idle, stored 0, identity all zero (its channel too)"
        record.phase = Phase::Idle;
        record.forget_stored();
        record.identity = Identity::default();
        (Verdict::Wrong, 3)
    };
    // "zeroes the check's own fields"
    record.check = Check::default();
    Portion { count, verdict, reply: Some(Reply::state(Command::FE, record.channel, state)) }
}
