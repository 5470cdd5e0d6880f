//! CONSOLE.md's table of commands: each one's name, its numbers, its bytes, and what it does.

use super::bench::{Bench, IMAGE_SIZE, LENT_SIZE};
use super::fields;
use super::lines::Given;
use super::record::Board;
use super::sender::Offer;

/// The bytes that a command takes.
#[derive(Clone, Copy)]
pub enum Bytes {
    Nothing,
    Any,
    Exactly(usize),
    /// Any, put from place number 1 on into a memory of this size.
    Within(usize),
}

pub struct Command {
    pub name: &'static str,
    /// The most that each of its numbers may be.
    pub most: &'static [u64],
    pub bytes: Bytes,
    /// Obeys it, and gives the rest of the answer's line.
    pub obey: fn(&mut Bench, &Given) -> String,
}

/// "0 to 18,446,744,073,709,551,615 unless the table says less"
pub const ANY: u64 = u64::MAX;
/// PLACE and PERMIT: "0 to 9; 0 or 1".
pub const BOARD_NUMBERS: &[u64] = &[9, 1];
/// "channel(1), soft version(3), hard version(3), PID(8)"
pub const BOARD_BYTES: Bytes = Bytes::Exactly(15);

const LENT_MOST: u64 = LENT_SIZE as u64;
const IMAGE_MOST: u64 = IMAGE_SIZE as u64;

pub const fn command(
    name: &'static str,
    most: &'static [u64],
    bytes: Bytes,
    obey: fn(&mut Bench, &Given) -> String,
) -> Command {
    Command { name, most, bytes, obey }
}

/// Every name that a line may begin with.
pub static TABLES: [&[Command]; 3] = [CALLS, fields::CONTROLLER, fields::SENDER];

const CALLS: &[Command] = &[
    command("room", &[LENT_MOST], Bytes::Nothing, |bench, given| {
        bench.room.lend(given.numbers[0] as usize);
        ok()
    }),
    command("area", &[LENT_MOST], Bytes::Nothing, |bench, given| {
        bench.area.lend(given.numbers[0] as usize);
        ok()
    }),
    command("image", &[IMAGE_MOST], Bytes::Nothing, |bench, given| {
        bench.image.lend(given.numbers[0] as usize);
        ok()
    }),
    command("write room", &[LENT_MOST - 1], Bytes::Within(LENT_SIZE), |bench, given| {
        bench.room.write(given.numbers[0] as usize, &given.bytes);
        ok()
    }),
    command("write area", &[LENT_MOST - 1], Bytes::Within(LENT_SIZE), |bench, given| {
        bench.area.write(given.numbers[0] as usize, &given.bytes);
        ok()
    }),
    command("write image", &[IMAGE_MOST - 1], Bytes::Within(IMAGE_SIZE), |bench, given| {
        bench.image.write(given.numbers[0] as usize, &given.bytes);
        ok()
    }),
    command("board", BOARD_NUMBERS, BOARD_BYTES, |bench, given| {
        bench.list[given.numbers[0] as usize] = board(given);
        ok()
    }),
    command("open", &[ANY, ANY], Bytes::Nothing, |bench, given| {
        let [count, length] = given.numbers;
        bench.open(count, length)
    }),
    command("feed", &[], Bytes::Any, |bench, given| bench.feed(&given.bytes)),
    command("quiet", &[], Bytes::Nothing, |bench, _| bench.quiet()),
    command("portion", &[ANY], Bytes::Nothing, |bench, given| bench.portion(given.numbers[0])),
    command("report", &[], Bytes::Nothing, |bench, _| bench.report()),
    command("show", &[], Bytes::Nothing, |bench, _| bench.show()),
    command("sender open", &[u16::MAX as u64], Bytes::Exactly(28), |bench, given| {
        bench.sender_open(given.numbers[0] as u16, offer(given))
    }),
    command("sender request", &[], Bytes::Nothing, |bench, _| bench.sender_request()),
    command("sender reply", &[], Bytes::Any, |bench, given| bench.sender_reply(&given.bytes)),
    command("sender silence", &[], Bytes::Nothing, |bench, _| bench.sender_silence()),
    command("sender show", &[], Bytes::Nothing, |bench, _| bench.sender_show()),
];

fn ok() -> String {
    "ok".to_owned()
}

/// "channel(1), soft version(3), hard version(3), PID(8)"; the permit is number 2.
pub fn board(given: &Given) -> Board {
    Board {
        permit: given.numbers[1] == 1,
        channel: given.bytes[0],
        soft: given.part(1),
        hard: given.part(4),
        pid: given.part(7),
    }
}

/// "channel(1), PID(8), version(3), MD5(16)"
fn offer(given: &Given) -> Offer {
    Offer {
        channel: given.bytes[0],
        pid: given.part(1),
        version: given.part(9),
        md5: given.part(12),
    }
}
