//! The commands `set ..` and `sender set ..`: the fields of both records and how each is set.

use super::commands::{board, command, Bytes, Command, ANY, BOARD_BYTES, BOARD_NUMBERS};
use super::offer::Stage;
use super::record::{Phase, MOST_HELD};

const BYTE: u64 = u8::MAX as u64;
const TWO_BYTES: u64 = u16::MAX as u64;

/// The controller's record, in CONSOLE.md's order.
pub const CONTROLLER: &[Command] = &[
    command("set boards", &[ANY], Bytes::Nothing, |bench, given| {
        bench.set(|record| record.boards = given.numbers[0])
    }),
    command("set board", BOARD_NUMBERS, BOARD_BYTES, |bench, given| {
        bench.set(|record| record.list[given.numbers[0] as usize] = board(given))
    }),
    command("set opened", &[ANY], Bytes::Nothing, |bench, given| {
        bench.set(|record| record.opened = given.numbers[0])
    }),
    command("set holding", &[ANY], Bytes::Nothing, |bench, given| {
        bench.set(|record| record.holding = given.numbers[0])
    }),
    command("set held", &[MOST_HELD as u64 - 1], Bytes::Within(MOST_HELD), |bench, given| {
        let at = given.numbers[0] as usize;
        let end = at + given.bytes.len();
        bench.set(|record| record.held[at..end].copy_from_slice(&given.bytes))
    }),
    command("set phase idle", &[], Bytes::Nothing, |bench, _| {
        bench.set(|record| record.phase = Phase::Idle)
    }),
    command("set phase asked", &[], Bytes::Nothing, |bench, _| {
        bench.set(|record| record.phase = Phase::Asked)
    }),
    command("set phase told", &[], Bytes::Nothing, |bench, _| {
        bench.set(|record| record.phase = Phase::Told)
    }),
    command("set phase receiving", &[], Bytes::Nothing, |bench, _| {
        bench.set(|record| record.phase = Phase::Receiving)
    }),
    command("set phase done", &[], Bytes::Nothing, |bench, _| {
        bench.set(|record| record.phase = Phase::Done)
    }),
    command("set channel", &[BYTE], Bytes::Nothing, |bench, given| {
        bench.set(|record| record.channel = given.numbers[0] as u8)
    }),
    command("set agreed", &[ANY], Bytes::Nothing, |bench, given| {
        bench.set(|record| record.agreed = given.numbers[0])
    }),
    command("set next", &[ANY], Bytes::Nothing, |bench, given| {
        bench.set(|record| record.next = given.numbers[0])
    }),
    command("set stored", &[ANY], Bytes::Nothing, |bench, given| {
        bench.set(|record| record.stored = given.numbers[0])
    }),
    command("set image-channel", &[BYTE], Bytes::Nothing, |bench, given| {
        bench.set(|record| record.identity.channel = given.numbers[0] as u8)
    }),
    command("set version", &[], Bytes::Exactly(3), |bench, given| {
        bench.set(|record| record.identity.version = given.array())
    }),
    command("set announced", &[ANY], Bytes::Nothing, |bench, given| {
        bench.set(|record| record.identity.announced = given.numbers[0])
    }),
    command("set md5", &[], Bytes::Exactly(16), |bench, given| {
        bench.set(|record| record.identity.md5 = given.array())
    }),
    command("set crc", &[], Bytes::Exactly(4), |bench, given| {
        bench.set(|record| record.identity.crc = u32::from_be_bytes(given.array()))
    }),
    command("set last", &[ANY], Bytes::Nothing, |bench, given| {
        bench.set(|record| record.last = given.numbers[0])
    }),
    command("set checking", &[1], Bytes::Nothing, |bench, given| {
        bench.set(|record| record.check.running = given.numbers[0] == 1)
    }),
    command("set read", &[ANY], Bytes::Nothing, |bench, given| {
        bench.set(|record| record.check.read = given.numbers[0])
    }),
    command("set register", &[], Bytes::Exactly(4), |bench, given| {
        bench.set(|record| record.check.register = u32::from_be_bytes(given.array()))
    }),
];

/// The sender's record, in CONSOLE.md's order.
pub const SENDER: &[Command] = &[
    command("sender set channel", &[BYTE], Bytes::Nothing, |bench, given| {
        bench.sender_set(|sender| sender.channel = given.numbers[0] as u8)
    }),
    command("sender set pid", &[], Bytes::Exactly(8), |bench, given| {
        bench.sender_set(|sender| sender.pid = given.array())
    }),
    command("sender set version", &[], Bytes::Exactly(3), |bench, given| {
        bench.sender_set(|sender| sender.version = given.array())
    }),
    command("sender set md5", &[], Bytes::Exactly(16), |bench, given| {
        bench.sender_set(|sender| sender.md5 = given.array())
    }),
    command("sender set size", &[TWO_BYTES], Bytes::Nothing, |bench, given| {
        bench.sender_set(|sender| sender.size = given.numbers[0] as u16)
    }),
    command("sender set length", &[ANY], Bytes::Nothing, |bench, given| {
        bench.sender_set(|sender| sender.length = given.numbers[0])
    }),
    command("sender set phase asking", &[], Bytes::Nothing, |bench, _| {
        bench.sender_set(|sender| sender.stage = Stage::Asking)
    }),
    command("sender set phase telling", &[], Bytes::Nothing, |bench, _| {
        bench.sender_set(|sender| sender.stage = Stage::Telling)
    }),
    command("sender set phase placing", &[], Bytes::Nothing, |bench, _| {
        bench.sender_set(|sender| sender.stage = Stage::Placing)
    }),
    command("sender set phase sending", &[], Bytes::Nothing, |bench, _| {
        bench.sender_set(|sender| sender.stage = Stage::Sending)
    }),
    command("sender set phase ending", &[], Bytes::Nothing, |bench, _| {
        bench.sender_set(|sender| sender.stage = Stage::Ending)
    }),
    command("sender set phase done", &[], Bytes::Nothing, |bench, _| {
        bench.sender_set(|sender| sender.stage = Stage::Done)
    }),
    command("sender set phase given-up", &[], Bytes::Nothing, |bench, _| {
        bench.sender_set(|sender| sender.stage = Stage::GivenUp)
    }),
    command("sender set place", &[ANY], Bytes::Nothing, |bench, given| {
        bench.sender_set(|sender| sender.place = given.numbers[0])
    }),
    command("sender set number", &[ANY], Bytes::Nothing, |bench, given| {
        bench.sender_set(|sender| sender.number = given.numbers[0])
    }),
    command("sender set silences", &[ANY], Bytes::Nothing, |bench, given| {
        bench.sender_set(|sender| sender.silences = given.numbers[0])
    }),
    command("sender set legs", &[ANY], Bytes::Nothing, |bench, given| {
        bench.sender_set(|sender| sender.legs = given.numbers[0])
    }),
];
