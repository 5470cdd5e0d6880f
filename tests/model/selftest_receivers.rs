//! Self-test of the model's two receivers: the one behind `replay` and `exchange`, and
//! the console's, which shares no code with it, must say the same to the same calls.

use crate::check::EndCheck;
use crate::console::controller::{self, Fed};
use crate::console::record::{self, Check, Record, MOST_BOARDS};
use crate::generate::{generate, KINDS};
use crate::receiver::{Receiver, Report, REPLY_ROOM};
use crate::replay::{bench_receiver, BENCH_AREA, BENCH_BOARD};
use crate::rng::Rng;
use crate::selftest::Tally;
use crate::session::{Board, Identity, Phase, Session};

/// Captures of all kinds but the long one, in pieces of any size, with quiet calls and
/// portions of any size between them.
pub fn run(t: &mut Tally) {
    let mut rng = Rng::new(11);
    for round in 0..110 {
        let kind = KINDS[round % (KINDS.len() - 1)];
        let capture = generate(kind, rng.next()).expect("KINDS has it");
        let mut both = Both::new();
        let mut rest = &capture[..];
        while !rest.is_empty() {
            let piece = rng.between(0, rest.len().min(600));
            rest = &rest[both.feed(t, &rest[..piece])..];
            if rng.chance(10) {
                both.quiet(t);
            }
            // Now and then a check that runs waits, and a frame meets 12.
            while both.record.check.running && rng.chance(900) {
                both.portion(t, rng.pick(&[0, 1, 64, 1_000, usize::MAX]));
            }
        }
        both.portion(t, usize::MAX);
        while both.record.holding > 0 {
            both.quiet(t);
        }
    }
}

/// Both receivers with the bench board, each with an area and a room of its own.
struct Both {
    receiver: Receiver,
    area: Vec<u8>,
    room: [u8; REPLY_ROOM],
    record: Record,
    console_area: Vec<u8>,
    console_room: [u8; REPLY_ROOM],
}

impl Both {
    fn new() -> Self {
        let Board { channel, soft, hard, pid, permit } = BENCH_BOARD;
        let mut list = [record::Board::default(); MOST_BOARDS];
        list[0] = record::Board { permit, channel, soft, hard, pid };
        Both {
            receiver: bench_receiver(),
            area: vec![0; BENCH_AREA],
            room: [0; REPLY_ROOM],
            record: controller::open(&list, 1, BENCH_AREA as u64).1,
            console_area: vec![0; BENCH_AREA],
            console_room: [0; REPLY_ROOM],
        }
    }

    /// A feeding call; how many bytes it took.
    fn feed(&mut self, t: &mut Tally, new: &[u8]) -> usize {
        let report = self.receiver.feed(new, &mut self.area, &mut self.room);
        let (area, room) = (&mut self.console_area, &mut self.console_room);
        let fed = controller::feed(&mut self.record, area, room, new);
        self.same_call(t, "a feeding call", &report, &fed);
        report.taken
    }

    fn quiet(&mut self, t: &mut Tally) {
        let report = self.receiver.quiet(&mut self.area, &mut self.room);
        let (area, room) = (&mut self.console_area, &mut self.console_room);
        let fed = controller::quiet(&mut self.record, area, room);
        self.same_call(t, "a quiet call", &report, &fed);
    }

    fn portion(&mut self, t: &mut Tally, most: usize) {
        let (outcome, portion) = self.receiver.portion(most, &self.area, &mut self.room);
        let (area, room) = (&self.console_area, &mut self.console_room);
        let told = controller::portion(&mut self.record, area, room, most as u64);
        let numbers = [outcome as usize, portion.count, portion.reply];
        t.same(
            "a portion",
            [told.outcome.number().into(), told.count as usize, told.reply],
            numbers,
        );
        let verdict = format!("{:?}", portion.verdict);
        t.same("its verdict", format!("{:?}", told.verdict), verdict);
        self.same_state(t);
    }

    fn same_call(&self, t: &mut Tally, what: &str, report: &Report, fed: &Fed) {
        let Report { outcome, taken, dropped, command, length, reply } = *report;
        let wanted = [outcome as usize, taken, dropped, command.into(), length, reply];
        let Fed { ref outcome, taken, dropped, command, length, reply } = *fed;
        let got = [outcome.number().into(), taken, dropped, command.into(), length, reply];
        t.same(what, got, wanted);
        self.same_state(t);
    }

    /// Records, areas and rooms are the same.
    fn same_state(&self, t: &mut Tally) {
        t.same("the record", &self.record, &record_of(&self.receiver, &self.record));
        t.holds("the area", self.console_area == self.area);
        t.same("the room", self.console_room, self.room);
    }
}

const PHASES: [(Phase, record::Phase); 5] = [
    (Phase::Idle, record::Phase::Idle),
    (Phase::Asked, record::Phase::Asked),
    (Phase::Told, record::Phase::Told),
    (Phase::Receiving, record::Phase::Receiving),
    (Phase::Done, record::Phase::Done),
];

/// The receiver as a record of the console's, with this one's list and opened length.
pub fn record_of(receiver: &Receiver, base: &Record) -> Record {
    let session = receiver.session();
    let Identity { channel, version, length, md5, crc32 } = session.identity;
    let EndCheck { running, read, register } = session.check;
    let phase = PHASES.iter().find(|pair| pair.0 == session.phase).map(|pair| pair.1);
    Record {
        holding: receiver.reader().held().len() as u64,
        held: receiver.reader().held_places(),
        phase: phase.expect("PHASES has them all"),
        channel: session.channel,
        agreed: session.packet_size,
        next: session.next_number.into(),
        stored: session.stored.into(),
        identity: record::Identity { channel, version, announced: length.into(), md5, crc: crc32 },
        last: session.last_packet.into(),
        check: Check { running, read, register },
        boards: base.boards,
        list: base.list,
        opened: base.opened,
    }
}

/// A receiver in this record's state; none if its fields cannot have such values.
pub fn receiver_of(record: &Record) -> Option<Receiver> {
    let board = |board: &record::Board| {
        let record::Board { permit, channel, soft, hard, pid } = *board;
        Board { channel, soft, hard, pid, permit }
    };
    let boards: Vec<Board> = record.boards().iter().map(board).collect();
    let record::Identity { channel, version, announced, md5, crc } = record.identity;
    let Check { running, read, register } = record.check;
    let session = Session {
        phase: PHASES.iter().find(|pair| pair.1 == record.phase)?.0,
        channel: record.channel,
        packet_size: record.agreed,
        next_number: record.next.try_into().ok()?,
        stored: record.stored.try_into().ok()?,
        last_packet: record.last.try_into().ok()?,
        identity: Identity {
            channel,
            version,
            length: announced.try_into().ok()?,
            md5,
            crc32: crc,
        },
        check: EndCheck { running, read, register },
    };
    let held = record.held.get(..record.holding.try_into().ok()?)?;
    Receiver::with(&boards, record.opened.try_into().ok()?, held, session).ok()
}
