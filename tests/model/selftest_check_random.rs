//! Self-tests of the end check in slices (document 02, K5) at random: calls on
//! records against K5's wording, runs in slices against the check in one go.

use crate::check::{EndCheck, Portion, Verdict};
use crate::crc::{crc32, crc32_over, CRC32_START};
use crate::frame::parse;
use crate::generate::{generate, KINDS};
use crate::receiver::{Outcome, Receiver, Report, REPLY_ROOM};
use crate::replay::BENCH_AREA;
use crate::rng::Rng;
use crate::selftest::{bitwise_crc32_over, Desk, Tally};
use crate::selftest_check::{after_verdict, boards, FALSE_HEAD, LEFTOVERS, UNWRITTEN};
use crate::session::{Identity, Phase, Session};
use crate::wire::{self, Image};

pub fn run(t: &mut Tally) {
    random_calls(t);
    random_runs(t);
}

/// The opened length for calls on random records.
const SMALL_AREA: usize = 60;

/// One call on a random record, lawful or not, with random room and area.
fn random_calls(t: &mut Tally) {
    let rng = &mut Rng::new(22);
    let mut seen = [0_usize; 20];
    let mut verdicts = [0_usize; 3];
    for _ in 0..30_000 {
        let (mut lent, call, frame) = random_case(rng);
        let mut wanted = lent.clone();
        let wanted_told = wanted.worded_call(call, &frame);
        let before = lent.receiver.session.clone();
        let told = lent.call(call, &frame);
        seen[told.outcome() as usize] += 1;
        if let Told::OfPortion(_, portion) = told {
            verdicts[portion.verdict as usize] += 1;
        }
        t.same(&format!("{call:?} of {frame:02X?} on {before:?}"), told, wanted_told);
        t.same("... the session", &lent.receiver.session, &wanted.receiver.session);
        t.holds("... all that is lent", lent == wanted);
    }
    for outcome in [0, 2, 3, 4, 5, 6, 9, 10, 12, 18, 19] {
        t.holds(&format!("outcome {outcome} turns up, random calls"), seen[outcome] > 100);
    }
    t.holds("all verdicts turn up", verdicts.iter().all(|&count| count > 100));
}

/// All that a call can change.
#[derive(Clone, PartialEq)]
struct Lent {
    receiver: Receiver,
    area: Vec<u8>,
    room: Vec<u8>,
}

#[derive(Clone, Copy, Debug)]
enum Call {
    Feed,
    Quiet,
    Portion(usize),
}

/// What a call tells.
#[derive(Debug, PartialEq)]
enum Told {
    OfFrame(Report),
    OfPortion(Outcome, Portion),
}

impl Told {
    fn outcome(&self) -> Outcome {
        match self {
            Told::OfFrame(report) => report.outcome,
            Told::OfPortion(outcome, _) => *outcome,
        }
    }
}

impl Lent {
    /// Makes the call; a feeding call is given the frame, a quiet one finds it held.
    fn call(&mut self, call: Call, frame: &[u8]) -> Told {
        let Lent { receiver, area, room } = self;
        match call {
            Call::Feed => Told::OfFrame(receiver.feed(frame, area, room)),
            Call::Quiet => Told::OfFrame(receiver.quiet(area, room)),
            Call::Portion(most) => {
                let (outcome, portion) = receiver.portion(most, area, room);
                Told::OfPortion(outcome, portion)
            }
        }
    }

    /// The call as K5 words it, by what the model does on the record without a
    /// check.
    fn worded_call(&mut self, call: Call, frame: &[u8]) -> Told {
        match (self.refusal(), call) {
            (None, Call::Portion(most)) => {
                let (outcome, portion) = self.worded_portion(most);
                Told::OfPortion(outcome, portion)
            }
            (None, _) => Told::OfFrame(self.worded_frame(call, frame)),
            (Some(outcome), Call::Portion(_)) => Told::OfPortion(outcome, Portion::default()),
            (Some(outcome), _) => Told::OfFrame(refused(outcome)),
        }
    }

    /// "Calls check 9, 6, 5".
    fn refusal(&self) -> Option<Outcome> {
        let session = &self.receiver.session;
        let EndCheck { running, read, .. } = session.check;
        let announced = session.identity.length;
        let mut unchecked = self.receiver.clone();
        unchecked.session.check = EndCheck::default();
        let unlawful = !unchecked.lawful()
            || running && read >= u64::from(announced)
            || running && session.stored != announced
            || running && session.phase != Phase::Receiving && session.phase != Phase::Done;
        if unlawful {
            Some(Outcome::BadRecord)
        } else if self.area.len() != SMALL_AREA {
            Some(Outcome::OtherArea)
        } else if self.room.len() < 33 {
            Some(Outcome::SmallRoom)
        } else {
            None
        }
    }

    fn worded_portion(&mut self, most: usize) -> (Outcome, Portion) {
        let session = self.receiver.session.clone();
        if !session.check.running {
            return (Outcome::NoCheck, Portion::default());
        }
        let (announced, read) = (session.identity.length as usize, session.check.read as usize);
        let count = if most < announced - read { most } else { announced - read };
        let bytes = &self.area[read..read + count];
        let register = bitwise_crc32_over(session.check.register, bytes);
        if read + count < announced {
            let read = (read + count) as u64;
            self.receiver.session.check = EndCheck { running: true, read, register };
            return (Outcome::CheckUnfinished, Portion { count, ..Portion::default() });
        }
        let right = !register == session.identity.crc32;
        self.receiver.session = after_verdict(&session, right);
        let (verdict, state) = if right { (Verdict::Right, 0) } else { (Verdict::Wrong, 3) };
        let reply = self.write(&wire::frame(0x00, 0xFE, &[session.channel, state]));
        (Outcome::Answered, Portion { count, verdict, reply })
    }

    /// Without a check the frame is answered as by 01, but for FE; 12 stands in for
    /// whatever would come after 4.
    fn worded_frame(&mut self, call: Call, frame: &[u8]) -> Report {
        let before = self.clone();
        let check = before.receiver.session.check;
        self.receiver.session.check = EndCheck::default();
        let Told::OfFrame(report) = self.call(call, frame) else { unreachable!() };
        let judged = matches!(report.outcome, Outcome::Answered | Outcome::OutOfTurn);
        if judged && report.command != 0xF9 && (check.running || report.command == 0xFE) {
            self.receiver.session = before.receiver.session;
            (self.area, self.room) = (before.area, before.room);
            if check.running {
                return Report { outcome: Outcome::CheckRunning, reply: 0, ..report };
            }
            return Report { reply: self.worded_end(frame[6]), ..report };
        }
        self.receiver.session.check = check;
        report
    }

    /// FE on a record on which no check runs; the reply's length.
    fn worded_end(&mut self, channel: u8) -> usize {
        let session = &mut self.receiver.session;
        match end_before_crc(session, channel) {
            Some(state) => self.write(&wire::frame(0x00, 0xFE, &[channel, state])),
            None => {
                session.check = EndCheck { running: true, read: 0, register: 0xFFFF_FFFF };
                0
            }
        }
    }

    fn write(&mut self, reply: &[u8]) -> usize {
        self.room[..reply.len()].copy_from_slice(reply);
        reply.len()
    }
}

fn refused(outcome: Outcome) -> Report {
    Report { outcome, taken: 0, dropped: 0, command: 0, length: 0, reply: 0 }
}

/// The state of an FE that does not get as far as the CRC.
fn end_before_crc(session: &Session, channel: u8) -> Option<u8> {
    match session.phase {
        Phase::Idle | Phase::Asked | Phase::Told => Some(3),
        _ if channel != session.channel => Some(3),
        _ if session.stored != session.identity.length => Some(1),
        _ => None,
    }
}

/// A record, a call, and the frame that the call is given or finds held.
fn random_case(rng: &mut Rng) -> (Lent, Call, Vec<u8>) {
    let front = rng.bytes(SMALL_AREA);
    let session = random_session(rng, &front);
    let frame = random_frame(rng, &session);
    let call = match rng.below(10) {
        0..=3 => Call::Feed,
        4 | 5 => Call::Quiet,
        _ => Call::Portion(rng.pick(&[0, 1, 2, 15, 30, 59, 60, 61, usize::MAX])),
    };
    let mut receiver = Receiver::open(&boards(), SMALL_AREA).unwrap();
    let (mut area, mut room) = (front, vec![UNWRITTEN; 40]);
    let held = match call {
        Call::Feed => Vec::new(),
        Call::Quiet => [&FALSE_HEAD[..], &frame].concat(),
        Call::Portion(_) => FALSE_HEAD[..rng.below(7)].to_vec(),
    };
    receiver.feed(&held, &mut area, &mut room);
    receiver.session = session;
    if rng.chance(60) {
        area.resize(rng.pick(&[0, 59, 61, 100]), 0);
    }
    room.truncate(if rng.chance(60) { rng.pick(&[0, 9, 32]) } else { rng.between(33, 40) });
    (Lent { receiver, area, room }, call, frame)
}

/// A session of which most fields are lawful; the check, if it runs, mostly is.
fn random_session(rng: &mut Rng, area: &[u8]) -> Session {
    let odd = |rng: &mut Rng| rng.chance(50);
    let length = if odd(rng) { rng.pick(&[0, 61, u32::MAX]) } else { rng.between(1, 60) as u32 };
    let running = rng.chance(500);
    let complete = if running { !odd(rng) } else { rng.chance(600) };
    let stored = if complete { length } else { rng.below(length.min(60) as usize + 2) as u32 };
    let phases = [Phase::Idle, Phase::Asked, Phase::Told, Phase::Receiving, Phase::Done];
    let advanced = if running { !odd(rng) } else { rng.chance(600) };
    let phase = if advanced { rng.pick(&phases[3..]) } else { rng.pick(&phases) };
    let read = if odd(rng) { rng.pick(&[length, u32::MAX]) } else { rng.below(60) as u32 };
    let read = if running && !odd(rng) { read % length.max(1) } else { read };
    let register = match area.get(..read as usize) {
        Some(bytes) if rng.chance(900) => crc32_over(CRC32_START, bytes),
        _ => rng.next() as u32,
    };
    let image = area.get(..length as usize).unwrap_or(area);
    Session {
        phase,
        channel: if odd(rng) { rng.pick(&[0, 11]) } else { rng.pick(&[10, 10, 12]) },
        packet_size: if odd(rng) { rng.pick(&[0, 15, 513]) } else { rng.pick(&[16, 512]) },
        next_number: if odd(rng) { 65_537 } else { rng.pick(&[0, 1, 2, 65_536]) },
        stored,
        last_packet: if odd(rng) { rng.pick(&[61, 513]) } else { stored.min(9) as u16 },
        identity: Identity {
            channel: 10,
            version: [1, 0, 3],
            length,
            md5: [1; 16],
            crc32: if rng.chance(700) { crc32(image) } else { rng.next() as u32 },
        },
        check: EndCheck { running, read: u64::from(read), register },
    }
}

/// Any frame, with the session's own values where they are asked for.
fn random_frame(rng: &mut Rng, session: &Session) -> Vec<u8> {
    let channel = rng.pick(&[10, 10, 10, 12, 19, 13, session.channel]);
    let identity = session.identity;
    let mut image = Image::new(identity.version, 1, b"another image".to_vec());
    if rng.chance(500) {
        (image.length, image.crc32) = (identity.length, identity.crc32);
    }
    let n = rng.between(1, 20);
    let bytes = rng.bytes(n);
    let frame = match rng.below(9) {
        0 => wire::f9(rng.byte()),
        1 => wire::fa(channel, rng.pick(&[15, 16, 600])),
        2 => wire::fb(channel, &image),
        3 => wire::fc(channel, rng.pick(&[0, session.stored])),
        4 | 5 => wire::fd(channel, session.next_number as u16, &bytes),
        _ => wire::fe(channel),
    };
    let read = parse(&frame).unwrap();
    match rng.below(12) {
        0 => wire::frame(read.version ^ 0x10, read.command, read.data),
        1 => wire::frame(read.version, read.command, &[read.data, &[channel]].concat()),
        2 => wire::frame(read.version, rng.pick(&[0x00, 0xF8, 0xFF]), read.data),
        _ => frame,
    }
}

/// What a run comes to: outcome and reply of each frame, record and area at the
/// end.
#[derive(PartialEq)]
struct Ended {
    answers: Vec<(u8, Vec<u8>)>,
    session: Session,
    area: Vec<u8>,
}

/// Demand 3's runs with portion calls in the list, refused ones included, against
/// the plain run, which "checks in one go, then zeroes the check's own fields".
fn random_runs(t: &mut Tally) {
    let rng = &mut Rng::new(23);
    let (mut right, mut wrong) = (0, 0);
    for round in 0..220 {
        let (kind, seed) = (KINDS[round % (KINDS.len() - 1)], rng.next());
        let capture = generate(kind, seed).unwrap();
        let start = rng.pick(&[EndCheck::default(), LEFTOVERS]);
        let plain = plain_run(&capture, start);
        let sliced = sliced_run(rng, &capture, start);
        t.holds(&format!("a run in slices, {kind} {seed}"), sliced.as_ref() == Some(&plain.ended));
        right += plain.right;
        wrong += plain.wrong;
    }
    t.holds("checks of both verdicts turn up", right > 50 && wrong > 20);
}

/// The plain run, and how many of its checks were right or wrong.
struct Plain {
    ended: Ended,
    right: usize,
    wrong: usize,
}

fn plain_run(capture: &[u8], start: EndCheck) -> Plain {
    let mut desk = Desk::new();
    desk.receiver.session.check = start;
    let (mut answers, mut right, mut wrong) = (Vec::new(), 0, 0);
    let mut rest = capture;
    while !rest.is_empty() {
        let Some(frame) = parse(rest) else {
            rest = &rest[1..];
            continue;
        };
        let (bytes, after) = rest.split_at(frame.wire_len());
        rest = after;
        let session = &desk.receiver.session;
        if bytes == wire::fe(10) && end_before_crc(session, 10).is_none() {
            let image = &desk.area[..session.identity.length as usize];
            let equal = crc32(image) == session.identity.crc32;
            desk.receiver.session = after_verdict(session, equal);
            let state = if equal { 0 } else { 3 };
            answers.push((0, wire::frame(0x00, 0xFE, &[10, state])));
            (right, wrong) = if equal { (right + 1, wrong) } else { (right, wrong + 1) };
        } else {
            answers.push(desk.send(bytes));
        }
    }
    let ended = Ended { answers, session: desk.receiver.session, area: desk.area };
    Plain { ended, right, wrong }
}

/// A run in slices under way.
struct SlicedRun<'a> {
    desk: Desk,
    answers: Vec<(u8, Vec<u8>)>,
    /// The bytes not yet taken.
    rest: &'a [u8],
    /// A quiet call was not refused and found no frame.
    quiet_told: bool,
    /// No call has said anything that it must not say.
    sound: bool,
}

/// The run by feeding calls at random cuts, quiet calls, and portion calls of any
/// size at any time; checks are finished before feeding on. None if a call that
/// must be refused is not.
fn sliced_run(rng: &mut Rng, capture: &[u8], start: EndCheck) -> Option<Ended> {
    let mut desk = Desk::new();
    desk.receiver.session.check = start;
    let (answers, rest) = (Vec::new(), capture);
    let mut run = SlicedRun { desk, answers, rest, quiet_told: false, sound: true };
    let piece = rng.pick(&[1, 20, 600, 5_000]).max(capture.len() / 500);
    while run.sound && !run.over() {
        if rng.chance(100) {
            run.refused_calls(rng);
        }
        if run.checking() {
            run.portion(rng.pick(&[0, 1, 30, 500, 3_000, 70_000]));
        } else {
            run.no_check(rng.below(100));
            run.feed_or_quiet(rng.between(0, piece));
        }
    }
    let Desk { receiver, area } = run.desk;
    let ended = Ended { answers: run.answers, session: receiver.session, area };
    run.sound.then_some(ended)
}

impl SlicedRun<'_> {
    fn checking(&self) -> bool {
        self.desk.receiver.session.check.running
    }

    /// "the run has ended once a quiet call that was not refused came and nothing is
    /// held"; K5's runs "have not ended while one runs".
    fn over(&self) -> bool {
        let nothing_held = self.desk.receiver.reader().held().is_empty();
        self.quiet_told && nothing_held && !self.checking()
    }

    /// A portion of the check that FE, the last frame, has started.
    fn portion(&mut self, most: usize) {
        let (outcome, portion, room) = self.desk.call_portion(most);
        match (outcome, self.answers.last_mut()) {
            (Outcome::CheckUnfinished, _) => {}
            (Outcome::Answered, Some(answer)) => answer.1 = room[..portion.reply].to_vec(),
            _ => self.sound = false,
        }
    }

    /// A portion call while no check runs.
    fn no_check(&mut self, most: usize) {
        let before = self.desk.receiver.clone();
        self.sound &= self.desk.call_portion(most).0 == Outcome::NoCheck;
        self.sound &= self.desk.receiver == before;
    }

    /// Offers at most `most` of the bytes not yet taken; if none is left, quiet.
    fn feed_or_quiet(&mut self, most: usize) {
        let Desk { receiver, area } = &mut self.desk;
        let mut room = [UNWRITTEN; REPLY_ROOM];
        let report = if self.rest.is_empty() {
            self.quiet_told = true;
            receiver.quiet(area, &mut room)
        } else {
            receiver.feed(&self.rest[..most.min(self.rest.len())], area, &mut room)
        };
        self.rest = &self.rest[report.taken..];
        if report.outcome != Outcome::NoFrame {
            self.answers.push((report.outcome as u8, room[..report.reply].to_vec()));
        }
    }

    /// Calls of all three kinds with a short room or another area.
    fn refused_calls(&mut self, rng: &mut Rng) {
        let before = self.desk.receiver.clone();
        let Desk { receiver, area } = &mut self.desk;
        let other_area = &mut vec![0; rng.pick(&[0, BENCH_AREA - 1])];
        let short = &mut [UNWRITTEN; REPLY_ROOM - 1];
        let (new, most) = (self.rest, rng.below(100));
        self.sound &= receiver.feed(new, area, short).outcome == Outcome::SmallRoom
            && receiver.quiet(area, short).outcome == Outcome::SmallRoom
            && receiver.portion(most, area, short).0 == Outcome::SmallRoom
            && receiver.feed(new, other_area, short).outcome == Outcome::OtherArea
            && receiver.quiet(other_area, short).outcome == Outcome::OtherArea
            && receiver.portion(most, other_area, short).0 == Outcome::OtherArea
            && *receiver == before;
    }
}
