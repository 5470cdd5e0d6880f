//! Self-tests of the sender: every row of its tables, and what was decided where
//! K3's text is open ("gap" and its number).

use crate::crc::{crc16, crc32};
use crate::ends::{Action, End, Module};
use crate::frame::parse;
use crate::reader::Reader;
use crate::receiver::{Receiver, REPLY_ROOM};
use crate::replay::{BENCH_AREA, BENCH_BOARD, PORTION};
use crate::rng::Rng;
use crate::selftest::{unhex, Tally, P1, P3, P4, P6, P7, P8};
use crate::sender::{Decision, Offer, Outcome, Phase, Sender, MAX_IMAGE, REQUEST_ROOM};
use crate::stored::hex;
use crate::wire;
use crate::words::Words;

pub fn run(t: &mut Tally) {
    opening(t);
    lawful_records(t);
    refused_calls(t);
    requests(t);
    large_sizes(t);
    lent_image(t);
    taken_replies(t);
    every_reply(t);
    fields_not_looked_at(t);
    frames_that_are_none(t);
    resuming(t);
    offsets(t);
    legs_over(t);
    silences(t);
    all_silent(t);
    unlisted_channel(t);
    bench_example(t);
    random_walks(t);
}

const PHASES: [Phase; 7] = [
    Phase::Asking,
    Phase::Telling,
    Phase::Placing,
    Phase::Sending,
    Phase::Ending,
    Phase::Done,
    Phase::GivenUp,
];

const OFFER: Offer =
    Offer { channel: 10, pid: *b"PID-0001", version: [1, 0, 3], md5: [0x5D; 16], size: 16 };

/// Forty bytes, no two alike: packets of 16, 16 and 8.
fn forty() -> Vec<u8> {
    (0..40).map(|place| place * 5 + 1).collect()
}

/// A sender of forty bytes in this phase, two silences and one new leg behind it;
/// placing it asks for 16, sending it is at packet 1.
fn in_phase(phase: Phase) -> Sender {
    let (place, number) = match phase {
        Phase::Placing => (16, 0),
        Phase::Sending => (16, 1),
        _ => (0, 0),
    };
    Sender { offer: OFFER, length: 40, phase, place, number, silences: 2, new_legs: 1 }
}

/// The record after any decision but send again: silences, place and number 0.
fn after(phase: Phase) -> Sender {
    Sender { phase, place: 0, number: 0, silences: 0, ..in_phase(phase) }
}

fn fa_reply(channel: u8, flag: u8) -> Vec<u8> {
    wire::frame(0x00, 0xFA, &[channel, flag, 1, 0, 2, 2, 0])
}

fn fb_reply(channel: u8, state: u8, stored: u32, crc: u32) -> Vec<u8> {
    let mut data = vec![channel, state];
    data.extend(stored.to_be_bytes());
    data.extend(crc.to_be_bytes());
    data.extend([0; 16]);
    wire::frame(0x10, 0xFB, &data)
}

fn fd_reply(state: u8) -> Vec<u8> {
    wire::frame(0x00, 0xFD, &[10, state])
}

fn fe_reply(state: u8) -> Vec<u8> {
    wire::frame(0x00, 0xFE, &[10, state])
}

/// The reply that `in_phase` waits for; one at random for done and given up.
fn right_reply(phase: Phase) -> Vec<u8> {
    match phase {
        Phase::Asking => fa_reply(10, 0),
        Phase::Telling => fb_reply(10, 0, 16, crc32(&forty()[..16])),
        Phase::Placing => wire::fc(10, 16),
        Phase::Sending => fd_reply(0),
        Phase::Ending | Phase::Done | Phase::GivenUp => fe_reply(0),
    }
}

/// The request of a lawful record, by the call.
fn request(sender: &Sender, image: &[u8]) -> Vec<u8> {
    let mut room = [0xEE; REQUEST_ROOM + 3];
    let (outcome, length) = sender.next_request(image, &mut room);
    assert_eq!(outcome, Outcome::Taken, "a lawful record and its image");
    assert!(room[length..].iter().all(|&byte| byte == 0xEE), "room past the request");
    room[..length].to_vec()
}

/// A reply that is refused with 21 and changes nothing.
fn not_a_reply(t: &mut Tally, what: &str, sender: Sender, reply: &[u8]) {
    let wanted = (Outcome::NotAReply, Decision::None, sender);
    t.same(what, sender.reply(&forty(), reply), wanted);
}

/// A reply that is taken.
fn taken(t: &mut Tally, what: &str, sender: Sender, reply: &[u8], to: (Decision, Sender)) {
    t.same(what, sender.reply(&forty(), reply), (Outcome::Taken, to.0, to.1));
}

fn opening(t: &mut Tally) {
    let open = |size, length| Sender::open(Offer { size, ..OFFER }, &vec![7; length]);
    let fresh = |size, length| Sender { offer: Offer { size, ..OFFER }, length, ..all_zero() };
    for (size, length) in [(16, 1), (65_535, 1), (512, MAX_IMAGE as u64), (513, 40)] {
        let wanted = (Outcome::Taken, fresh(size, length));
        t.same("opening", open(size, length as usize), wanted);
    }
    let refused = (Outcome::Misfit, all_zero());
    t.same("opening, size 15", open(15, 40), refused);
    t.same("opening, size 0", open(0, 40), refused);
    t.same("opening, no image", open(16, 0), refused);
    t.same("opening, image too long", open(16, MAX_IMAGE + 1), refused);
    for channel in [0, 9, 20, 255] {
        let offer = Offer { channel, ..OFFER };
        let outcome = Sender::open(offer, &forty()).0;
        t.same("gap 3: a channel outside 10 to 19 is taken", outcome, Outcome::Taken);
    }
    t.holds("the all-zero record meets 9", !all_zero().lawful());
}

/// The all-zero record, field by field.
fn all_zero() -> Sender {
    Sender {
        offer: Offer { channel: 0, pid: [0; 8], version: [0; 3], md5: [0; 16], size: 0 },
        length: 0,
        phase: Phase::Asking,
        place: 0,
        number: 0,
        silences: 0,
        new_legs: 0,
    }
}

/// "Outcome 9 is given exactly when", each bound from both sides.
fn lawful_records(t: &mut Tally) {
    let mut check = |what: &str, phase, lawful: bool, change: fn(&mut Sender)| {
        let mut sender = in_phase(phase);
        change(&mut sender);
        t.same(&format!("{what}, {phase:?}"), sender.lawful(), lawful);
    };
    for phase in PHASES {
        check("as it stands", phase, true, |_| {});
        check("size 15", phase, false, |s| s.offer.size = 15);
        check("size 65,535", phase, true, |s| (s.offer.size, s.number) = (65_535, 0));
        check("length 0", phase, false, |s| (s.length, s.place, s.number) = (0, 0, 0));
        check("length 1,048,576", phase, true, |s| s.length = 1_048_576);
        check("length 1,048,577", phase, false, |s| s.length = 1_048_577);
        check("silences 3", phase, true, |s| s.silences = 3);
        check("silences 4", phase, false, |s| s.silences = 4);
        check("new legs 3", phase, true, |s| s.new_legs = 3);
        check("new legs 4", phase, false, |s| s.new_legs = 4);
        let looks = matches!(phase, Phase::Placing | Phase::Sending);
        check("place above length", phase, !looks, |s| s.place = 41);
        check("place 39", phase, true, |s| s.place = 39);
        check("place at length", phase, phase != Phase::Sending, |s| s.place = 40);
        check("any number", phase, phase != Phase::Sending, |s| s.number = u64::MAX);
    }
    let sending = Phase::Sending;
    check("packet 2 at 32", sending, true, |s| (s.place, s.number) = (32, 2));
    check("packet 2 at 31", sending, false, |s| (s.place, s.number) = (31, 2));
    check("packet 0 at 39", sending, true, |s| (s.place, s.number) = (39, 0));
    check("packets of 512, 1 at 512", sending, true, |s| {
        (s.offer.size, s.length, s.place, s.number) = (600, 2_000, 512, 1)
    });
    check("packets of 512, 1 at 511", sending, false, |s| {
        (s.offer.size, s.length, s.place, s.number) = (600, 2_000, 511, 1)
    });
    check("the last number", sending, true, |s| {
        (s.length, s.place, s.number) = (1_048_576, 1_048_575, 65_535)
    });
    check("a number above two bytes", sending, false, |s| {
        (s.length, s.place, s.number) = (1_048_576, 1_048_575, 65_536)
    });
    check("number times the packet in 32 bits", sending, false, |s| s.number = 1 << 28);
}

/// "checks in order": 9, 20, 5 and 9, 20, 21. Nothing is changed.
fn refused_calls(t: &mut Tally) {
    let image = forty();
    for phase in PHASES {
        let sender = in_phase(phase);
        let bad = Sender { silences: 4, ..sender };
        let mut room = vec![0xEE; 525];
        let mut next = |what: &str, sender: &Sender, image: &[u8], outcome| {
            t.same(what, sender.next_request(image, &mut room), (outcome, 0));
            t.holds("... the room stays", room.iter().all(|&byte| byte == 0xEE));
        };
        next("request: 9 before 20 and 5", &bad, &image[1..], Outcome::BadRecord);
        next("request: 9 before 5", &bad, &image, Outcome::BadRecord);
        next("request: 20 before 5", &sender, &image[1..], Outcome::Misfit);
        next("request: 5, in every phase", &sender, &image, Outcome::SmallRoom);
        let mut room = [0xEE; 526];
        t.same("room 526", sender.next_request(&image, &mut room).0, Outcome::Taken);

        let longer = [&image[..], &[0]].concat();
        let refused = |sender, outcome| (outcome, Decision::None, sender);
        for reply in [right_reply(phase), Vec::new()] {
            let got = bad.reply(&longer, &reply);
            t.same("reply: 9 before 20 and 21", got, refused(bad, Outcome::BadRecord));
            let got = bad.reply(&image, &reply);
            t.same("reply: 9 before 21", got, refused(bad, Outcome::BadRecord));
            let got = sender.reply(&longer, &reply);
            t.same("reply: 20 before 21", got, refused(sender, Outcome::Misfit));
        }
        t.same("silence: 9", bad.silence(&longer), refused(bad, Outcome::BadRecord));
        t.same("silence: 20", sender.silence(&longer), refused(sender, Outcome::Misfit));
        t.same("... no image", sender.silence(&[]), refused(sender, Outcome::Misfit));
    }
}

/// "Next request", every row; and "The controller's reader, holding nothing and
/// fed these bytes, takes all of them, drops none, and has that version, command
/// and data."
fn requests(t: &mut Tally) {
    let image = forty();
    let mut file = vec![10];
    file.extend(b"PID-0001");
    file.extend([1, 0, 3]);
    file.extend([0x5D; 16]);
    file.extend([0, 0, 0, 40]);
    file.extend(crc32(&image).to_be_bytes());
    let packet = |number: u8, bytes: &[u8]| {
        let mut data = vec![10, 0, number, 0, bytes.len() as u8];
        data.extend(crc16(bytes).to_be_bytes());
        data.extend(bytes);
        data
    };
    let sending = |place, number| Sender { place, number, ..in_phase(Phase::Sending) };
    let rows = [
        (in_phase(Phase::Asking), 0x00, 0xFA, vec![10, 0, 16]),
        (in_phase(Phase::Telling), 0x10, 0xFB, file),
        (in_phase(Phase::Placing), 0x00, 0xFC, vec![10, 0, 0, 0, 16]),
        (sending(0, 0), 0x10, 0xFD, packet(0, &image[..16])),
        (sending(16, 1), 0x10, 0xFD, packet(1, &image[16..32])),
        (sending(16, 0), 0x10, 0xFD, packet(0, &image[16..32])),
        (sending(32, 2), 0x10, 0xFD, packet(2, &image[32..])),
        (sending(39, 0), 0x10, 0xFD, packet(0, &image[39..])),
        (in_phase(Phase::Ending), 0x00, 0xFE, vec![10]),
    ];
    for (sender, version, command, data) in rows {
        let bytes = request(&sender, &image);
        let what = format!("request {command:02X}");
        t.same(&what, hex(&bytes), hex(&wire::frame(version, command, &data)));
        t.same("gap 1: asked for again, the same", request(&sender, &image), bytes.clone());
        let mut reader = Reader::default();
        let step = reader.feed(&bytes);
        t.same("taken and dropped", (step.taken, step.dropped), (bytes.len(), 0));
        let read = step.frame.map(|frame| (frame.version, frame.command, frame.data.to_vec()));
        t.same("read as that request", read, Some((version, command, data)));
    }
    for phase in [Phase::Done, Phase::GivenUp] {
        t.same("gap 7: no request", request(&in_phase(phase), &image), Vec::new());
    }
}

/// Sizes above 512: Len1 carries them, packets have 512.
fn large_sizes(t: &mut Tally) {
    let image: Vec<u8> = (0..1_100).map(|place| (place % 251) as u8).collect();
    for size in [512, 513, 65_535] {
        let (_, sender) = Sender::open(Offer { size, ..OFFER }, &image);
        let len1 = request(&sender, &image)[7..9].to_vec();
        t.same("gaps 4, 5: Len1 is the size", len1, size.to_be_bytes().to_vec());
        let mut sender = Sender { phase: Phase::Sending, ..sender };
        for (number, bytes) in image.chunks(512).enumerate() {
            let wanted = wire::fd(10, number as u16, bytes);
            t.same("gap 4: packets of 512", request(&sender, &image), wanted);
            sender = sender.reply(&image, &fd_reply(0)).2;
        }
        t.same("... then ending", sender.phase, Phase::Ending);
    }
    let longest = vec![3; MAX_IMAGE];
    let (_, fresh) = Sender::open(OFFER, &longest);
    let place = MAX_IMAGE as u64 - 16;
    let last = Sender { phase: Phase::Sending, place, number: 65_535, ..fresh };
    t.same("the last number", request(&last, &longest), wire::fd(10, 65_535, &[3; 16]));
    let (_, decision, ending) = last.reply(&longest, &fd_reply(0));
    let wanted = (Decision::GoOn, Sender { phase: Phase::Ending, ..fresh });
    t.same("... and then ending", (decision, ending), wanted);
}

/// Only the length of the lent image is judged.
fn lent_image(t: &mut Tally) {
    let mut image = forty();
    let (telling, sending) = (in_phase(Phase::Telling), in_phase(Phase::Sending));
    let crc = |bytes: &[u8]| bytes[38..42].to_vec();
    let before = crc(&request(&telling, &image));
    t.same("FB's CRC-32", &before, &crc32(&image).to_be_bytes().to_vec());
    image[20] ^= 1;
    let now = crc(&request(&telling, &image));
    t.same("gap 2: FB's CRC-32 is the lent image's", &now, &crc32(&image).to_be_bytes().to_vec());
    t.holds("... which is another", now != before);
    let packet = wire::fd(10, 1, &image[16..32]);
    t.same("gap 22: a packet is the lent image's", request(&sending, &image), packet);
    let outcome = sending.reply(&image, &fd_reply(0)).0;
    t.same("gap 22: a changed byte is not refused", outcome, Outcome::Taken);
}

/// "Replies", every row that is taken.
fn taken_replies(t: &mut Tally) {
    let image = forty();
    let go_on = |phase| (Decision::GoOn, after(phase));
    let given_up = (Decision::GivenUp, after(Phase::GivenUp));
    let new_leg = (Decision::NewLeg, Sender { new_legs: 2, ..after(Phase::Asking) });

    let asking = in_phase(Phase::Asking);
    taken(t, "flag 0", asking, &fa_reply(10, 0), go_on(Phase::Telling));
    taken(t, "flag 1", asking, &fa_reply(10, 1), given_up);

    let telling = in_phase(Phase::Telling);
    let placing = |place| (Decision::GoOn, Sender { place, ..after(Phase::Placing) });
    taken(t, "FB 00, nothing stored", telling, &fb_reply(10, 0, 0, 0), placing(0));
    for stored in [1, 16, 39, 40] {
        let reply = fb_reply(10, 0, stored, crc32(&image[..stored as usize]));
        taken(t, &format!("FB 00, stored {stored}"), telling, &reply, placing(stored.into()));
    }
    for state in 1..=3 {
        taken(t, &format!("FB 0{state}"), telling, &fb_reply(10, state, 0, 0), given_up);
    }

    let sending = |place, number| Sender { place, number, ..after(Phase::Sending) };
    let at = |place, number| Sender { place, number, ..in_phase(Phase::Sending) };
    let next = (Decision::GoOn, sending(16, 1));
    taken(t, "FD 00, packet 0", at(0, 0), &fd_reply(0), next);
    let next = (Decision::GoOn, sending(32, 2));
    taken(t, "FD 00, packet 1", at(16, 1), &fd_reply(0), next);
    let next = (Decision::GoOn, sending(25, 1));
    taken(t, "FD 00, a resumed leg", at(9, 0), &fd_reply(0), next);
    taken(t, "FD 00, the last, short", at(32, 2), &fd_reply(0), go_on(Phase::Ending));
    taken(t, "FD 00, the last, full", at(24, 1), &fd_reply(0), go_on(Phase::Ending));
    for state in 1..=4 {
        taken(t, &format!("never on after FD 0{state}"), at(16, 1), &fd_reply(state), new_leg);
    }

    let ending = in_phase(Phase::Ending);
    taken(t, "FE 00", ending, &fe_reply(0), (Decision::Done, after(Phase::Done)));
    taken(t, "FE 01", ending, &fe_reply(1), new_leg);
    taken(t, "FE 03", ending, &fe_reply(3), new_leg);
    not_a_reply(t, "gap 16: FE 02", ending, &fe_reply(2));
}

/// What each phase takes, as the table says it, of a frame whose second byte of
/// data is `state` and whose last two are 02 00.
fn tabled(phase: Phase, head: (u8, u8, usize, u8), state: u8) -> Decision {
    const FILE_STATES: [Decision; 4] =
        [Decision::GoOn, Decision::GivenUp, Decision::GivenUp, Decision::GivenUp];
    const PACKET_STATES: [Decision; 5] =
        [Decision::GoOn, Decision::NewLeg, Decision::NewLeg, Decision::NewLeg, Decision::NewLeg];
    const END_STATES: [Decision; 4] =
        [Decision::Done, Decision::NewLeg, Decision::None, Decision::NewLeg];
    let states: &[Decision] = match (phase, head) {
        (Phase::Asking, (0x00, 0xFA, 7, 10)) => &[Decision::GoOn, Decision::GivenUp],
        (Phase::Telling, (0x10, 0xFB, 26, 10)) => &FILE_STATES,
        (Phase::Sending, (0x00, 0xFD, 2, 10)) => &PACKET_STATES,
        (Phase::Ending, (0x00, 0xFE, 2, 10)) => &END_STATES,
        _ => &[],
    };
    states.get(usize::from(state)).copied().unwrap_or(Decision::None)
}

/// Replies of every command, version byte, L, channel and state in every phase:
/// "In each phase only the reply to its own request is taken; else 21."
fn every_reply(t: &mut Tally) {
    let mut done = 0;
    for phase in PHASES {
        let sender = in_phase(phase);
        for (version, command) in [0x00, 0x10, 0x01, 0xFF]
            .into_iter()
            .flat_map(|version| (0xF8..=0xFF).map(move |command: u8| (version, command)))
        {
            for (length, channel) in [0, 1, 2, 3, 4, 5, 6, 7, 8, 25, 26, 27, 36]
                .into_iter()
                .flat_map(|length| [10, 11, 0].map(|channel| (length, channel)))
            {
                for state in [0, 1, 2, 3, 4, 5, 16, 255] {
                    let mut data = vec![0; length];
                    if length >= 4 {
                        data[length - 2] = 2; // Len2; in an FC an offset never given
                    }
                    data.iter_mut().zip([channel, state]).for_each(|(byte, value)| *byte = value);
                    let channel = data.first().copied().unwrap_or(0);
                    let state = data.get(1).copied().unwrap_or(0);
                    let wanted = tabled(phase, (version, command, length, channel), state);
                    let reply = wire::frame(version, command, &data);
                    let (outcome, decision, next) = sender.reply(&forty(), &reply);
                    let number = if wanted == Decision::None { 21 } else { 0 };
                    let what = format!("{phase:?} and {}", hex(&reply));
                    t.same(&what, (outcome as u8, decision), (number, wanted));
                    if wanted == Decision::None {
                        t.same(&format!("{what}: nothing changes"), next, sender);
                    }
                    done += usize::from(decision == Decision::Done);
                }
            }
        }
    }
    t.same("done only on FE 00", done, 1);
}

/// "Fields not named here are not looked at", and those beside them that are.
fn fields_not_looked_at(t: &mut Tally) {
    let asking = in_phase(Phase::Asking);
    let telling = in_phase(Phase::Telling);
    let on = (Decision::GoOn, after(Phase::Telling));
    for version in [[0, 0, 0], [1, 0, 3], [9, 9, 9], [255; 3]] {
        let [a, b, c] = version;
        let reply = wire::frame(0x00, 0xFA, &[10, 0, a, b, c, 2, 0]);
        taken(t, "gap 21: FA's version is not looked at", asking, &reply, on);
    }
    for len2 in [0_u16, 2, 511, 513, 0x0300, 0xFFFF] {
        let [high, low] = len2.to_be_bytes();
        for flag in [0, 1] {
            let reply = wire::frame(0x00, 0xFA, &[10, flag, 1, 0, 2, high, low]);
            not_a_reply(t, &format!("Len2 {len2}, flag {flag}"), asking, &reply);
        }
    }
    let given_up = (Decision::GivenUp, after(Phase::GivenUp));
    for state in 1..=3 {
        for (stored, crc) in [(16, 0), (0, 7), (u32::MAX, u32::MAX)] {
            let reply = fb_reply(10, state, stored, crc);
            taken(t, "gap 15: stored beside a refusal", telling, &reply, given_up);
        }
    }
    let reply = right_reply(Phase::Telling);
    let data: Vec<u8> = [&reply[6..16], &[0xA5; 16]].concat();
    let placing = Sender { place: 16, ..after(Phase::Placing) };
    let with_md5 = wire::frame(0x10, 0xFB, &data);
    taken(t, "FB's MD5 field", telling, &with_md5, (Decision::GoOn, placing));
}

/// "not exactly one whole frame", in every phase; and a reply that is one, of
/// another channel or after the end.
fn frames_that_are_none(t: &mut Tally) {
    for phase in PHASES {
        let (sender, reply) = (in_phase(phase), right_reply(phase));
        let mut refuse = |what: &str, bytes: &[u8]| {
            not_a_reply(t, &format!("{what}, {phase:?}"), sender, bytes);
        };
        for cut in 0..reply.len() {
            refuse("a frame cut short", &reply[..cut]);
        }
        refuse("gap 19: a byte after the frame", &[&reply[..], &[0]].concat());
        refuse("gap 19: two frames", &[&reply[..], &reply].concat());
        refuse("a byte before the frame", &[&[0], &reply[..]].concat());
        let mut wrong = reply.clone();
        wrong[reply.len() - 1] ^= 1;
        refuse("a wrong sum", &wrong);
        for channel in [0, 9, 11, 0x0A + 0x80] {
            let frame = parse(&reply).unwrap();
            let data = [&[channel], &frame.data[1..]].concat();
            refuse("another channel", &wire::frame(frame.version, frame.command, &data));
        }
        if let Phase::Done | Phase::GivenUp = phase {
            for other in PHASES {
                refuse("done and given up stay", &right_reply(other));
            }
        }
    }
    let quiet = Sender { silences: 0, ..in_phase(Phase::Sending) };
    not_a_reply(t, "gap 9: decision none, not send again", quiet, &right_reply(Phase::Placing));
}

/// "place is the reply's stored if that is at most length and the reply's CRC-32
/// is that of the image's first stored bytes, else 0".
fn resuming(t: &mut Tally) {
    let image = forty();
    let telling = in_phase(Phase::Telling);
    let from_0 = (Decision::GoOn, after(Phase::Placing));
    let crc = |stored: usize| crc32(&image[..stored]);
    let mut check = |what: &str, stored, crc| {
        taken(t, what, telling, &fb_reply(10, 0, stored, crc), from_0);
    };
    check("stored fits, its CRC-32 differs", 16, !crc(16));
    check("... in one bit", 16, crc(16) ^ 1);
    check("... is that of one byte less", 16, crc(15));
    check("... is the whole image's", 16, crc(40));
    check("all stored, the CRC-32 differs", 40, !crc(40));
    check("gap 13: stored above length", 41, crc(40));
    check("gap 13: far above", u32::MAX, crc(40));
    check("gap 13: above by 65,536", 65_536 + 16, crc(16));
    check("gap 14: stored 0, CRC-32 not 0", 0, 1);
}

/// Placing: "offset the asked one or 0".
fn offsets(t: &mut Tally) {
    let placing = |place| Sender { place, ..in_phase(Phase::Placing) };
    let sending = |place| (Decision::GoOn, Sender { place, ..after(Phase::Sending) });
    for place in [0, 1, 16, 39] {
        taken(t, "the asked offset", placing(place), &wire::fc(10, place as u32), sending(place));
        taken(t, "gap 17: 0 instead", placing(place), &wire::fc(10, 0), sending(0));
    }
    let ending = (Decision::GoOn, after(Phase::Ending));
    taken(t, "gap 18: granted at length", placing(40), &wire::fc(10, 40), ending);
    taken(t, "gap 17: 0 instead of length", placing(40), &wire::fc(10, 0), sending(0));
    for (asked, offset) in [(16, 15), (16, 17), (16, 40), (0, 1), (40, 39), (16, 16 << 8)] {
        let what = format!("gap 17: {offset} though {asked} was asked");
        not_a_reply(t, &what, placing(asked), &wire::fc(10, offset));
    }
    let version_10 = wire::frame(0x10, 0xFC, &[10, 0, 0, 0, 16]);
    not_a_reply(t, "FC with version byte 10", placing(16), &version_10);
    let short = wire::frame(0x00, 0xFC, &[10, 0, 0, 16]);
    not_a_reply(t, "FC with L 4", placing(16), &short);
    let long = wire::frame(0x00, 0xFC, &[10, 0, 0, 0, 0, 16]);
    not_a_reply(t, "FC with L 6", placing(16), &long);
}

/// "Leg over. New legs below 3: decision new leg, phase asking, new legs + 1. New
/// legs 3: decision given up, phase given up." By refusals and silence together.
fn legs_over(t: &mut Tally) {
    let ways: [(&str, Sender, Option<Vec<u8>>); 5] = [
        ("FD 01", in_phase(Phase::Sending), Some(fd_reply(1))),
        ("FD 04", in_phase(Phase::Sending), Some(fd_reply(4))),
        ("FE 01", in_phase(Phase::Ending), Some(fe_reply(1))),
        ("FE 03", in_phase(Phase::Ending), Some(fe_reply(3))),
        ("silence", in_phase(Phase::Sending), None),
    ];
    for (what, sender, reply) in ways {
        for new_legs in 0..=3 {
            let sender = Sender { new_legs, silences: 3, ..sender };
            let got = match &reply {
                Some(reply) => sender.reply(&forty(), reply),
                None => sender.silence(&forty()),
            };
            let (decision, next) = match new_legs {
                3 => (Decision::GivenUp, Sender { new_legs: 3, ..after(Phase::GivenUp) }),
                _ => (Decision::NewLeg, Sender { new_legs: new_legs + 1, ..after(Phase::Asking) }),
            };
            let what = format!("{what} after {new_legs} new legs");
            t.same(&what, got, (Outcome::Taken, decision, next));
        }
    }
    let mut sender = Sender { new_legs: 2, ..in_phase(Phase::Asking) };
    for phase in [Phase::Asking, Phase::Telling, Phase::Placing, Phase::Sending, Phase::Sending] {
        sender = sender.reply(&forty(), &right_reply(phase)).2;
    }
    t.same("gap 12: successes give no new leg back", sender.new_legs, 2);
    t.same("... up to ending", sender.phase, Phase::Ending);
}

/// "Silences below 3: decision send again, silences + 1, nothing else changed.
/// Silences 3: leg over."
fn silences(t: &mut Tally) {
    let image = forty();
    for phase in PHASES {
        for silences in 0..=3 {
            let sender = Sender { silences, ..in_phase(phase) };
            let wanted = match phase {
                Phase::Done => (Decision::Done, sender),
                Phase::GivenUp => (Decision::GivenUp, sender),
                _ if silences == 3 => {
                    (Decision::NewLeg, Sender { new_legs: 2, ..after(Phase::Asking) })
                }
                _ => (Decision::SendAgain, Sender { silences: silences + 1, ..sender }),
            };
            let (outcome, decision, next) = sender.silence(&image);
            t.same("outcome of silence (gap 8)", outcome, Outcome::Taken);
            let what = format!("silence {silences}, {phase:?} (gap 8)");
            t.same(&what, (decision, next), wanted);
            if decision == Decision::SendAgain {
                let same = request(&next, &image) == request(&sender, &image);
                t.holds("send again is the same request", same);
            }
        }
    }

    let sender = Sender { silences: 3, ..in_phase(Phase::Sending) };
    let refused = sender.reply(&image, &right_reply(Phase::Placing)).2;
    t.same("gap 10: a 21 is no silence", refused.silences, 3);
    let sender = Sender { silences: 2, ..sender };
    let refused = sender.reply(&image, b"").2;
    t.same("gap 10: a 21 between two silences", refused.silence(&image).1, Decision::SendAgain);
    let (_, again, sender) = refused.silence(&image);
    let (_, leg, _) = sender.reply(&image, b"").2.silence(&image);
    let wanted = (Decision::SendAgain, Decision::NewLeg);
    t.same("gap 10: ... does not begin anew either", (again, leg), wanted);

    let mut sender = in_phase(Phase::Asking);
    for phase in [Phase::Asking, Phase::Telling, Phase::Placing, Phase::Sending, Phase::Sending] {
        sender = Sender { silences: 3, ..sender }.reply(&image, &right_reply(phase)).2;
        t.same("gap 11: each go on sets silences to 0", sender.silences, 0);
    }
    let leg = Sender { silences: 3, ..in_phase(Phase::Sending) }.silence(&image).2;
    t.same("gap 11: so does a new leg", (leg.silences, leg.new_legs), (0, 2));
}

/// "With all silent the sender sends FA sixteen times (4 legs of 4) and gives up
/// at the sixteenth silence."
fn all_silent(t: &mut Tally) {
    let image = forty();
    let (_, mut sender) = Sender::open(OFFER, &image);
    let (mut sent, mut told) = (vec![request(&sender, &image)], Vec::new());
    loop {
        let (outcome, decision, next) = sender.silence(&image);
        t.same("a silence's outcome", outcome, Outcome::Taken);
        told.push(decision);
        sender = next;
        match decision {
            Decision::SendAgain | Decision::NewLeg => sent.push(request(&sender, &image)),
            _ => break,
        }
    }
    let fa = wire::fa(10, 16);
    t.holds("FA and nothing else", sent.iter().all(|request| *request == fa));
    t.same("FA sixteen times", sent.len(), 16);
    let leg = |end| [Decision::SendAgain, Decision::SendAgain, Decision::SendAgain, end];
    let wanted: Vec<Decision> =
        [Decision::NewLeg, Decision::NewLeg, Decision::NewLeg, Decision::GivenUp]
            .into_iter()
            .flat_map(leg)
            .collect();
    t.same("the sixteen decisions", told, wanted);
    t.same("given up stays", sender.silence(&image), (Outcome::Taken, Decision::GivenUp, sender));
}

/// Gap 3: a channel outside 10 to 19 is taken; "The controller gives 4, no reply;
/// it ends in given up".
fn unlisted_channel(t: &mut Tally) {
    let image = forty();
    let offer = Offer { channel: 20, ..OFFER };
    let (_, mut sender) = Sender::open(offer, &image);
    let mut receiver = Receiver::open(&[BENCH_BOARD], BENCH_AREA).unwrap();
    let (mut area, mut room) = (vec![0; BENCH_AREA], [0; REPLY_ROOM]);
    let mut told = Decision::GoOn;
    for _ in 0..16 {
        let report = receiver.feed(&request(&sender, &image), &mut area, &mut room);
        t.same("gap 3: outcome 4, no reply", (report.outcome as u8, report.reply), (4, 0));
        (_, told, sender) = sender.silence(&image);
    }
    t.same("gap 3: given up", told, Decision::GivenUp);
}

/// "An example (01's bench board; image 123456789, size 256, version 1.0.3)", with
/// P7 as K1 has it: CRC-16 4B37, sum 8E.
fn bench_example(t: &mut Tally) {
    let image = b"123456789";
    let md5 = unhex("25F9E794323B453885F5181F1B624D0B").try_into().unwrap();
    let offer = Offer { channel: 10, pid: [0; 8], version: [1, 0, 3], md5, size: 256 };
    let (outcome, mut sender) = Sender::open(offer, image);
    t.same("opening", outcome, Outcome::Taken);
    let fb = format!(
        "55 AA 10 FB 00 24 0A {} 01 00 03 25F9E794323B453885F5181F1B624D0B 00000009 CBF43926 6C",
        "00".repeat(8)
    );
    let fb_reply = format!("55 AA 10 FB 00 1A 0A 00 {} 2E", "00".repeat(24));
    let fe_reply = "55 AA 00 FE 00 02 0A 00 09";
    let on = Decision::GoOn;
    let rows = [
        (P3, P4, on, Phase::Telling),
        (&fb, &fb_reply, on, Phase::Placing),
        (P6, P6, on, Phase::Sending),
        (P7, P8, on, Phase::Ending),
        (P1, fe_reply, Decision::Done, Phase::Done),
    ];
    let mut receiver = Receiver::open(&[BENCH_BOARD], BENCH_AREA).unwrap();
    let (mut area, mut room) = (vec![0; BENCH_AREA], [0; REPLY_ROOM]);
    for (wanted, reply, decision, phase) in rows {
        let bytes = request(&sender, image);
        t.same("the example's request", hex(&bytes), hex(&unhex(wanted)));
        let report = receiver.feed(&bytes, &mut area, &mut room);
        let report = receiver.finish_check(report, PORTION, &area, &mut room);
        t.same("the controller's reply", hex(&room[..report.reply]), hex(&unhex(reply)));
        let next = Sender { offer, length: 9, phase, ..Sender::default() };
        let got = sender.reply(image, &unhex(reply));
        t.same("the example's decision", got, (Outcome::Taken, decision, next));
        sender = got.2;
    }
    t.same("the area", &area[..10], b"123456789\0");
}

/// Any replies and silences at all: the record stays lawful, "a fifth send of one
/// request" never comes, there are at most four legs, and done comes of FE 00.
fn random_walks(t: &mut Tally) {
    let mut ends = [0_usize; 2];
    for seed in 0..400 {
        let rng = &mut Rng::new(seed);
        let words = Words {
            image: (0..rng.between(1, 100)).map(|_| rng.byte()).collect(),
            channel: 10,
            size: rng.pick(&[16, 17, 40, 600]),
            script: Vec::new(),
        };
        let right = rng.pick(&[500, 800, 950]);
        let mut module = Module::new(&words);
        let (mut sends, mut legs, mut lawful) = (1, 1, true);
        let done = loop {
            let (sender, reply) = (module.sender, any_reply(rng, &module.sender, right));
            let heard = match &reply {
                Some(reply) => module.arrives(reply),
                None => module.silence(),
            };
            lawful &= module.sender.lawful();
            match heard.action {
                Action::Nothing => lawful &= module.sender == sender,
                Action::Send(_) if module.sender.silences > 0 => sends += 1,
                Action::Send(_) => sends = 1,
                Action::DropAllAndSend(_) => (sends, legs) = (1, legs + 1),
                Action::Stop => break reply == Some(fe_reply(0)),
            }
            lawful &= sends <= 4 && legs <= 4;
        };
        t.holds(&format!("lawful, four sends, four legs, walk {seed}"), lawful);
        t.same("done of FE 00 alone", done, module.sender.phase == Phase::Done);
        ends[usize::from(done)] += 1;
    }
    t.holds("both ends turn up", ends.iter().all(|&count| count > 50));
}

/// The reply that is waited for, `right` times in a thousand, another one, or
/// silence.
fn any_reply(rng: &mut Rng, sender: &Sender, right: usize) -> Option<Vec<u8>> {
    let state = if rng.chance(right) { 0 } else { rng.below(6) as u8 };
    let reply = match sender.phase {
        _ if rng.chance(100) => fb_reply(10, state, 3, 3),
        Phase::Asking => fa_reply(10, u8::from(state == 5)),
        Phase::Telling => fb_reply(10, 0, u32::from(state), 0),
        Phase::Placing => wire::fc(10, sender.place as u32),
        Phase::Sending => fd_reply(state),
        _ => fe_reply(state),
    };
    rng.chance(right).then_some(reply)
}
