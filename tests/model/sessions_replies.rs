//! Replies to the sender in random sessions: those to its own request with any state,
//! and those that do not fit.

use crate::console::offer::Stage;
use crate::crc::crc32;
use crate::sessions::Script;
use crate::stored::hex;
use crate::wire;

/// Any call of the sender's.
pub fn any_call(script: &mut Script) {
    match script.rng.below(6) {
        0 | 1 => drop(script.line("sender request")),
        2 => drop(script.line("sender silence")),
        3 if script.rng.chance(100) => drop(script.line("sender reply")),
        3 | 4 => any_state(script),
        _ => wrong_reply(script),
    }
}

/// The reply to the sender's own request, with any state, flag or offset, now and
/// then on another channel.
pub fn any_state(script: &mut Script) {
    let sender = script.bench.sender.clone();
    let place = sender.place as u32;
    let told = told_front(script);
    let rng = &mut script.rng;
    let other = rng.chance(60);
    let channel = if other { rng.byte() } else { sender.channel };
    let state = rng.below(6) as u8;
    let (version, command, data) = match sender.stage {
        Stage::Asking => (0x00, 0xFA, vec![channel, state % 3, 1, 0, 2, 2, rng.pick(&[0, 0, 1])]),
        Stage::Telling if rng.chance(600) => (0x10, 0xFB, [&[channel, 0][..], &told].concat()),
        Stage::Telling => (0x10, 0xFB, [&[channel, state][..], &told].concat()),
        Stage::Placing => {
            let near = rng.pick(&[place.wrapping_add(1), place.wrapping_sub(1), place / 2]);
            let offset = rng.pick(&[place, 0, 0, near]);
            (0x00, 0xFC, [&[channel], &offset.to_be_bytes()[..]].concat())
        }
        Stage::Sending => (0x00, 0xFD, vec![channel, state]),
        Stage::Ending | Stage::Done | Stage::GivenUp => (0x00, 0xFE, vec![channel, state]),
    };
    let bytes = wire::frame(version, command, &data);
    script.line(&format!("sender reply {}", hex(&bytes)));
}

/// Stored, CRC-32 and MD5 field of an FB reply: a front of the image, the whole image,
/// or more than there is, the CRC-32 that of the bytes there are or another one.
fn told_front(script: &mut Script) -> Vec<u8> {
    let length = script.bench.image.lent().len().min(3_000);
    let some = script.rng.below(length + 1);
    let stored = script.rng.pick(&[0, some, some, some, length, length + 1]);
    let there = script.rng.pick(&[stored, stored, stored.min(length), length]);
    let crc = crc32(&script.bench.image.bytes[..there]) ^ script.rng.pick(&[0, 0, 0, 1]);
    let field = script.rng.pick(&[0, 0, 0xA5]);
    [&(stored as u32).to_be_bytes()[..], &crc.to_be_bytes(), &[field; 16]].concat()
}

/// A reply that does not fit, or fits by chance: any state or flag, a wrong field,
/// bytes around it, none at all.
pub fn wrong_reply(script: &mut Script) {
    let sender = script.bench.sender.clone();
    let rng = &mut script.rng;
    let channel = sender.channel;
    let state = rng.pick(&[0, 1, 2, 3, 4, 5, 255]);
    let place = sender.place as u32;
    let place = rng.pick(&[place, 0, place.wrapping_add(1), !0]);
    let own = match sender.stage {
        Stage::Asking => 0,
        Stage::Telling => 1,
        Stage::Placing => 2,
        Stage::Sending => 3,
        Stage::Ending | Stage::Done | Stage::GivenUp => 4,
    };
    let any = rng.below(5);
    let (version, command, mut data) = match rng.pick(&[own, own, any]) {
        0 => (0x00, 0xFA, vec![channel, state, 1, 0, 2, 2, 0]),
        1 => (0x10, 0xFB, [&[channel, state], &place.to_be_bytes()[..], &rng.bytes(20)].concat()),
        2 => (0x00, 0xFC, [&[channel], &place.to_be_bytes()[..]].concat()),
        3 => (0x00, 0xFD, vec![channel, state]),
        _ => (0x00, 0xFE, vec![channel, state]),
    };
    let (version, command) = match rng.below(6) {
        0 => (rng.pick(&[0x00, 0x10]), command),
        1 => (version, rng.pick(&[0xF9, 0xFA, 0xFB, 0xFC, 0xFD, 0xFE])),
        _ => (version, command),
    };
    match rng.below(5) {
        0 => {
            let at = rng.below(data.len());
            data[at] ^= 1 << rng.below(8);
        }
        1 => data.resize(rng.below(30), 0),
        _ => {}
    }
    let mut bytes = wire::frame(version, command, &data);
    match rng.below(8) {
        0 => bytes.push(rng.byte()),
        1 => bytes.insert(0, 0x55),
        2 => bytes.truncate(rng.below(bytes.len() + 1)),
        3 => *bytes.last_mut().expect("a frame has bytes") ^= 1,
        _ => {}
    }
    script.line(&format!("sender reply {}", hex(&bytes)));
}
