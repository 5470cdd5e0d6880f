//! Random sessions with the sender's record set to values at and around every edge of
//! its outcome 9 and of its other comparisons.

use crate::console::offer::Sender;
use crate::console::tell;
use crate::rng::Rng;
use crate::sessions::Script;
use crate::sessions_replies::any_call;
use crate::stored::hex;

const PHASES: [&str; 7] = ["asking", "telling", "placing", "sending", "ending", "done", "given-up"];

/// Lawful records in every phase, then a field or two at or around an edge, and calls.
pub fn sender_edges(script: &mut Script) {
    let length = script.rng.pick(&[1, 40, 600, 600]);
    let bytes = script.rng.bytes(length);
    script.line(&format!("write image 0 {}", hex(&bytes)));
    script.line(&format!("image {length}"));
    let offer = script.rng.bytes(28);
    script.line(&format!("sender open 16 {}", hex(&offer)));
    while script.goes_on() {
        for line in lawful_record(&mut script.rng, length as u64) {
            script.line(&format!("sender set {line}"));
        }
        for _ in 0..script.rng.between(1, 4) {
            poked_call(script);
        }
        if script.rng.chance(100) {
            script.any_line(&["room 525", "room 526", "room 65536"]);
        }
        if script.rng.chance(100) {
            let other = script.rng.pick(&[length, length, length - 1, length + 1]);
            script.line(&format!("image {other}"));
        }
    }
    script.line("sender show");
}

/// The fields of a lawful record in some phase.
fn lawful_record(rng: &mut Rng, length: u64) -> Vec<String> {
    let size = rng.pick(&[16, 20, 512, 513, 65_535]);
    let place = rng.below(length as usize) as u64;
    let number = rng.pick(&[0, place / size.min(512)]);
    let few = rng.pick(&[0, 1, 3]);
    vec![
        format!("size {size}"),
        format!("length {length}"),
        format!("place {place}"),
        format!("number {number}"),
        format!("phase {}", rng.pick(&PHASES)),
        format!("silences {few}"),
        format!("legs {}", rng.pick(&[0, 2, 3])),
    ]
}

/// One or two fields of the sender's record set, a call, and mostly as they were.
pub fn poked_call(script: &mut Script) {
    let before = script.bench.sender.clone();
    for _ in 0..script.rng.pick(&[1, 1, 2]) {
        let sender = script.bench.sender.clone();
        let line = some_field(&mut script.rng, &sender);
        script.line(&line);
    }
    any_call(script);
    if script.rng.chance(850) {
        restore(script, &before);
    }
}

/// A field at or around an edge of outcome 9 or of another comparison.
fn some_field(rng: &mut Rng, sender: &Sender) -> String {
    let packet = u64::from(sender.size.clamp(1, 512));
    let fitting = sender.place / packet;
    let mut near = |values: &[u64]| {
        let value = rng.pick(values);
        rng.pick(&[value, value, value.wrapping_add(1), value.wrapping_sub(1)])
    };
    let length = near(&[0, 1, sender.length, 1_048_576]);
    let place = near(&[0, sender.length, sender.length, sender.number.wrapping_mul(packet)]);
    let number = near(&[0, fitting, fitting, 65_536, 1 << 55, 1 << 60, u64::MAX]);
    match rng.below(13) {
        0 => format!("sender set channel {}", rng.pick(&[9, 10, 255])),
        1 => format!("sender set pid {}", hex(&rng.bytes(8))),
        2 => format!("sender set version {}", hex(&rng.bytes(3))),
        3 => format!("sender set md5 {}", hex(&rng.bytes(16))),
        4 => format!("sender set size {}", rng.pick(&[0, 15, 15, 16, 17, 512, 513, 65_535])),
        5 => format!("sender set length {length}"),
        6 => format!("sender set phase {}", rng.pick(&PHASES)),
        7 | 8 => format!("sender set place {place}"),
        9 | 10 => format!("sender set number {number}"),
        11 => format!("sender set silences {}", rng.pick(&[0, 2, 3, 4, 4, u64::MAX])),
        _ => format!("sender set legs {}", rng.pick(&[0, 2, 3, 4, 4, u64::MAX])),
    }
}

/// Sets every field of the sender's record back that is another than in this one.
fn restore(script: &mut Script, to: &Sender) {
    let now = script.bench.sender.clone();
    let words = |sender: &Sender| {
        [
            format!("channel {}", sender.channel),
            format!("pid {}", hex(&sender.pid)),
            format!("version {}", hex(&sender.version)),
            format!("md5 {}", hex(&sender.md5)),
            format!("size {}", sender.size),
            format!("length {}", sender.length),
            format!("phase {}", tell::stage(sender.stage)),
            format!("place {}", sender.place),
            format!("number {}", sender.number),
            format!("silences {}", sender.silences),
            format!("legs {}", sender.legs),
        ]
    };
    for (now, to) in words(&now).iter().zip(words(to)) {
        if *now != to {
            script.line(&format!("sender set {to}"));
        }
    }
}
