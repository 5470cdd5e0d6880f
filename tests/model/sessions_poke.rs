//! Setting fields of the records, in random sessions, to values at and around every
//! edge of outcome 9 and of every comparison.

use crate::console::record::{Board, Record, MOST_BOARDS};
use crate::console::tell;
use crate::rng::Rng;
use crate::sessions::Script;
use crate::sessions_module::board_words;
use crate::stored::hex;

const PHASES: [&str; 5] = ["idle", "asked", "told", "receiving", "done"];

/// Every number that the papers compare something with.
const EDGES: [u64; 14] =
    [0, 1, 3, 9, 10, 15, 16, 19, 512, 526, 65_535, 65_536, 1_048_576, 4_294_967_295];

/// Sets one field of the controller's record, mostly next to what it is compared with.
pub fn field(script: &mut Script) {
    let r = script.bench.record.clone();
    let rng = &mut script.rng;
    let (announced, read) = (r.identity.announced, r.check.read);
    let own = [r.opened, r.holding, r.agreed, r.next, r.stored, announced, r.last, read];
    let any = around(rng, &own);
    let mut near = |values: &[u64]| {
        let value = around(rng, values);
        rng.pick(&[value, value, value, any])
    };
    let numbers = [
        ("boards", near(&[0, 1, 10, 11, r.boards, (1 << 32) + r.boards])),
        ("opened", near(&[0, 1, announced, 1_048_576])),
        ("holding", near(&[0, 7, 526])),
        ("agreed", near(&[0, 16, 512])),
        ("next", near(&[0, 65_535, 65_536])),
        ("stored", near(&[announced, r.last])),
        ("announced", near(&[0, r.stored, r.opened])),
        ("last", near(&[0, 512, r.stored])),
        ("read", near(&[0, announced])),
    ];
    let listed = rng.pick(&r.list).channel;
    let line = match rng.below(24) {
        place @ 0..=8 => format!("set {} {}", numbers[place].0, numbers[place].1),
        9 => {
            let at = rng.below(526);
            let count = rng.between(0, (526 - at).min(60));
            format!("set held {at} {}", hex(&rng.bytes(count)))
        }
        10 | 11 => board(rng, &r),
        12..=14 => format!("set phase {}", rng.pick(&PHASES)),
        15 => format!("set channel {}", rng.pick(&[listed, listed, 0, 9, 10, 19, 20, 255])),
        16 => format!("set image-channel {}", rng.pick(&[listed, 0, 255])),
        17 => format!("set version {}", hex(&rng.bytes(3))),
        18 => format!("set md5 {}", hex(&rng.bytes(16))),
        19 => format!("set crc {}", hex(&rng.bytes(4))),
        20 | 21 => format!("set checking {}", rng.below(2)),
        22 => format!("set register {}", hex(&rng.bytes(4))),
        _ => format!("set last {}", rng.pick(&[512, 513])),
    };
    script.line(&line);
}

/// A receiving record with a large image, all stored, so that every clause of outcome
/// 9 is one step away; perhaps with an end check running, at any register.
pub fn far_record(script: &mut Script) {
    let listed = script.bench.record.list[0].channel;
    let rng = &mut script.rng;
    let (opened, announced) = rng.pick(&[(600, 600), (3_000, 600), (65_536, 1_000)]);
    let last = rng.pick(&[0, 16, 512]);
    let phase = rng.pick(&["receiving", "receiving", "done"]);
    let read = rng.pick(&[0, 0, announced - 1]);
    let register = hex(&rng.bytes(4));
    let checking = rng.chance(400);
    for line in [
        format!("area {opened}"),
        format!("set opened {opened}"),
        format!("set announced {announced}"),
        format!("set stored {announced}"),
        format!("set last {last}"),
        format!("set channel {listed}"),
        "set agreed 16".into(),
        format!("set phase {phase}"),
    ] {
        script.line(&line);
    }
    if checking {
        script.line(&format!("set read {read}"));
        script.line(&format!("set register {register}"));
        script.line("set checking 1");
    }
}

/// An edge or one of these numbers; that, one less or one more, or the most.
fn around(rng: &mut Rng, own: &[u64]) -> u64 {
    let edge = if rng.chance(700) { rng.pick(own) } else { rng.pick(&EDGES) };
    match rng.below(8) {
        0 | 1 => edge.wrapping_sub(1),
        2 | 3 => edge.wrapping_add(1),
        4 if rng.chance(500) => u64::MAX,
        _ => edge,
    }
}

/// A board at a used or unused place: another channel, perhaps one that is listed.
fn board(rng: &mut Rng, record: &Record) -> String {
    let place = rng.below(MOST_BOARDS);
    let other = rng.pick(&record.list).channel;
    let channel = rng.pick(&[other, other, 0, 9, 10, 19, 20, 255]);
    let board = Board { channel, permit: rng.chance(700), ..record.list[place] };
    format!("set board {place} {}", board_words(&board))
}

/// Sets every field but the held bytes back that is another than in this record.
pub fn restore(script: &mut Script, to: &Record) {
    let now = script.bench.record.clone();
    let (image, check) = (to.identity, to.check);
    let mut lines = Vec::new();
    let mut number = |name: &str, now: u64, to: u64| {
        if now != to {
            lines.push(format!("set {name} {to}"));
        }
    };
    number("boards", now.boards, to.boards);
    number("opened", now.opened, to.opened);
    number("holding", now.holding, to.holding);
    number("channel", now.channel.into(), to.channel.into());
    number("agreed", now.agreed, to.agreed);
    number("next", now.next, to.next);
    number("stored", now.stored, to.stored);
    number("image-channel", now.identity.channel.into(), image.channel.into());
    number("announced", now.identity.announced, image.announced);
    number("last", now.last, to.last);
    number("checking", now.check.running.into(), check.running.into());
    number("read", now.check.read, check.read);
    let mut other = |changed: bool, line: String| {
        if changed {
            lines.push(line);
        }
    };
    other(now.phase != to.phase, format!("set phase {}", tell::phase(to.phase)));
    other(now.identity.version != image.version, format!("set version {}", hex(&image.version)));
    other(now.identity.md5 != image.md5, format!("set md5 {}", hex(&image.md5)));
    other(now.identity.crc != image.crc, format!("set crc {:08X}", image.crc));
    other(now.check.register != check.register, format!("set register {:08X}", check.register));
    for (place, (now, to)) in now.list.iter().zip(&to.list).enumerate() {
        other(now != to, format!("set board {place} {}", board_words(to)));
    }
    for line in lines {
        script.line(&line);
    }
}
