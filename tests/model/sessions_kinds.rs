//! Kinds of random sessions over the controller's calls.

use crate::console::record::Phase;
use crate::rng::Rng;
use crate::sessions::Script;
use crate::sessions_module::Module;
use crate::sessions_poke as poke;
use crate::stored::hex;
use crate::wire;

/// Transfers as a module makes them, over several channels: pieces cut anywhere,
/// quiet, portions of any size, resumption, moves to another board and back.
pub fn sound(script: &mut Script) {
    let mut module = Module::open(script);
    let away = script.rng.pick(&[0, 20, 60]);
    while script.goes_on() {
        sound_step(script, &mut module, away);
    }
    script.line("show");
}

/// A step of a sound module, which turns away `away` times in a thousand.
fn sound_step(script: &mut Script, module: &mut Module, away: usize) {
    let channel = module.channel();
    match script.rng.below(1000) {
        at if at < away => {
            let (place, image) = (module.place, module.image);
            module.turn(script);
            let size = script.rng.pick(&[16, 40, 512]);
            script.send(&wire::fa(module.channel(), size));
            if script.rng.chance(700) {
                (module.place, module.image) = (place, image);
                script.send(&wire::fa(module.channel(), size));
            }
        }
        at if at < 2 * away => script.send(&wire::fa(channel, 16)),
        900..=929 => drop(script.line("quiet")),
        930..=959 => script.send(&module.packet_again()),
        960..=969 => script.any_line(&["report", "show"]),
        970..=979 => {
            let state = script.rng.byte();
            script.send(&wire::f9(state));
        }
        980..=989 => script.portion(),
        990..=994 => script.send(&wire::fe(channel)),
        _ => module.step(script),
    }
}

/// Sound sessions with fields of the record set to values at and around every edge,
/// a call, and mostly the field as it was.
pub fn poked(script: &mut Script) {
    let mut module = Module::open(script);
    let far = script.rng.chance(400);
    if far {
        poke::far_record(script);
    }
    while script.goes_on() {
        for _ in 0..script.rng.below(if far { 2 } else { 12 }) {
            sound_step(script, &mut module, 20);
        }
        last_number(script, &mut module);
        let before = script.bench.record.clone();
        let fields = script.rng.pick(&[1, 1, 1, 2, 3]);
        for _ in 0..fields {
            poke::field(script);
        }
        for _ in 0..script.rng.pick(&[1, 1, 2, 4]) {
            any_call(script, &mut module);
        }
        if script.rng.chance(800) {
            poke::restore(script, &before);
        }
    }
    script.line("show");
}

/// Now and then, in receiving: the packets that come at the last number.
fn last_number(script: &mut Script, module: &mut Module) {
    if script.bench.record.phase == Phase::Receiving && script.rng.chance(150) {
        script.any_line(&["set next 65535", "set next 65534", "set next 65536"]);
        for _ in 0..3 {
            module.step(script);
        }
    }
}

/// Any call of the controller, with a sound frame if it is fed one.
fn any_call(script: &mut Script, module: &mut Module) {
    match script.rng.below(8) {
        0 => drop(script.line("quiet")),
        1 => drop(script.line("report")),
        2 | 3 => script.portion(),
        4 => drop(script.feed(&[])),
        5 => {
            let frame = module.mistake(script);
            script.feed(&frame);
        }
        _ => {
            let frame = module.next_frame(script);
            script.feed(&frame);
        }
    }
}

/// Rooms and areas at and around their edges, with unlawful records too, so that
/// every order of refusals shows.
pub fn rooms(script: &mut Script) {
    let mut module = Module::open(script);
    for _ in 0..script.rng.below(20) {
        module.step(script);
    }
    if script.rng.chance(500) {
        let rubbish = script.rng.bytes(90);
        script.line(&format!("write room 0 {}", hex(&rubbish)));
    }
    script.line("image 40");
    let offer = script.rng.bytes(28);
    script.line(&format!("sender open 16 {}", hex(&offer)));
    while script.goes_on() {
        let opened = module.opened;
        let room = some_room(&mut script.rng, module.boards.len());
        script.line(&format!("room {room}"));
        if script.rng.chance(500) {
            let area = script.rng.pick(&[opened, opened, opened - 1, (opened + 1).min(65_536), 0]);
            script.line(&format!("area {area}"));
        }
        let broken = script.rng.chance(250);
        let next = script.bench.record.next;
        if broken {
            script.any_line(&["set next 65537", "set next 18446744073709551615"]);
        }
        any_call(script, &mut module);
        if script.rng.chance(300) {
            any_call(script, &mut module);
        }
        if broken {
            script.line(&format!("set next {next}"));
        }
        if script.rng.chance(250) {
            sender_call(script);
        }
        if script.rng.chance(300) {
            script.line("room 65536");
            script.line(&format!("area {opened}"));
            for _ in 0..script.rng.below(8) {
                module.step(script);
            }
        }
    }
}

/// A call of the sender's in the same room, its image perhaps of another length and
/// its record perhaps broken: 9, 20, then 5.
fn sender_call(script: &mut Script) {
    let (image, legs) = (script.rng.pick(&[40, 40, 39, 41]), script.rng.pick(&[0, 0, 3, 4]));
    script.line(&format!("image {image}"));
    script.line(&format!("sender set legs {legs}"));
    script.line("sender request");
    script.any_line(&["sender silence", "sender reply", "sender request"]);
}

/// Rooms of the replies and of the outward F9, one less and one more.
fn some_room(rng: &mut Rng, boards: usize) -> usize {
    const ROOMS: [usize; 14] = [0, 7, 8, 14, 15, 32, 33, 34, 77, 78, 79, 525, 526, 65_536];
    let report = 8 + 7 * boards;
    match rng.below(4) {
        0 => rng.pick(&[report - 1, report, report + 1]),
        1 => rng.pick(&[32, 33]),
        _ => rng.pick(&ROOMS),
    }
}

/// Frames of every command, right and wrong in every field, nested frames and
/// strays, in every phase and while a check runs.
pub fn frames(script: &mut Script) {
    let mut module = Module::open(script);
    while script.goes_on() {
        match script.rng.below(22) {
            21 => {
                let most = module.opened.min(200);
                let (at, byte) = (script.rng.below(most), script.rng.byte());
                script.line(&format!("write area {at} {byte:02X}"));
            }
            20 => held_frames(script, &mut module),
            0..=9 => module.step(script),
            10..=12 => {
                let frame = module.mistake(script);
                script.send(&frame);
            }
            13..=15 => {
                let like = module.next_frame(script);
                let frame = misshapen(&mut script.rng, &like);
                script.send(&frame);
            }
            16 => {
                let like = module.next_frame(script);
                let bytes = strays(&mut script.rng, &like);
                script.send(&bytes);
            }
            17 => drop(script.line("quiet")),
            18 => {
                let (first, second) = (module.mistake(script), module.mistake(script));
                script.send(&[first, second].concat());
            }
            _ => script.portion(),
        }
    }
    script.line("quiet");
    script.line("show");
}

/// Frames held behind a front that waits for 526 bytes; only quiet brings them out,
/// one per call.
fn held_frames(script: &mut Script, module: &mut Module) {
    let mut bytes = vec![0x55, 0xAA, 0x10, 0xFD, 0x02, 0x07];
    for _ in 0..script.rng.between(1, 3) {
        let like = module.next_frame(script);
        let frame = match script.rng.below(3) {
            0 => misshapen(&mut script.rng, &like),
            1 => module.mistake(script),
            _ => like,
        };
        bytes.extend_from_slice(&frame[..frame.len().min(170)]);
    }
    script.send(&bytes);
    for _ in 0..script.rng.between(1, 4) {
        script.line("quiet");
    }
}

/// A frame like this one that the table or the list refuses, or whose sum is wrong.
fn misshapen(rng: &mut Rng, like: &[u8]) -> Vec<u8> {
    let (version, command, data) = (like[2], like[3], like[6..like.len() - 1].to_vec());
    match rng.below(6) {
        0 => wire::frame(version, rng.pick(&[0x00, 0x56, 0xE8, 0xF8, 0xFF]), &data),
        1 => wire::frame(rng.pick(&[0x00, 0x10, 0x01, 0xFF]), command, &data),
        2 => {
            let length = rng.pick(&[0, 1, 2, 3, 4, 5, 6, 7, 35, 36, 37, data.len() + 1]);
            let mut data = data;
            data.resize(length.min(519), 0);
            wire::frame(version, command, &data)
        }
        3 => {
            let channel = rng.pick(&[0, 9, 10, 15, 19, 20, 29, 255]);
            wire::frame(version, command, &[&[channel], data.get(1..).unwrap_or(&[])].concat())
        }
        4 => {
            let mut wrong = like.to_vec();
            let place = if rng.chance(500) { wrong.len() - 1 } else { rng.below(wrong.len()) };
            wrong[place] = wrong[place].wrapping_add(rng.pick(&[1, !0, 0x80]));
            wrong
        }
        _ => wire::frame(rng.pick(&[0x00, 0x10]), rng.between(0xF9, 0xFE) as u8, &data),
    }
}

/// Strays before, behind or around a frame: unfinished fronts, fronts that can never
/// become a frame, and a frame inside the data of a larger one.
fn strays(rng: &mut Rng, frame: &[u8]) -> Vec<u8> {
    let stray: &[u8] = match rng.below(8) {
        0 => &[0x55],
        1 => &[0x55, 0xAA],
        2 => &[0x55, 0xAA, 0x00, 0xFE, 0x00, 0x01],
        3 => &[0x55, 0xAA, 0x10, 0xFD, 0x03],
        4 => &[0x55, 0xAA, 0x10, 0xFD, 0x02, 0x08],
        5 => &[0x55, 0xAA, 0x10, 0xFD, 0x02, 0x07],
        6 => &[0x55, 0x55, 0xAA, 0x00, 0x56, 0x00, 0x00],
        _ => &frame[..frame.len() / 2],
    };
    match rng.below(4) {
        0 => [stray, frame].concat(),
        1 => [frame, stray].concat(),
        2 => wire::frame(rng.byte(), rng.byte(), &frame[..frame.len().min(519)]),
        _ => {
            let count = rng.below(600);
            let noise: Vec<u8> = (0..count).map(|_| rng.pick(&[0x55, 0xAA, 0, 1, 2, 3])).collect();
            [stray, frame, &noise].concat()
        }
    }
}
