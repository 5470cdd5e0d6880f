//! Random sessions over the sender's calls: its requests, written by the model, fed
//! to the controller, and the replies given back; losses, wrong replies, a changed
//! image, stored bytes that are not the image's, and fields set.

use crate::console::offer::Stage;
use crate::sessions::Script;
use crate::sessions_module::Module;
use crate::sessions_replies::{any_call, any_state, wrong_reply};
use crate::sessions_sender_edges::poked_call;
use crate::stored::hex;

/// An exchange call by call, mostly sound.
pub fn sender(script: &mut Script) {
    let mut module = Module::open(script);
    offer(script, &mut module);
    let losses = script.rng.pick(&[0, 60, 250]);
    while script.goes_on() {
        match script.rng.below(1000) {
            at if at < losses => lose(script),
            780..=799 => any_state(script),
            800..=829 => wrong_reply(script),
            830..=849 => other_length(script),
            850..=879 => change_bytes(script),
            880..=919 => poked_call(script),
            920..=929 => small_room(script),
            930..=939 => drop(script.line("sender show")),
            940..=949 => offer(script, &mut module),
            950..=954 => opening(script),
            _ => exchange(script, &mut module),
        }
    }
    script.line("sender show");
    script.line("show");
}

/// Opens a sender for one of the boards, with one of the module's images.
fn offer(script: &mut Script, module: &mut Module) {
    module.turn(script);
    let image = module.announced();
    let bytes = &image.bytes[..image.bytes.len().min(600)];
    script.line(&format!("write image 0 {}", hex(bytes)));
    script.line(&format!("image {}", bytes.len()));
    let eighth = ((bytes.len() / 8) as u16 + 1).max(16);
    let size = script.rng.pick(&[16, 17, 511, 512, 513, 65_535, eighth, eighth]);
    let wrong = script.rng.chance(60);
    let pid = if wrong { script.rng.bytes(8) } else { image.pid.to_vec() };
    let channel = if script.rng.chance(30) { 9 } else { module.channel() };
    let (version, md5) = (hex(&image.version), hex(&image.md5));
    script.line(&format!("sender open {size} {channel:02X} {} {version} {md5}", hex(&pid)));
}

/// Opening at its edges.
fn opening(script: &mut Script) {
    let length = script.bench.image.lent().len();
    let lengths = [0, 1, 1_048_575, 1_048_576, 1_048_577, length];
    let other = script.rng.pick(&lengths);
    let size = script.rng.pick(&[0, 15, 16, 65_535]);
    let bytes = script.rng.bytes(28);
    script.line(&format!("image {other}"));
    script.line(&format!("sender open {size} {}", hex(&bytes)));
    script.any_line(&["sender request", "sender silence", "sender show"]);
}

/// A request to the controller, and its reply back; a new offer once it has ended.
fn exchange(script: &mut Script, module: &mut Module) {
    let told = script.line("sender request");
    let Some(request) = bytes_of(&told, "frame=") else {
        return match script.bench.sender.stage {
            Stage::Done | Stage::GivenUp if script.rng.chance(600) => offer(script, module),
            _ => end_or_repair(script),
        };
    };
    let Some(reply) = answer(script, &request) else { return lose(script) };
    script.line(&format!("sender reply {}", hex(&reply)));
    if script.rng.chance(40) {
        script.line(&format!("sender reply {}", hex(&reply)));
    }
}

/// What the controller answers; an end check is finished first. None if it does not
/// answer: the frame was refused, or the call was.
fn answer(script: &mut Script, request: &[u8]) -> Option<Vec<u8>> {
    let mut told = script.line(&format!("feed {}", hex(request)));
    while script.bench.record.check.running {
        let most = script.rng.pick(&[300, 1_000, u64::MAX]);
        told = script.line(&format!("portion {most}"));
        if !told.contains(" portion 19 ") {
            break;
        }
    }
    bytes_of(&told, "reply=")
}

/// No request comes: the sender is done or given up, or a call is refused. A call
/// on it, or everything as it was.
fn end_or_repair(script: &mut Script) {
    match script.rng.below(4) {
        0 => drop(script.line("sender silence")),
        1 => wrong_reply(script),
        _ => {
            script.line("room 65536");
            let length = script.bench.sender.length.clamp(1, 3_000);
            script.line(&format!("image {length}"));
        }
    }
}

/// One to four silences, with the request asked for again now and then.
fn lose(script: &mut Script) {
    for _ in 0..script.rng.pick(&[1, 1, 2, 3, 4, 4]) {
        script.line("sender silence");
        if script.rng.chance(200) {
            script.line("sender request");
        }
    }
}

/// The image in another length, a call, and as it was.
fn other_length(script: &mut Script) {
    let length = script.bench.image.lent().len();
    let other = script.rng.pick(&[length.saturating_sub(1), length + 1, 0]).min(1_048_577);
    script.line(&format!("image {other}"));
    if script.rng.chance(300) {
        script.any_line(&["room 525", "room 526", "sender set legs 4", "sender set legs 3"]);
    }
    any_call(script);
    script.line(&format!("image {length}"));
}

/// A byte of the area's stored part, or of the image, becomes another one.
fn change_bytes(script: &mut Script) {
    let stored = script.bench.record.stored.clamp(1, 600) as usize;
    let (at, byte) = (script.rng.below(stored), script.rng.byte());
    let memory = script.rng.pick(&["area", "area", "image"]);
    script.line(&format!("write {memory} {at} {byte:02X}"));
}

/// The room of requests at its edge.
fn small_room(script: &mut Script) {
    let room = script.rng.pick(&[0, 33, 525, 526, 527]);
    script.line(&format!("room {room}"));
    script.line("sender request");
    script.line("room 65536");
}

/// The bytes behind this name in a line that was written; none for `-`.
fn bytes_of(told: &str, name: &str) -> Option<Vec<u8>> {
    let digits = told.split(' ').find_map(|word| word.strip_prefix(name))?;
    let pair = |place| u8::from_str_radix(digits.get(place..place + 2)?, 16).ok();
    (0..digits.len()).step_by(2).map(pair).collect()
}
