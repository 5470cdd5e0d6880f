//! Random words for the program `exchange`, and those of the stored run.

use crate::rng::Rng;
use crate::words::{Words, MAX_FILE};

/// The kinds of links, by name.
pub const KINDS: [&str; 9] =
    ["plain", "light", "heavy", "silent", "repeats", "early", "bursts", "legs", "refused"];

/// The words of an exchange, and the bytes of the image file they name.
pub struct Set {
    pub words: Vec<String>,
    pub image: Option<Vec<u8>>,
}

impl Set {
    /// The words as the program reads them.
    pub fn read(&self) -> Words {
        let words: Vec<&str> = self.words.iter().map(String::as_str).collect();
        let file = |_: &str| Ok(self.image.clone().unwrap_or_default());
        Words::read(&words, file).expect("only good words are made here")
    }
}

/// The words of this kind and seed; an image file is called `image_name`.
pub fn words(kind: &str, seed: u64, image_name: &str) -> Set {
    let rng = &mut Rng::new(seed);
    let size = packet_size(rng);
    let image = rng.chance(850).then(|| image(rng, size.unwrap_or(16).min(512)));
    let length = image.as_ref().map_or(40, Vec::len);
    let packets = length.div_ceil(size.unwrap_or(16).min(512));
    let script = script(rng, kind, 2 * (4 + packets));

    let mut words = Vec::new();
    if image.is_some() {
        words.push(format!("image={image_name}"));
    }
    if rng.chance(700) {
        words.push(format!("channel={}", digits(rng, 2, 10, 19)));
    }
    if let Some(size) = size {
        words.push(format!("size={}", digits(rng, 1, size, size)));
    }
    if !script.is_empty() || rng.chance(500) {
        words.push(format!("link={script}"));
    }
    let first = rng.below(words.len().max(1));
    words.rotate_left(first);
    Set { words, image }
}

/// A packet size for the word `size`, if there is one.
fn packet_size(rng: &mut Rng) -> Option<usize> {
    match rng.below(10) {
        0 => None,
        1 => Some(rng.between(16, 600)),
        _ => Some(rng.pick(&[16, 17, 64, 256, 512, 513, 65_535])),
    }
}

/// A number in that many digits or, rarely, with zeros before it.
fn digits(rng: &mut Rng, least: usize, low: usize, high: usize) -> String {
    let width = if rng.chance(100) { rng.between(least, 5) } else { least };
    format!("{:0width$}", rng.between(low, high))
}

/// An image to be sent in packets of that many bytes.
fn image(rng: &mut Rng, packet: usize) -> Vec<u8> {
    let length = match rng.below(16) {
        0 => 1,
        1 | 2 => rng.between(1, packet),
        3..=6 => packet * rng.between(1, 6),
        7 | 8 => packet * rng.between(1, 6) + rng.pick(&[1, packet - 1]),
        9..=14 => rng.between(100, 3_000),
        _ if rng.chance(200) => rng.pick(&[MAX_FILE, MAX_FILE - 1, 40_000]),
        _ => rng.between(3_000, 6_000),
    };
    match rng.below(5) {
        0 => vec![rng.byte(); length], // all packets are alike
        1 => b"0123456789ABCDEF".iter().copied().cycle().take(length).collect(),
        _ => rng.bytes(length),
    }
}

/// A script of this kind for an exchange that sends this many frames if nothing
/// is lost.
fn script(rng: &mut Rng, kind: &str, frames: usize) -> String {
    let length = rng.between(1, 2 * frames.min(1_000));
    match kind {
        "light" => letters(rng, length, "ppppppppppppppppppppppppplllrrss"),
        "heavy" => letters(rng, length, "pppplllllrs"),
        "silent" => silent(rng, frames),
        "repeats" if rng.chance(400) => "r".repeat(length), // fills the link
        "repeats" => letters(rng, length, "pprrrrrrrrrrrrrrrrls"),
        "early" => letters(rng, length, "pppppppssssssssrl"),
        "bursts" => bursts(rng, length),
        "legs" => legs(rng, frames),
        "refused" => refused(rng, length),
        _ => String::new(),
    }
}

/// That many letters, each one of these.
fn letters(rng: &mut Rng, count: usize, choices: &str) -> String {
    let choices: Vec<char> = choices.chars().collect();
    (0..count).map(|_| rng.pick(&choices)).collect()
}

/// Frames pass, then a long run of them is lost: sixteen make the sender give up.
fn silent(rng: &mut Rng, frames: usize) -> String {
    let before = if rng.chance(300) { 0 } else { rng.below(frames.min(300)) };
    let lost = rng.between(3, 20);
    let after = rng.below(20);
    "p".repeat(before) + &"l".repeat(lost) + &letters(rng, after, "ppppplrs")
}

/// Runs of one letter.
fn bursts(rng: &mut Rng, length: usize) -> String {
    let mut script = String::new();
    while script.len() < length {
        let letter = rng.pick(&["p", "p", "p", "l", "r", "s"]);
        script += &letter.repeat(rng.between(1, 9));
    }
    script
}

/// Frames pass, then four silences end the leg, several times.
fn legs(rng: &mut Rng, frames: usize) -> String {
    let mut script = String::new();
    for _ in 0..rng.between(1, 5) {
        script += &"p".repeat(rng.below(frames.min(400)));
        script += rng.pick(&["llll", "llll", "lplpll", "ssss", "lllps", "rsrsrss"]);
    }
    script
}

/// The first requests pass; then repeated frames let the sender run ahead, and
/// losses make the controller refuse what comes next.
fn refused(rng: &mut Rng, length: usize) -> String {
    let before = rng.pick(&[6, 6, 8, 10]);
    let letters = letters(rng, length, "pppppprrrrrlll");
    "p".repeat(before) + &letters
}

/// The words of the stored run: the built-in image in three packets, every kind
/// of recovery once.
pub fn stored_words() -> [String; 2] {
    const LINK: &str = concat!(
        "pp",     // FA and its reply
        "lpp",    // FB is lost: silence, sent again
        "psppp",  // FC is under way when silence comes: sent again, its second reply is 21
        "pl",     // packet 0 is stored, its reply is lost
        "pp",     // silence, sent again: answered 00, nothing is stored
        "pp",     // packet 1
        "lllrs",  // packet 2 is lost three times; two copies are dropped by a new leg
        "pppppp", // FA, FB and FC, which asks for offset 32 and gets it
        "pp",     // the rest of the image as packet 0
        "rpp",    // FE twice: two replies, the second is left
    );
    ["size=16".to_string(), format!("link={LINK}")]
}
