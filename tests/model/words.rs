//! The words of the program `exchange`: "Words in any order, each name at most
//! once. Decimal numbers, digits only (1 to 5 of them, so `007` is 7)."

use std::fs::File;
use std::io::{self, Read};
use std::ops::RangeInclusive;

use crate::link::Letter;

/// "the 40 bytes `Umarigwebo edge cabinet firmware, v1.0.3`".
pub const BUILT_IN_IMAGE: &[u8; 40] = b"Umarigwebo edge cabinet firmware, v1.0.3";
/// "a file of 1 to 65,536 bytes".
pub const MAX_FILE: usize = 65_536;

/// What an exchange is run with.
#[derive(Clone, Debug, PartialEq, Eq)]
pub struct Words {
    pub image: Vec<u8>,
    pub channel: u8,
    pub size: u16,
    pub script: Vec<Letter>,
}

impl Words {
    /// Reads the words; `file` gives a named image's bytes, of which one more than
    /// the most allowed are enough. What is wrong with bad words, in one line.
    pub fn read(
        words: &[&str],
        file: impl Fn(&str) -> io::Result<Vec<u8>>,
    ) -> Result<Words, String> {
        let (mut image, mut channel, mut size, mut script) = (None, None, None, None);
        for word in words {
            let (name, value) = word.split_once('=').ok_or(format!("{word:?} has no ="))?;
            let twice = match name {
                "image" => image.replace(read_image(value, &file)?).is_some(),
                "channel" => channel.replace(number(name, value, 10..=19)?).is_some(),
                "size" => size.replace(number(name, value, 16..=65_535)?).is_some(),
                "link" => script.replace(read_script(value)?).is_some(),
                _ => return Err(format!("{word:?} is none of image=, channel=, size=, link=")),
            };
            if twice {
                return Err(format!("{name}= is there twice"));
            }
        }
        Ok(Words {
            image: image.unwrap_or(BUILT_IN_IMAGE.to_vec()),
            channel: channel.unwrap_or(10) as u8,
            size: size.unwrap_or(16) as u16,
            script: script.unwrap_or_default(),
        })
    }

    /// Reads the words; images are files.
    pub fn read_with_files(words: &[&str]) -> Result<Words, String> {
        Words::read(words, first_bytes)
    }
}

/// The file's bytes, at most one more than an image may have.
fn first_bytes(name: &str) -> io::Result<Vec<u8>> {
    let mut bytes = Vec::new();
    File::open(name)?.take(MAX_FILE as u64 + 1).read_to_end(&mut bytes)?;
    Ok(bytes)
}

fn read_image(name: &str, file: &impl Fn(&str) -> io::Result<Vec<u8>>) -> Result<Vec<u8>, String> {
    let bytes = file(name).map_err(|error| format!("image {name:?}: {error}"))?;
    match bytes.len() {
        1..=MAX_FILE => Ok(bytes),
        _ => Err(format!("image {name:?} has not 1 to {MAX_FILE} bytes")),
    }
}

fn number(name: &str, digits: &str, range: RangeInclusive<u32>) -> Result<u32, String> {
    let plain = (1..=5).contains(&digits.len()) && digits.bytes().all(|b| b.is_ascii_digit());
    let value = if plain { digits.parse().ok() } else { None };
    value.filter(|value| range.contains(value)).ok_or(format!(
        "{name}={digits:?} is not {} to {}",
        range.start(),
        range.end()
    ))
}

fn read_script(letters: &str) -> Result<Vec<Letter>, String> {
    letters
        .chars()
        .map(|letter| Letter::read(letter).ok_or(format!("link= has {letter:?}, not p, l, r or s")))
        .collect()
}
