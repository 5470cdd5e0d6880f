//! What is fed: frames of zeros, headers alone, and the model's transfer by its parts.

use std::io;
use std::process::Command;

use crate::record::AREA;

pub const MIB: usize = 1 << 20;
/// A header that claims 519 data bytes, and two of them in eight bytes.
pub const HEADER: [u8; 6] = [0x55, 0xAA, 0, 0, 2, 7];
pub const TWO_HEADERS: [u8; 8] = [0x55, 0xAA, 0x55, 0xAA, 2, 7, 2, 7];
/// How many frames of zeros are fed.
pub const FRAMES: usize = 2000;

/// The data bytes of a frame of zeros, and of a packet.
const DATA: usize = 512;
/// The packets of a transfer that fills the area, and the frames before them.
pub const PACKETS: usize = AREA / DATA;
pub const OPENING_FRAMES: usize = 3;
/// The bytes of a frame before its data, and of a packet before its own.
const HEAD: usize = 6;
const PACKET_HEAD: usize = HEAD + 7;
/// The bytes of the transfer's frames.
const FA: usize = 10;
const FB: usize = 43;
const FC: usize = 12;
const FD: usize = PACKET_HEAD + DATA + 1;
const FE: usize = 8;
const OPENING: usize = FA + FB + FC;
const WHOLE: usize = OPENING + PACKETS * FD + FE;
/// Where a frame's command stands.
const COMMAND: usize = 3;

/// A frame of 512 zeros with version and command 00, whose sum is so much too high.
pub fn zeros(above: u8) -> Vec<u8> {
    let mut frame = frame(0, 0, &[0; DATA]);
    frame[HEAD + DATA] = frame[HEAD + DATA].wrapping_add(above);
    frame
}

pub fn frame(version: u8, command: u8, data: &[u8]) -> Vec<u8> {
    let mut frame = vec![0x55, 0xAA, version, command, (data.len() >> 8) as u8, (data.len() & 255) as u8];
    frame.extend_from_slice(data);
    frame.push(sum(&frame));
    frame
}

fn sum(bytes: &[u8]) -> u8 {
    bytes.iter().fold(0, |sum: u8, &byte| sum.wrapping_add(byte))
}

pub fn repeated(pattern: &[u8], size: usize) -> Vec<u8> {
    pattern.iter().copied().cycle().take(size).collect()
}

/// The model's transfer of an image that fills the area: FA, FB, FC, 128 packets of 512, FE.
pub struct Transfer {
    pub bytes: Vec<u8>,
}

impl Transfer {
    pub fn made_by(model: &str) -> io::Result<Self> {
        let bytes = Command::new(model).args(["sound", &WHOLE.to_string()]).output()?.stdout;
        assert_eq!(bytes.len(), WHOLE);
        Ok(Transfer { bytes })
    }

    /// FA alone.
    pub fn inquiry(&self) -> &[u8] {
        &self.bytes[..FA]
    }

    /// FB alone.
    pub fn request(&self) -> &[u8] {
        &self.bytes[FA..FA + FB]
    }

    /// FA, FB and FC.
    pub fn opening(&self) -> &[u8] {
        &self.bytes[..OPENING]
    }

    /// All but FE.
    pub fn unended(&self) -> &[u8] {
        &self.bytes[..WHOLE - FE]
    }

    /// The first FD.
    pub fn packet(&self) -> &[u8] {
        &self.packets()[..FD]
    }

    pub fn packets(&self) -> &[u8] {
        &self.bytes[OPENING..WHOLE - FE]
    }

    /// The packets' frames with command 00 instead, which no receiver knows.
    pub fn unknown(&self) -> Vec<u8> {
        let mut frames = self.packets().to_vec();
        for frame in frames.chunks_mut(FD) {
            frame[COMMAND] = 0;
            frame[FD - 1] = sum(&frame[..FD - 1]);
        }
        frames
    }

    pub fn image(&self) -> Vec<u8> {
        self.packets().chunks(FD).flat_map(|packet| &packet[PACKET_HEAD..PACKET_HEAD + DATA]).copied().collect()
    }
}
