//! The module's side: frames as the module sends them, for captures, tests and the sender.

use crate::crc::{crc16, crc32};
use crate::frame::{self, MAX_FRAME};
use crate::session::{Md5, Pid, Version};

/// Any frame as bytes; the data has at most 519 bytes.
pub fn frame(version: u8, command: u8, data: &[u8]) -> Vec<u8> {
    let mut room = [0; MAX_FRAME];
    let length = frame::write(&mut room, version, command, data);
    assert!(length > 0, "data too long for a frame");
    room[..length].to_vec()
}

/// An image and what FB announces of it, which a test may falsify.
#[derive(Clone, Debug)]
pub struct Image {
    pub pid: Pid,
    pub version: Version,
    pub md5: Md5,
    pub length: u32,
    pub crc32: u32,
    pub bytes: Vec<u8>,
}

impl Image {
    /// A truthful image for the bench board. No MD5 is ever computed from the
    /// bytes: it is stored and compared only, so a mark will do.
    pub fn new(version: Version, mark: u8, bytes: Vec<u8>) -> Self {
        Image {
            pid: [0; 8],
            version,
            md5: [mark; 16],
            length: bytes.len() as u32,
            crc32: crc32(&bytes),
            bytes,
        }
    }
}

pub fn f9(state: u8) -> Vec<u8> {
    frame(0x00, 0xF9, &[state])
}

pub fn fa(channel: u8, len1: u16) -> Vec<u8> {
    let [high, low] = len1.to_be_bytes();
    frame(0x00, 0xFA, &[channel, high, low])
}

pub fn fb_data(channel: u8, image: &Image) -> Vec<u8> {
    let mut data = vec![channel];
    data.extend_from_slice(&image.pid);
    data.extend_from_slice(&image.version);
    data.extend_from_slice(&image.md5);
    data.extend_from_slice(&image.length.to_be_bytes());
    data.extend_from_slice(&image.crc32.to_be_bytes());
    data
}

pub fn fb(channel: u8, image: &Image) -> Vec<u8> {
    frame(0x10, 0xFB, &fb_data(channel, image))
}

pub fn fc(channel: u8, offset: u32) -> Vec<u8> {
    let mut data = vec![channel];
    data.extend_from_slice(&offset.to_be_bytes());
    frame(0x00, 0xFC, &data)
}

/// An FD whose n and CRC-16 may be false.
pub fn fd_raw(channel: u8, number: u16, n: u16, crc: u16, bytes: &[u8]) -> Vec<u8> {
    let mut data = vec![channel];
    for field in [number, n, crc] {
        data.extend_from_slice(&field.to_be_bytes());
    }
    data.extend_from_slice(bytes);
    frame(0x10, 0xFD, &data)
}

pub fn fd(channel: u8, number: u16, bytes: &[u8]) -> Vec<u8> {
    fd_raw(channel, number, bytes.len() as u16, crc16(bytes), bytes)
}

pub fn fe(channel: u8) -> Vec<u8> {
    frame(0x00, 0xFE, &[channel])
}

/// What would be a frame if L above 519 were allowed: all there, the sum right.
pub fn overlong(version: u8, command: u8, data: &[u8]) -> Vec<u8> {
    let mut bytes = vec![0x55, 0xAA, version, command];
    bytes.extend((data.len() as u16).to_be_bytes());
    bytes.extend_from_slice(data);
    bytes.push(bytes.iter().fold(0, |sum: u8, &byte| sum.wrapping_add(byte)));
    bytes
}

/// About `size` bytes of sound transfers: FA, FB, FC, packets of 512, FE, with
/// images of up to 65,536 bytes, each another one.
pub fn sound(size: usize) -> Vec<u8> {
    const FULL: usize = 65_536;
    const PACKET: usize = 512;
    const PER_PACKET: usize = 14; // frame and packet head
    const PER_LEG: usize = 10 + 43 + 12 + 8; // FA, FB, FC, FE
    let mut capture = Vec::with_capacity(size + FULL);
    let mut rng = crate::rng::Rng::new(size as u64);
    let mut leg: u32 = 0;
    while capture.len() < size {
        let left = (size - capture.len()).saturating_sub(PER_LEG);
        let length = (left * PACKET / (PACKET + PER_PACKET)).clamp(1, FULL);
        let bytes: Vec<u8> = (0..length).map(|_| rng.byte()).collect();
        let mut image = Image::new([2, 0, 0], 0, bytes);
        image.md5[12..].copy_from_slice(&leg.to_be_bytes());
        capture.extend(fa(10, PACKET as u16));
        capture.extend(fb(10, &image));
        capture.extend(fc(10, 0));
        for (number, bytes) in image.bytes.chunks(PACKET).enumerate() {
            capture.extend(fd(10, number as u16, bytes));
        }
        capture.extend(fe(10));
        leg += 1;
    }
    capture
}
