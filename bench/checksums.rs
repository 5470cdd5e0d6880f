//! The compiled checksums against table loops in Rust and, where Debian has them,
//! zlib and libdeflate, which multiplies without carries.

use std::hint::black_box;
use std::io;

use crate::crc;
use crate::timing::{each, medians, Run, Task, RUNS};

/// The bytes that one time is taken over, by as many calls as they take.
const SAMPLE: usize = 4 << 20;
const LARGEST: usize = 1 << 20;
/// What a CRC's catalogue entry gives its value for.
const CHECK: &[u8] = b"123456789";

type Size = (&'static str, usize);
const BYTES_16: Size = ("16 bytes", 16);
const BYTES_512: Size = ("512 bytes", 512);
const BYTES_4096: Size = ("4,096 bytes", 4096);
const BYTES_65536: Size = ("65,536 bytes", 65_536);
const MIB: Size = ("1 MiB", LARGEST);

/// One way of taking a checksum: what it is, and a call of it.
type Way = (&'static str, fn(&[u8]) -> u32);

/// A checksum in several ways, the one that the others are held against first.
struct Kind {
    name: &'static str,
    check: u32,
    sizes: &'static [Size],
    ways: &'static [Way],
}

const KINDS: [Kind; 3] = [
    Kind {
        name: "CRC-32",
        check: 0xCBF4_3926,
        sizes: &[BYTES_16, BYTES_512, BYTES_4096, BYTES_65536, MIB],
        ways: &[
            ("the model's table loop", crc::crc32),
            ("`crc32::checksum`", |bytes| unsafe { checksum(bytes.as_ptr(), bytes.len()) }),
            #[cfg(zlib)]
            ("zlib", |bytes| unsafe { crc32(0, bytes.as_ptr(), bytes.len() as u32) as u32 }),
            #[cfg(libdeflate)]
            ("libdeflate", |bytes| unsafe { libdeflate_crc32(0, bytes.as_ptr(), bytes.len()) }),
        ],
    },
    Kind {
        name: "CRC-16 MODBUS",
        check: 0x4B37,
        sizes: &[BYTES_16, BYTES_512, BYTES_65536],
        ways: &[
            ("the model's table loop", |bytes| crc::crc16(bytes).into()),
            ("`crc16::modbus`", |bytes| unsafe { modbus(bytes.as_ptr(), bytes.len()).into() }),
        ],
    },
    Kind {
        name: "CRC-16 CCITT-FALSE",
        check: 0x29B1,
        sizes: &[BYTES_16, BYTES_512, BYTES_65536],
        ways: &[
            ("a table loop", |bytes| ccitt_by_table(bytes).into()),
            ("`crc16::ccitt`", |bytes| unsafe { ccitt(bytes.as_ptr(), bytes.len()).into() }),
        ],
    },
];

#[link(name = "lend", kind = "static")]
extern "C" {
    fn checksum(bytes: *const u8, count: usize) -> u32;
    fn modbus(bytes: *const u8, count: usize) -> u16;
    fn ccitt(bytes: *const u8, count: usize) -> u16;
}

#[cfg(zlib)]
#[link(name = "z")]
extern "C" {
    fn crc32(start: std::ffi::c_ulong, bytes: *const u8, count: u32) -> std::ffi::c_ulong;
}

// bench/run names this library's file to the linker, for without its -dev package it has no plain name
#[cfg(libdeflate)]
extern "C" {
    fn libdeflate_crc32(start: u32, bytes: *const u8, count: usize) -> u32;
}

pub fn rows() -> io::Result<()> {
    println!("\nOne checksum, call after call on the same bytes, {} MiB in all; each call waits for the result before it.", SAMPLE >> 20);
    println!("Medians of {RUNS} runs each, interleaved. The first row of each group is 1.\n");
    println!("| what | median ns a call | ratio |\n|---|---|---|");
    let bytes: Vec<u8> = (0..LARGEST as u32).map(|i| (i * 31 + i / 7) as u8).collect();
    for kind in &KINDS {
        for &size in kind.sizes {
            group(kind, size, &bytes[..size.1])?;
        }
    }
    if !cfg!(zlib) {
        println!("\nzlib: skipped, no /usr/include/zlib.h");
    }
    if !cfg!(libdeflate) {
        println!("\nlibdeflate: skipped, no libdeflate.so.0 where the linker looks");
    }
    Ok(())
}

/// The rows of one kind at one size.
fn group(kind: &Kind, (size, count): Size, bytes: &[u8]) -> io::Result<()> {
    let value = kind.ways[0].1(bytes);
    for (what, sum) in kind.ways {
        assert_eq!(sum(CHECK), kind.check, "{} of 123456789: {what}", kind.name);
        assert_eq!(sum(bytes), value, "{} of {size}: {what}", kind.name);
    }
    let calls = SAMPLE / count;
    let tasks: Vec<Task> = kind.ways.iter().map(|&(what, sum)| (what, called(sum, bytes, calls))).collect();
    let medians = medians(&tasks)?;
    for ((what, _), median) in kind.ways.iter().zip(&medians) {
        println!("| {} of {size}: {what} | {:.1} | {:.3} |", kind.name, each(*median, calls), median / medians[0]);
    }
    Ok(())
}

/// So many calls. Where a call's bytes begin is made of the result before it, so that the processor cannot do short calls side by side.
fn called(sum: fn(&[u8]) -> u32, bytes: &[u8], calls: usize) -> Run<'_> {
    Box::new(move || {
        let (none, mut result) = (black_box(0), 0);
        for _ in 0..calls {
            result = sum(&black_box(bytes)[result as usize & none..]);
        }
        black_box(result);
        Ok(())
    })
}

/// CRC-16/CCITT-FALSE as the model takes its sums: 1021, start FFFF, a byte at a time by one table.
fn ccitt_by_table(bytes: &[u8]) -> u16 {
    bytes.iter().fold(0xFFFF, |crc: u16, &byte| (crc << 8) ^ CCITT_TABLE[usize::from((crc >> 8) as u8 ^ byte)])
}

static CCITT_TABLE: [u16; 256] = ccitt_table();

const fn ccitt_table() -> [u16; 256] {
    let mut table = [0; 256];
    let mut index = 0;
    while index < 256 {
        let mut crc = (index as u16) << 8;
        let mut bit = 0;
        while bit < 8 {
            crc = if crc & 0x8000 != 0 { (crc << 1) ^ 0x1021 } else { crc << 1 };
            bit += 1;
        }
        table[index] = crc;
        index += 1;
    }
    table
}
