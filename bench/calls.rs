//! One call on a record: a feeding call that answers a frame, or a portion call of the end check.

use std::cell::RefCell;
use std::io;

use crate::captures::{frame, Transfer, OPENING_FRAMES, PACKETS};
use crate::crc;
use crate::record::{Memory, AREA};
use crate::timing::{each, medians, Run, Task, RUNS};

/// How often a capture is fed for one time, which takes some milliseconds.
const FEEDINGS: usize = 16;
/// How many information requests follow each other.
const REQUESTS: usize = 16;
const CHANNEL: u8 = 10;
/// The size of a portion, and how many checks in such portions take some milliseconds.
const PORTIONS: [(&str, usize, usize); 5] = [
    ("portion of 1 byte", 1, 1),
    ("portion of 64 bytes", 64, 8),
    ("portion of 512 bytes", 512, 64),
    ("portion of 4,096 bytes", 4096, 128),
    ("portion of 65,536 bytes", 65_536, 128),
];

/// Frames of one kind, each taken by one feeding call, and what is fed before them.
struct Row {
    what: &'static str,
    before: Vec<u8>,
    frames: Vec<u8>,
    count: usize,
}

/// Feeding calls on a record, each of which ends at its frame.
pub fn frames(transfer: &Transfer) -> io::Result<()> {
    packets_are_stored(transfer);
    requests_are_answered(transfer, transfer.inquiry(), &[]);
    requests_are_answered(transfer, transfer.unended(), &transfer.image());
    unknown_frames_are_ignored(transfer);
    let rows = rows(transfer);
    println!("\nOne feeding call that takes a whole frame. Frames of one kind follow each other; a call is offered all bytes left.");
    println!("Medians of {RUNS} runs each, interleaved; the median of opening and feeding what stands behind \"after\" is subtracted.\n");
    println!("| what | median ns a call |\n|---|---|");
    for row in &rows {
        let whole = [row.before.as_slice(), &row.frames].concat();
        let medians = medians(&[("without", fed(&row.before)), ("with", fed(&whole))])?;
        println!("| {} | {:.0} |", row.what, each(medians[1] - medians[0], FEEDINGS * row.count));
    }
    Ok(())
}

fn rows(transfer: &Transfer) -> [Row; 4] {
    [
        Row {
            what: "FD with 512 bytes, answered: 128 after FA, FB and FC",
            before: transfer.opening().to_vec(),
            frames: transfer.packets().to_vec(),
            count: PACKETS,
        },
        Row {
            what: "the same frames with command 00, outcome 2: 128 after FA, FB and FC",
            before: transfer.opening().to_vec(),
            frames: transfer.unknown(),
            count: PACKETS,
        },
        Row {
            what: "FB, answered, nothing stored: 16 after FA",
            before: transfer.inquiry().to_vec(),
            frames: transfer.request().repeat(REQUESTS),
            count: REQUESTS,
        },
        Row {
            what: "FB, answered, 65,536 bytes stored: 16 after FA, FB, FC and 128 FDs",
            before: transfer.unended().to_vec(),
            frames: transfer.request().repeat(REQUESTS),
            count: REQUESTS,
        },
    ]
}

fn fed(bytes: &[u8]) -> Run<'_> {
    let memory = RefCell::new(Memory::new());
    Box::new(move || {
        for _ in 0..FEEDINGS {
            memory.borrow_mut().feed(bytes, usize::MAX);
        }
        Ok(())
    })
}

/// Each packet is a frame, the area is the image then, and the last reply is FD's with state 00.
fn packets_are_stored(transfer: &Transfer) {
    let mut memory = Memory::new();
    assert_eq!(memory.feed(transfer.unended(), usize::MAX), OPENING_FRAMES + PACKETS);
    assert_eq!(memory.area, transfer.image());
    assert!(memory.room.starts_with(&frame(0x00, 0xFD, &[CHANNEL, 0])));
}

/// FB's reply has state 00, the stored length and the CRC-32 of what is stored, and has it again when FB comes again. What the packet
/// between the two changes is the room alone: none is open by then, so its reply has state 04.
fn requests_are_answered(transfer: &Transfer, before: &[u8], stored: &[u8]) {
    let mut data = vec![CHANNEL, 0];
    data.extend((stored.len() as u32).to_be_bytes());
    data.extend(crc::crc32(stored).to_be_bytes());
    data.extend([0; 16]);
    let (request, packet) = (transfer.request(), transfer.packet());
    let mut memory = Memory::new();
    memory.feed(&[before, request].concat(), usize::MAX);
    assert_eq!(memory.room.as_slice(), frame(0x10, 0xFB, &data));
    memory.feed(&[before, request, packet].concat(), usize::MAX);
    assert!(memory.room.starts_with(&frame(0x00, 0xFD, &[CHANNEL, 4])));
    memory.feed(&[before, request, packet, request].concat(), usize::MAX);
    assert_eq!(memory.room.as_slice(), frame(0x10, 0xFB, &data));
}

/// Each of them is a frame, the area stays and the last reply is FC's.
fn unknown_frames_are_ignored(transfer: &Transfer) {
    let mut memory = Memory::new();
    let fed = [transfer.opening(), &transfer.unknown()].concat();
    assert_eq!(memory.feed(&fed, usize::MAX), OPENING_FRAMES + PACKETS);
    assert_eq!(memory.area, vec![0; AREA]);
    assert!(memory.room.starts_with(&frame(0x00, 0xFC, &[CHANNEL, 0, 0, 0, 0])));
}

/// Portion calls on a record that was fed a transfer with its FE. The feeding is
/// timed by itself too, with no portion call behind it, and subtracted.
pub fn portions(transfer: &Transfer) -> io::Result<()> {
    let transfer = &transfer.bytes;
    let mut tasks: Vec<Task> = vec![("feeding alone", checked(transfer, AREA, 0))];
    for (what, most, checks) in PORTIONS {
        assert_eq!(Memory::new().check(transfer, most, AREA.div_ceil(most) - 1), 0); // a check takes no fewer calls
        tasks.push((what, checked(transfer, most, checks)));
    }
    let medians = medians(&tasks)?;
    println!("\nOne portion call of the end check. An image of 65,536 bytes is read in portions of one size, call after call.");
    println!("Medians of {RUNS} runs each, interleaved; the median of opening and feeding the transfer is subtracted.\n");
    println!("| what | median ns a call | ns a byte |\n|---|---|---|");
    for ((what, most, checks), median) in PORTIONS.into_iter().zip(&medians[1..]) {
        let time = each(median - medians[0], checks * AREA.div_ceil(most));
        println!("| {what} | {time:.0} | {:.2} |", time / most as f64);
    }
    Ok(())
}

/// So many checks, each with as many calls as it takes to read the whole image.
fn checked<'a>(transfer: &'a [u8], most: usize, checks: usize) -> Run<'a> {
    Box::new(move || {
        let found = Memory::new().check(transfer, most, checks * AREA.div_ceil(most));
        if found == checks { Ok(()) } else { Err(io::Error::other("the end checks took other calls")) }
    })
}
