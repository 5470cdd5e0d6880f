//! The stored session: the longest frames.

use crate::console_stored::{fa_reply, fd_reply, Story, SECOND, SECOND_PID, SECOND_SOFT};
use crate::console_stored_ends::{start_check, verdict};
use crate::console_stored_transfers::{idle_packet, packet, place, tell};
use crate::crc::crc16;
use crate::stored::hex;
use crate::wire::{fa, fd, fd_raw, Image};

/// Two packets of 512 bytes and one of 76, as many as the record is opened with. No
/// byte is 00, so that each is told where it is written over zeros.
const LENGTH: usize = 1_100;

fn long_image() -> Image {
    let bytes = (0..LENGTH).map(|place| (place % 251 + 1) as u8).collect();
    Image { pid: SECOND_PID, ..Image::new([2, 5, 1], 0xC3, bytes) }
}

pub fn full_packets(s: &mut Story) {
    let image = long_image();
    let (one, two) = (&image.bytes[..512], &image.bytes[512..1_024]);
    s.group("The longest frames: packets of 512 bytes in frames of 526. Opened 1,100.");
    s.line(&format!("write area 0 {}", "00".repeat(LENGTH)), "ok");
    s.lines(&["area 1100"]);
    s.line("open 4 1100", "open 0 | opened=1100 channel=0 agreed=0 next=0");
    s.note("511 agreed: 512 bytes are 02.");
    let granted = fa_reply(SECOND, 0, SECOND_SOFT);
    s.answered(&fa(SECOND, 511), &granted, "| phase=asked channel=12 agreed=511");
    let identity = format!("md5={} crc={:08X}", "C3".repeat(16), image.crc32);
    let told = format!("| phase=told image-channel=12 version=020501 announced=1100 {identity}");
    tell(s, SECOND, &image, 0, &told);
    place(s, SECOND, 0, 0, "| phase=receiving");
    idle_packet(s, 2, &fd(SECOND, 0, one));
    s.note("512 agreed: taken in one call. Sent again 00, CRC-16 wrong 03, another last byte 01.");
    s.answered(&fa(SECOND, 512), &granted, "| phase=asked agreed=512");
    tell(s, SECOND, &image, 0, "| phase=told");
    place(s, SECOND, 0, 0, "| phase=receiving");
    let reply = hex(&fd_reply(SECOND, 0));
    let whole =
        |taken: u32| format!("0 taken={taken} dropped=0 command=FD length=519 reply={reply}");
    s.feed(
        &fd(SECOND, 0, one),
        &format!("{} past=- area=0:{} | next=1 stored=512 last=512", whole(526), hex(one)),
    );
    s.feed(&fd(SECOND, 0, one), &format!("{} past=- area=- |", whole(526)));
    idle_packet(s, 3, &fd_raw(SECOND, 0, 512, crc16(one) ^ 0x100, one));
    let mut other = one.to_vec();
    other[511] ^= 1;
    idle_packet(s, 1, &fd(SECOND, 0, &other));
    s.note("Again, its last byte coming alone; then with all 526 held: no new byte is taken.");
    let again = fd(SECOND, 0, one);
    let (front, last) = again.split_at(525);
    s.feed(front, &format!("1 taken=525 .. area=- | holding=525 held=0:{}", hex(front)));
    let zeros = "00".repeat(525);
    s.feed(last, &format!("{} past=- area=- | holding=0 held=0:{zeros}", whole(1)));
    hold(s, &again);
    s.feed(&[0x55], &format!("{} past=- area=- | holding=0 held=0:{zeros} ..", whole(0)));
    s.note("The second one held, and quiet. The last one has 76 bytes: the area is full.");
    hold(s, &fd(SECOND, 1, two));
    let area = format!("area=512:{}", hex(two));
    s.line(
        "quiet",
        &format!(
            "quiet {} past=- {area} | holding=0 held=0:{zeros} .. next=2 stored=1024",
            whole(0)
        ),
    );
    idle_packet(s, 0, &fd(SECOND, 1, two));
    idle_packet(s, 2, &fd(SECOND, 2, one));
    packet(s, SECOND, 2, 1_024, &image.bytes[1_024..], "| next=3 stored=1100 last=76");
    start_check(s, SECOND);
    verdict(s, "1100", LENGTH, true, "| phase=done checking=0 register=00000000");
}

/// A frame put into the held places as a whole.
fn hold(s: &mut Story, frame: &[u8]) {
    let bytes = hex(frame);
    s.line(&format!("set held 0 {bytes}"), "set | held=0:55AA ..");
    s.line(&format!("set holding {}", frame.len()), &format!("set | holding={}", frame.len()));
}
