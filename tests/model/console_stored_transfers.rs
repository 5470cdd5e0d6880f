//! The stored session: transfers over several boards, the end check in portions,
//! legs, moves of the session, and what stands past the held bytes.

use crate::console_stored::{
    fa_reply, fb_reply, fd_reply, fe_reply, first_image, second_image, Story, FIRST, FIRST_SOFT,
    OPENED, SECOND, SECOND_SOFT, SHUT, SHUT_SOFT,
};
use crate::crc::{crc16, crc32};
use crate::session::Version;
use crate::stored::hex;
use crate::wire::{fa, fb, fc, fd, fd_raw, fe, Image};

/// FA granted on `SECOND`: what changes is told.
pub fn ask_second(s: &mut Story, changes: &str) {
    s.answered(&fa(SECOND, 16), &fa_reply(SECOND, 0, SECOND_SOFT), changes);
}

/// FB accepted on a channel, so many bytes of the image being stored.
pub fn tell(s: &mut Story, channel: u8, image: &Image, stored: usize, changes: &str) {
    let reply = fb_reply(channel, 0, stored as u32, crc32(&image.bytes[..stored]));
    s.answered(&fb(channel, image), &reply, changes);
}

/// FB refused with this state: both numbers of the reply are zero.
pub fn refuse(s: &mut Story, state: u8, image: &Image) {
    s.answered(&fb(SECOND, image), &fb_reply(SECOND, state, 0, 0), "| phase=idle");
}

/// FC; what it grants.
pub fn place(s: &mut Story, channel: u8, offset: u32, granted: u32, changes: &str) {
    s.answered(&fc(channel, offset), &fc(channel, granted), changes);
}

/// An FD that changes nothing.
pub fn idle_packet(s: &mut Story, state: u8, packet: &[u8]) {
    s.answered(packet, &fd_reply(packet[6], state), "|");
}

/// The next packet: written from place `at` on.
pub fn packet(s: &mut Story, channel: u8, number: u16, at: usize, bytes: &[u8], changes: &str) {
    let (reply, data) = (hex(&fd_reply(channel, 0)), hex(bytes));
    s.feed(
        &fd(channel, number, bytes),
        &format!("0 .. reply={reply} past=- area={at}:{data} {changes}"),
    );
}

pub fn asking_and_telling(s: &mut Story) {
    s.group("FA and FB: every board by its own permit, versions and PID.");
    s.note("Flag 1: Len1 0 and 15, no permit. Nothing changes. The board's own soft version.");
    s.answered(&fa(SECOND, 0), &fa_reply(SECOND, 1, SECOND_SOFT), "|");
    s.answered(&fa(SECOND, 15), &fa_reply(SECOND, 1, SECOND_SOFT), "|");
    s.answered(&fa(SHUT, 512), &fa_reply(SHUT, 1, SHUT_SOFT), "|");
    s.note("Flag 0: 16, then at most 512.");
    ask_second(s, "| phase=asked channel=12 agreed=16");
    for (len1, agreed) in [(511, 511), (512, 512)] {
        let reply = fa_reply(SECOND, 0, SECOND_SOFT);
        s.answered(&fa(SECOND, len1), &reply, &format!("| agreed={agreed}"));
    }
    for len1 in [513, 65_535] {
        s.answered(&fa(SECOND, len1), &fa_reply(SECOND, 0, SECOND_SOFT), "|");
    }
    ask_second(s, "| agreed=16");
    s.note("Asked: FC 10, FB 10 on another channel than the session's, FD 04, FE 03.");
    let image = second_image();
    s.unanswered(10, &fc(SECOND, 0));
    s.unanswered(10, &fb(FIRST, &first_image()));
    idle_packet(s, 4, &fd(SECOND, 0, b"x"));
    s.answered(&fe(SECOND), &fe_reply(SECOND, 3), "|");
    s.note("FB 01: the first board's PID, one bit off, and wrong in version and length too.");
    let like = |version: Version, length: u32| Image { version, length, ..image.clone() };
    refuse(s, 1, &Image { pid: [0; 8], ..image.clone() });
    for pid in [[0, 2, 3, 4, 5, 6, 7, 8], [1, 2, 3, 4, 5, 6, 7, 0]] {
        ask_second(s, "| phase=asked");
        refuse(s, 1, &Image { pid, ..like([0, 0, 0], 0) });
    }
    s.note("FB 02: equal, below in each part, above the first board's only; wrong length too.");
    for (version, length) in
        [([2, 5, 0], 40), ([2, 4, 255], 40), ([1, 255, 255], 0), ([1, 0, 3], OPENED + 1)]
    {
        ask_second(s, "| phase=asked");
        refuse(s, 2, &like(version, length));
    }
    s.note("FB 03: length 0 and one above the area's. 200 is right, as are 2.5.1 and 3.0.0.");
    for length in [0, OPENED + 1, u32::MAX] {
        ask_second(s, "| phase=asked");
        refuse(s, 3, &like([2, 5, 1], length));
    }
    ask_second(s, "| phase=asked");
    let whole = like([3, 0, 0], OPENED);
    let identity = format!(
        "image-channel=12 version=030000 announced=200 md5={} crc={:08X}",
        hex(&whole.md5),
        whole.crc32
    );
    tell(s, SECOND, &whole, 0, &format!("| phase=told {identity}"));
    s.note("Told: FB with the identity held. A room of 33 bytes: its reply fills it.");
    tell(s, SECOND, &whole, 0, "|");
    let fill = format!("write room 0 {}", "EE".repeat(34));
    s.lines(&[&fill, "room 33"]);
    tell(s, SECOND, &whole, 0, "|");
    s.note("FB with another identity, and a room of 34 bytes: the last byte stays.");
    s.lines(&[&fill, "room 34"]);
    tell(s, SECOND, &image, 0, "| version=020501 announced=40");
    s.lines(&["room 65536"]);
    s.note("Told: FC and FB 10 on another channel than the session's, FD 04, FE 03.");
    s.unanswered(10, &fc(FIRST, 0));
    s.unanswered(10, &fb(FIRST, &first_image()));
    idle_packet(s, 4, &fd(SECOND, 0, &image.bytes[..16]));
    s.answered(&fe(SECOND), &fe_reply(SECOND, 3), "|");
}

pub fn packets(s: &mut Story) {
    let image = second_image();
    let bytes = &image.bytes;
    s.group("FC and FD: 04, a packet sent again, 01, 02, 03, in this order.");
    place(s, SECOND, 0, 0, "| phase=receiving");
    s.note("04 on another channel; 01 before 02 and 03; 02 before 03.");
    idle_packet(s, 4, &fd(FIRST, 0, &bytes[..16]));
    idle_packet(s, 1, &fd(SECOND, 1, &bytes[..16]));
    idle_packet(s, 1, &fd_raw(SECOND, 65_535, 0, 0, b""));
    idle_packet(s, 2, &fd_raw(SECOND, 0, 15, 0, &bytes[..16]));
    idle_packet(s, 2, &fd_raw(SECOND, 0, 17, 0, &bytes[..16]));
    idle_packet(s, 2, &fd_raw(SECOND, 0, 0, 0xFFFF, b""));
    idle_packet(s, 2, &fd(SECOND, 0, &bytes[..17]));
    idle_packet(s, 3, &fd_raw(SECOND, 0, 16, crc16(&bytes[..16]) ^ 1, &bytes[..16]));
    packet(s, SECOND, 0, 0, &bytes[..16], "| next=1 stored=16 last=16");
    s.note("Sent again: 00, nothing changes; its CRC-16 wrong: 03. Almost it: 01, and 04 first.");
    idle_packet(s, 0, &fd(SECOND, 0, &bytes[..16]));
    idle_packet(s, 3, &fd_raw(SECOND, 0, 16, 0, &bytes[..16]));
    idle_packet(s, 4, &fd(FIRST, 0, &bytes[..16]));
    idle_packet(s, 1, &fd(SECOND, 0, b"Forty bytes for!"));
    idle_packet(s, 1, &fd(SECOND, 0, &bytes[1..16]));
    idle_packet(s, 1, &fd_raw(SECOND, 0, 15, crc16(&bytes[..16]), &bytes[..16]));
    idle_packet(s, 1, &fd_raw(SECOND, 0, 16, crc16(&bytes[1..16]), &bytes[1..16]));
    packet(s, SECOND, 1, 16, &bytes[16..32], "| next=2 stored=32");
    idle_packet(s, 1, &fd(SECOND, 0, &bytes[..16]));
    idle_packet(s, 0, &fd(SECOND, 1, &bytes[16..32]));
    s.note("9 bytes where 8 are left: 02. FE 01. Nothing changes.");
    idle_packet(s, 2, &fd(SECOND, 2, b"9 bytes, "));
    s.answered(&fe(SECOND), &fe_reply(SECOND, 1), "|");
    s.note("On other channels and with flag 1, the leg goes on: FE 03, FB and FC 10.");
    s.answered(&fe(FIRST), &fe_reply(FIRST, 3), "|");
    s.unanswered(10, &fb(FIRST, &first_image()));
    s.unanswered(10, &fc(FIRST, 32));
    s.answered(&fa(FIRST, 15), &fa_reply(FIRST, 1, FIRST_SOFT), "|");
    s.answered(&fa(SECOND, 15), &fa_reply(SECOND, 1, SECOND_SOFT), "|");
    s.answered(&fa(SHUT, 64), &fa_reply(SHUT, 1, SHUT_SOFT), "|");
    s.note("FB refused: idle, its numbers zero although 32 bytes are stored and kept.");
    refuse(s, 1, &Image { pid: [9; 8], ..image.clone() });
    idle_packet(s, 4, &fd(SECOND, 2, &bytes[32..]));
    s.note("Resumed: FA and FB leave next number, stored and last; FD is 04 until FC.");
    ask_second(s, "| phase=asked");
    tell(s, SECOND, &image, 32, "| phase=told");
    idle_packet(s, 4, &fd(SECOND, 1, &bytes[16..32]));
    s.note("The CRC-32 is that of the area's bytes as they now are.");
    s.lines(&["write area 5 00"]);
    let mut changed = image.clone();
    changed.bytes[5] = 0;
    tell(s, SECOND, &changed, 32, "|");
    s.line(&format!("write area 5 {:02X}", bytes[5]), "ok");
    place(s, SECOND, 32, 32, "| phase=receiving next=0 last=0");
    s.note("A new leg: no packet is sent again in it yet, and none is below number 0.");
    idle_packet(s, 1, &fd(SECOND, 1, &bytes[16..32]));
    idle_packet(s, 1, &fd(SECOND, 65_535, &bytes[16..32]));
    s.note("The last length is 0: nothing is a packet sent again, not one of no bytes either.");
    s.note(
        "Number next - 1, n and L - 7 are 0, CRC-16 right and wrong; the last stored bytes: 01.",
    );
    s.lines(&["set next 1"]);
    idle_packet(s, 1, &fd_raw(SECOND, 0, 0, 0xFFFF, b""));
    idle_packet(s, 1, &fd_raw(SECOND, 0, 0, 0, b""));
    idle_packet(s, 1, &fd(SECOND, 0, &bytes[16..32]));
    s.lines(&["set next 65536"]);
    idle_packet(s, 1, &fd_raw(SECOND, 65_535, 0, 0xFFFF, b""));
    s.lines(&["set next 0"]);
    packet(s, SECOND, 0, 32, &bytes[32..], "| next=1 stored=40 last=8");
    idle_packet(s, 0, &fd(SECOND, 0, &bytes[32..]));
    idle_packet(s, 2, &fd(SECOND, 1, b"x"));
}
