//! Further stored runs of the program `console`: what is too long, or too much, for
//! the stored session. `tests/runs/NAME/stdin` is the text of each. As there, every
//! line carries what the papers ask to be written for it.

use crate::console_stored::{fa_reply, fb_reply, fd_reply, fe_reply, Story, BOARDS};
use crate::console_stored_ends::start_check;
use crate::rng::Rng;
use crate::stored::hex;
use crate::wire::{fa, fb, fc, fd, fe, frame, Image};

pub struct Run {
    pub name: &'static str,
    pub story: Story,
    /// The last line ends with a newline.
    pub ended: bool,
}

impl Run {
    /// What the run's standard input is.
    pub fn text(&self) -> String {
        let mut text = self.story.text();
        if !self.ended {
            text.pop();
        }
        text
    }
}

pub fn runs() -> Vec<Run> {
    vec![
        Run { name: "console-long-lines", story: long_lines(), ended: true },
        Run { name: "console-many-reads", story: many_reads(), ended: true },
        Run { name: "console-no-newline", story: no_newline(), ended: false },
    ]
}

/// The most bytes that a line has.
const MOST: usize = 65_535;
const TOO_LONG: &str = "bad a line has at most 65535 bytes";
/// The board of these runs: the bench's, and its soft version.
const CHANNEL: u8 = 10;
const SOFT: [u8; 3] = [1, 0, 2];

/// The bench's board, and the record opened with an area of this length.
fn open(s: &mut Story, length: usize) {
    s.line(&format!("board 0 {}", BOARDS[0]), "ok");
    s.line(&format!("area {length}"), "ok");
    s.line(
        &format!("open 1 {length}"),
        &format!("open 0 | boards=1 board0=1,0A,010002,010000,0000000000000000 opened={length}"),
    );
}

/// FA with 512, and FB: the image is told.
fn tell(s: &mut Story, image: &Image) {
    let changes = "| phase=asked channel=10 agreed=512";
    s.answered(&fa(CHANNEL, 512), &fa_reply(CHANNEL, 0, SOFT), changes);
    let (announced, md5, crc) = (image.length, hex(&image.md5), image.crc32);
    s.answered(
        &fb(CHANNEL, image),
        &fb_reply(CHANNEL, 0, 0, 0),
        &format!(
            "| phase=told image-channel=10 version=010003 announced={announced} md5={md5} \
             crc={crc:08X}"
        ),
    );
}

/// FE, and a portion that reads all.
fn end(s: &mut Story, image: &Image) {
    start_check(s, CHANNEL);
    let (count, reply) = (image.length, hex(&fe_reply(CHANNEL, 0)));
    s.line(
        "portion 18446744073709551615",
        &format!(
            "portion 0 count={count} verdict=right reply={reply} past=- | phase=done checking=0 \
             register=00000000"
        ),
    );
}

/// The front, spaces, and the back, so many bytes in all.
fn spaced(front: &str, back: &str, length: usize) -> String {
    format!("{front}{}{back}", " ".repeat(length - front.len() - back.len()))
}

fn long_lines() -> Story {
    let mut story = Story::default();
    let s = &mut story;
    let request = hex(&fe(CHANNEL));
    let refused = |taken: usize| {
        let reply = hex(&fe_reply(CHANNEL, 3));
        format!("0 taken={taken} dropped=0 command=FE length=1 reply={reply} past=- area=- |")
    };
    s.note("Lines at and above the most that a line has, 65,535 bytes. What is too long is bad,");
    s.note("changes nothing, and counts as one line; right commands stand between and behind.");
    open(s, MOST);
    s.note("65,535 bytes: feed, spaces, and FE at the very end. Bad are the same with one space");
    s.note("more, and with so many that it has 200,000 bytes.");
    s.line(&spaced("feed", &request, MOST), &format!("feed {}", refused(8)));
    s.line(&spaced("feed", &request, MOST + 1), TOO_LONG);
    s.feed(&fe(CHANNEL), &refused(8));
    s.line(&spaced("feed", &request, 200_000), TOO_LONG);
    s.feed(&fe(CHANNEL), &refused(8));
    s.note("Right at its front, and too long by spaces at its end.");
    s.line(&spaced("set next 65537", "", MOST + 1), TOO_LONG);
    s.line("show", "show | boards=1 .. opened=65535");
    s.note("Comments: one of 65,535 bytes is passed over, one of 65,536 is a bad line.");
    s.note(&".".repeat(MOST - 2));
    s.line(&format!("# {}", ".".repeat(MOST - 1)), TOO_LONG);
    s.line("quiet", "quiet 1 taken=0 dropped=0 command=00 length=0 reply=- past=- area=- |");
    s.note("The most bytes that a line has place for: 32,765 that are no frame.");
    let strays = "0".repeat(MOST - 5);
    s.line(
        &format!("feed {strays}"),
        "feed 1 taken=32765 dropped=32765 command=00 length=0 reply=- past=- area=- |",
    );
    s.note("32,761 bytes for the area by one line; the end check says that they stand there.");
    let bytes: Vec<u8> = (0..32_761).map(|place: u32| (place % 251 + 1) as u8).collect();
    let image = Image::new([1, 0, 3], 0x77, bytes);
    tell(s, &image);
    s.line(&format!("write area 0 {}", hex(&image.bytes)), "ok");
    s.lines(&["set phase receiving", "set stored 32761"]);
    end(s, &image);
    story
}

fn no_newline() -> Story {
    let mut story = Story::default();
    let s = &mut story;
    s.note("The last line has no newline: it is a line all the same.");
    open(s, 200);
    s.feed(&fe(CHANNEL)[..6], "1 taken=6 .. | holding=6 held=0:55AA00FE0001");
    let reply = hex(&fe_reply(CHANNEL, 3));
    s.feed(
        &fe(CHANNEL)[6..],
        &format!(
            "0 taken=2 dropped=0 command=FE length=1 reply={reply} past=- area=- | holding=0 \
             held=0:000000000000"
        ),
    );
    story
}

/// So many bytes at least; the reads of a program end within lines, wherever a
/// multiple of `READ` bytes ends (the self-tests see to it).
const INPUT: usize = 200_000;
const IMAGE: usize = 58_000;
pub const READ: usize = 1_024;
const SEED: u64 = 3;

fn many_reads() -> Story {
    let mut story = Story::default();
    let s = &mut story;
    let mut rng = Rng::new(SEED);
    s.note("A transfer in packets of 1 to 512 bytes with other lines between, some 200,000 bytes:");
    s.note("far more than a read brings, and every read ends within a line.");
    let bytes: Vec<u8> = (0..IMAGE).map(|_| rng.byte() | 1).collect();
    let image = Image::new([1, 0, 3], 0x77, bytes);
    open(s, image.bytes.len());
    tell(s, &image);
    s.answered(&fc(CHANNEL, 0), &fc(CHANNEL, 0), "| phase=receiving");
    let (mut at, mut number, mut length) = (0, 0, 0);
    while at < image.bytes.len() || length < INPUT {
        let before = s.entries.len();
        let left = image.bytes.len() - at;
        match rng.below(8) {
            0..=3 if left > 0 => {
                let most = rng.pick(&[4, 40, 512]);
                let n = left.min(1 + rng.below(most));
                let part = &image.bytes[at..at + n];
                next_packet(s, &mut rng, number, at, part);
                (at, number) = (at + n, number + 1);
                if rng.chance(100) {
                    let again = fd_reply(CHANNEL, 0);
                    s.answered(&fd(CHANNEL, number - 1, part), &again, "|");
                }
            }
            kind => between(s, &mut rng, kind),
        }
        length += s.entries[before..].iter().map(|entry| entry.line.len() + 1).sum::<usize>();
    }
    end(s, &image);
    s.line("show", "show | .. phase=done channel=10 agreed=512 .. stored=58000 ..");
    story
}

/// The packet from place `at` on, in one piece or two.
fn next_packet(s: &mut Story, rng: &mut Rng, number: u16, at: usize, bytes: &[u8]) {
    let packet = fd(CHANNEL, number, bytes);
    let reply = hex(&fd_reply(CHANNEL, 0));
    let cut = if rng.chance(200) { 1 + rng.below(packet.len() - 1) } else { 0 };
    let (front, rest) = packet.split_at(cut);
    let mut emptied = "|";
    if cut > 0 {
        let held = format!("holding={cut} held=0:55..");
        s.feed(front, &format!("1 taken={cut} dropped=0 .. area=- | {held}"));
        emptied = "| holding=0 held=0:00 ..";
    }
    let (taken, data, next, stored) =
        (rest.len(), hex(bytes), u32::from(number) + 1, at + bytes.len());
    s.feed(
        rest,
        &format!(
            "0 taken={taken} dropped=0 command=FD length={} reply={reply} past=- area={at}:{data} \
             {emptied} next={next} stored={stored} ..",
            bytes.len() + 7
        ),
    );
}

/// Lines that do not go on with the transfer.
fn between(s: &mut Story, rng: &mut Rng, kind: usize) {
    match kind {
        0 | 4 => s.note(&"comment ".repeat(rng.below(30))),
        1 => s.unanswered(2, &frame(0x00, 0x56, &vec![0x5A; rng.below(100)])),
        2 => s.line("quiet", "quiet 1 taken=0 dropped=0 command=00 length=0 .. area=- |"),
        3 => s.line("portion 1", "portion 18 count=0 verdict=unfinished reply=- past=- |"),
        5 => s.line("", ""),
        6 => s.line(&"bad ".repeat(1 + rng.below(40)), "bad no such command"),
        _ => {
            let fine = spaced("feed", &hex(&crate::wire::f9(0)), 21 + rng.below(200));
            s.line(&fine, "feed 0 taken=8 dropped=0 command=F9 length=1 reply=- past=- area=- |");
        }
    }
}
