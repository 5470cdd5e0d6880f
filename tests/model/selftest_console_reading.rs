//! Self-tests of the console's live reading: taken and dropped counts, one frame a
//! call, held bytes and what stands past them.

use crate::console::frame::{self, front, Frame, Front, MOST_FRAME};
use crate::console::reader;
use crate::rng::Rng;
use crate::selftest::Tally;
use crate::selftest_console::{answers, begins, bench, ends, feed, last_answer, P1};

pub fn run(t: &mut Tally) {
    counts(t);
    past_the_held_bytes(t);
    a_full_hold(t);
    pieces_read_as_the_whole(t);
}

fn counts(t: &mut Tally) {
    let given = |line: &str| last_answer(&bench(&[line]));
    // The high byte of L alone can rule a frame out; the drop comes before the next byte is taken.
    begins(t, &given("feed 55AA000003"), "feed 1 taken=5 dropped=5 ");
    begins(t, &given("feed 55AA000002"), "feed 1 taken=5 dropped=0 ");
    begins(t, &given("feed 55AA00000207"), "feed 1 taken=6 dropped=0 ");
    begins(t, &given("feed 55AA00000208"), "feed 1 taken=6 dropped=6 ");
    ends(t, &given("feed 5555AA"), "| holding=2 held=0:55AA");
    begins(t, &given("feed"), "feed 1 taken=0 dropped=0 ");
    // Exactly one frame a call; what is behind it is not taken.
    begins(t, &given(&feed(&format!("{P1}{P1}"))), "feed 0 taken=8 dropped=0 ");
    // After a bad sum one byte goes, and the frame inside the claimed one is found.
    let inside = given(&feed(&format!("55AA0000 0008 {P1} 01")));
    begins(t, &inside, "feed 0 taken=15 dropped=6 command=FE ");
    ends(t, &inside, "| holding=1 held=0:01");
    // Frames among the held bytes come out one a call, quiet or not, with no new byte taken.
    let held = format!("set held 0 {P1}{P1}55");
    let all = answers(&bench(&[&held, "set holding 17", "feed 00", "quiet", "quiet"]));
    begins(t, &all[4], "feed 0 taken=0 dropped=0 command=FE ");
    t.holds("what is held now", all[4].contains("| holding=9 held=9:0000000000000000"));
    begins(t, &all[5], "quiet 0 taken=0 dropped=0 command=FE ");
    begins(t, &all[6], "quiet 1 taken=0 dropped=1 command=00 ");
}

fn past_the_held_bytes(t: &mut Tally) {
    let lines =
        ["set held 3 FF", "room 32", "feed 55", "room 33", "feed", "set held 525 01", "quiet"];
    let all = answers(&bench(&lines));
    begins(t, &all[4], "feed 5 ");
    ends(t, &all[4], " |");
    begins(t, &all[6], "feed 1 ");
    ends(t, &all[6], "| held=3:00");
    ends(t, &all[8], "| held=525:00");
    // Outcome 2 and its like leave zeros there too.
    let refused = last_answer(&bench(&["set held 3 FF", "feed 55AA0001000000"]));
    begins(t, &refused, "feed 2 ");
    ends(t, &refused, "| held=3:00");
}

/// 526 held bytes of an unfinished-looking front are always decided.
fn a_full_hold(t: &mut Tally) {
    let zeros = "00".repeat(519);
    let fed = |sum: &str| {
        let full = format!("set held 0 55AA00000207{zeros}{sum}");
        last_answer(&bench(&[&full, "set holding 526", "feed 55"]))
    };
    begins(t, &fed("08"), "feed 2 taken=0 dropped=0 command=00 length=519 ");
    begins(t, &fed("09"), "feed 1 taken=1 dropped=526 ");
}

/// "The reading of a byte sequence: at the front, if a whole frame begins there, it
/// is read and passed; otherwise one byte is dropped. Repeat." Where the frames
/// begin, and how many bytes are dropped.
fn whole_reading(bytes: &[u8]) -> (Vec<usize>, usize) {
    let (mut frames, mut dropped, mut at) = (Vec::new(), 0, 0);
    while at < bytes.len() {
        if let Front::Whole(frame) = front(&bytes[at..]) {
            frames.push(at);
            at += frame.size();
        } else {
            dropped += 1;
            at += 1;
        }
    }
    (frames, dropped)
}

/// The same, in pieces of any size with quiet at the end; also the most that is held.
fn read_in_pieces(rng: &mut Rng, bytes: &[u8]) -> ((Vec<usize>, usize), usize) {
    let (mut frames, mut dropped, mut at) = (Vec::new(), 0, 0);
    let (mut held, mut most_held) = (Vec::new(), 0);
    loop {
        let quiet = at == bytes.len() && rng.chance(500);
        let until = rng.between(at, bytes.len());
        let lent = [&held[..], &bytes[at..until]].concat();
        let reading = if quiet { reader::quiet(&held) } else { reader::feed(&lent, held.len()) };
        at += reading.taken;
        dropped += reading.dropped;
        if let Some(frame) = reading.frame {
            frames.push(at - reading.left.len() - frame.size());
        }
        let ended = quiet && reading.left.is_empty();
        held = reading.left.to_vec();
        most_held = most_held.max(held.len());
        if ended {
            return ((frames, dropped), most_held);
        }
    }
}

/// Small frames, sound, damaged or torn, whose data looks like fronts.
fn pieces_read_as_the_whole(t: &mut Tally) {
    let mut rng = Rng::new(1);
    for _ in 0..3_000 {
        let mut bytes = Vec::new();
        for _ in 0..rng.below(12) {
            let data: Vec<u8> = (0..rng.below(9)).map(|_| rng.pick(&[0x55, 0xAA, 0, 1])).collect();
            let mut room = [0; MOST_FRAME];
            let length = frame::write(&mut room, Frame { version: 0, command: 0x55, data: &data });
            room[rng.below(30)] ^= u8::from(rng.below(3) == 0);
            bytes.extend(&room[..length - usize::from(rng.chance(50))]);
        }
        let (pieces, most_held) = read_in_pieces(&mut rng, &bytes);
        t.same("pieces read as the whole", pieces, whole_reading(&bytes));
        t.holds("at most 526 bytes are held", most_held <= 526);
    }
}
