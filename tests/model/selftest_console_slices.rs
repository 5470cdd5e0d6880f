//! Self-tests of the console's end check in slices (document 02, K5).

use crate::selftest::Tally;
use crate::selftest_console::{
    answers, begins, bench, ends, feed, framed, gives, last_answer, outcome, receiving, value, FB,
    P1, P3, P6, P7,
};

pub fn run(t: &mut Tally) {
    every_frame_but_f9_gets_12_meanwhile(t);
    refusals_in_order(t);
    counts_and_verdicts(t);
    the_register_alone_carries_the_check(t);
}

/// The bench board, all nine bytes stored and the end check begun.
fn checking(lines: &[&str]) -> String {
    let start = [feed(P7), feed(P1)];
    receiving(&[&[start[0].as_str(), &start[1]], lines].concat())
}

fn every_frame_but_f9_gets_12_meanwhile(t: &mut Tally) {
    for frame in [P3, FB, P6, P7, P1] {
        let answer = last_answer(&checking(&[&feed(frame)]));
        t.same(frame, outcome(&answer), "12");
        ends(t, &answer, "reply=- past=- area=- |");
    }
    gives(t, &checking(&[&feed(&framed(0, 0xF9, &[1]))]), "0");
    gives(t, &checking(&[&feed(&framed(0, 0xFE, &[11]))]), "4");
    gives(t, &checking(&[&feed(&framed(1, 0xFE, &[10]))]), "3");
}

/// "9, 6, 5, then 18 when no check runs: count 0, unfinished, nothing changed."
fn refusals_in_order(t: &mut Tally) {
    let cases: [(&[&str], u8); 4] = [
        (&["portion 9"], 18),
        (&["room 32", "portion 9"], 5),
        (&["room 32", "area 9", "portion 9"], 6),
        (&["room 32", "area 9", "set boards 0", "portion 9"], 9),
    ];
    for (lines, number) in cases {
        let wanted = format!("portion {number} count=0 verdict=unfinished reply=- past=- |");
        t.same(&lines.join("; "), last_answer(&bench(lines)), wanted);
    }
}

fn counts_and_verdicts(t: &mut Tally) {
    let all = answers(&checking(&["portion 0", "portion 18446744073709551615", "portion 1"]));
    t.same("none", all[7].as_str(), "portion 19 count=0 verdict=unfinished reply=- past=- |");
    let right = "portion 0 count=9 verdict=right reply=55AA00FE00020A0009 past=- \
                 | phase=done checking=0 register=00000000";
    t.same("right", all[8].as_str(), right);
    t.same("no check runs", outcome(&all[9]), "18");
    let zeros = "0".repeat(32);
    // What stands past the held bytes (here 00 00 00 FF) is left.
    let wrong = format!(
        "portion 0 count=9 verdict=wrong reply=55AA00FE00020A030C past=- | phase=idle stored=0 \
         image-channel=0 version=000000 announced=0 md5={zeros} crc=00000000 last=0 \
         checking=0 register=00000000"
    );
    let lines = ["set held 3 FF", "write area 8 00", "portion 9"];
    t.same("wrong", last_answer(&checking(&lines)), wrong);
    // A check judges the area's bytes again in phase done.
    let again = last_answer(&checking(&["portion 9", &feed(P1), "portion 8"]));
    begins(t, &again, "portion 19 count=8 verdict=unfinished reply=- past=- | read=8 ");
}

fn the_register_alone_carries_the_check(t: &mut Tally) {
    // A register that is not this area's leads to wrong.
    let other = last_answer(&checking(&["portion 4", "set register 00000000", "portion 5"]));
    t.same("another register", value(&other, "verdict"), "wrong");
    // Fields of a check that does not run are not looked at, and a new one starts from the front.
    let set = ["set read 18446744073709551615", "set register 12345678"];
    let all = answers(&receiving(&[&feed(P7), set[0], set[1], &feed(P1), "portion 9"]));
    ends(t, &all[8], "| checking=1 read=0 register=FFFFFFFF");
    t.same("from the front", value(&all[9], "verdict"), "right");
}
