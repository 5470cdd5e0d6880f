//! Self-tests of the console's rules for records: each clause of outcome 9, at its
//! edge and past it, by hand and on random records; the order of refusals; opening.

use crate::console::record::{Board, Phase, Record};
use crate::rng::Rng;
use crate::selftest::Tally;
use crate::selftest_console::{answers, begins, bench, gives, last_answer, outcome};
use crate::selftest_receivers::{receiver_of, record_of};

pub fn run(t: &mut Tally) {
    held_list_and_length(t);
    stored_announced_next(t);
    channel_and_agreed_unless_idle(t);
    a_running_check(t);
    refusals_in_order(t);
    opening(t);
    outcome_nine(t);
}

const MAX: &str = "18446744073709551615";

/// Whether the record, opened for the bench board and then set so, meets 9: in all
/// calls alike, with nothing changed.
fn meets_9(t: &mut Tally, settings: &str) -> bool {
    let set = settings.split(',').map(|field| format!("set {}", field.trim()));
    let lines: Vec<String> =
        set.chain(["report", "quiet", "portion 1"].map(String::from)).collect();
    let lines: Vec<&str> = lines.iter().map(String::as_str).collect();
    let all = answers(&bench(&lines));
    let calls = &all[all.len() - 3..];
    let nines = calls.iter().filter(|answer| outcome(answer) == "9").count();
    t.holds(&format!("{settings}: alike in {calls:?}"), nines == 0 || nines == 3);
    t.holds(&format!("{settings}: as it was"), nines == 0 || calls[1].ends_with("area=- |"));
    nines > 0
}

fn lawful(t: &mut Tally, settings: &str) {
    let nine = meets_9(t, settings);
    t.holds(&format!("{settings}: lawful"), !nine);
}

fn unlawful(t: &mut Tally, settings: &str) {
    let nine = meets_9(t, settings);
    t.holds(&format!("{settings}: meets 9"), nine);
}

fn held_list_and_length(t: &mut Tally) {
    lawful(t, "holding 526");
    unlawful(t, "holding 527");
    unlawful(t, &format!("holding {MAX}"));
    unlawful(t, "boards 0");
    unlawful(t, "boards 2");
    lawful(t, "boards 2, board 1 0 13 000000 000000 0000000000000000");
    unlawful(t, "boards 2, board 1 0 14 000000 000000 0000000000000000");
    unlawful(t, "boards 2, board 1 0 09 000000 000000 0000000000000000");
    unlawful(t, "boards 2, board 1 0 0A 000000 000000 0000000000000000");
    lawful(t, "board 1 0 0A 000000 000000 0000000000000000");
    unlawful(t, "boards 11");
    unlawful(t, &format!("boards {MAX}"));
    unlawful(t, "opened 0");
    lawful(t, "opened 1");
    lawful(t, "opened 1048576");
    unlawful(t, "opened 1048577");
    unlawful(t, &format!("opened {MAX}"));
}

fn stored_announced_next(t: &mut Tally) {
    lawful(t, "announced 65536, stored 65536");
    unlawful(t, "announced 65537");
    unlawful(t, "announced 8, stored 9");
    unlawful(t, &format!("announced {MAX}, stored {MAX}"));
    lawful(t, "next 65536");
    unlawful(t, "next 65537");
    unlawful(t, &format!("next {MAX}"));
    lawful(t, "announced 600, stored 512, last 512");
    unlawful(t, "announced 600, stored 600, last 513");
    unlawful(t, "announced 600, stored 511, last 512");
    unlawful(t, &format!("last {MAX}"));
}

fn channel_and_agreed_unless_idle(t: &mut Tally) {
    lawful(t, "channel 99, agreed 99999");
    for phase in ["asked", "told", "receiving", "done"] {
        let here = |rest: &str| format!("phase {phase}, announced 1, {rest}");
        lawful(t, &here("channel 10, agreed 16"));
        lawful(t, &here("channel 10, agreed 512"));
        unlawful(t, &here("channel 10, agreed 15"));
        unlawful(t, &here("channel 10, agreed 513"));
        unlawful(t, &here(&format!("channel 10, agreed {MAX}")));
        unlawful(t, &here("channel 11, agreed 16"));
        let unannounced = format!("phase {phase}, channel 10, agreed 16");
        match phase {
            "asked" => lawful(t, &unannounced),
            _ => unlawful(t, &unannounced),
        }
    }
}

fn a_running_check(t: &mut Tally) {
    for phase in ["idle", "asked", "told", "receiving", "done"] {
        let here = |rest: &str| {
            format!("phase {phase}, channel 10, agreed 16, announced 9, stored 9, {rest}")
        };
        let may_run = match phase {
            "receiving" | "done" => lawful,
            _ => unlawful,
        };
        may_run(t, &here("checking 1"));
        may_run(t, &here("checking 1, read 8"));
        unlawful(t, &here("checking 1, read 9"));
        unlawful(t, &here(&format!("checking 1, read {MAX}")));
        unlawful(t, &here("checking 1, stored 8"));
        lawful(t, &here(&format!("checking 0, stored 8, read {MAX}")));
    }
}

/// "Calls check 9, 6, 5"; the outward F9 "9, then 11".
fn refusals_in_order(t: &mut Tally) {
    gives(t, &bench(&["room 33", "quiet"]), "1");
    gives(t, &bench(&["room 32", "quiet"]), "5");
    gives(t, &bench(&["room 32", "area 65535", "quiet"]), "6");
    gives(t, &bench(&["room 32", "area 65535", "set boards 11", "quiet"]), "9");
    gives(t, &bench(&["room 14", "report"]), "11");
    gives(t, &bench(&["room 14", "set boards 11", "report"]), "9");
    gives(t, &bench(&["area 1", "report"]), "0");
}

fn opening(t: &mut Tally) {
    let twice = "board 1 0 0A 010002 010000 0000000000000000";
    let opened = |count: &str, length: &str| {
        last_answer(&bench(&[twice, &format!("open {count} {length}")]))
    };
    begins(t, &opened("1", "1"), "open 0 | opened=1");
    begins(t, &opened("1", "1048576"), "open 0 | opened=1048576");
    let zero = "| boards=0 board0=0,00,000000,000000,0000000000000000 opened=0";
    for length in ["0", "1048577", MAX] {
        t.same(&format!("length {length}"), opened("1", length), format!("open 7 {zero}"));
    }
    for count in ["0", "2", "3", "11", "4294967297", MAX] {
        t.same(&format!("{count} boards"), opened(count, "0"), format!("open 8 {zero}"));
    }
    // Ten boards: the longest report. A fresh record has zeros in unused places.
    let boards: String = (0..10)
        .map(|place| format!("board {place} 1 {:02X} 010203 040506 0000000000000000\n", 19 - place))
        .collect();
    let report = last_answer(&format!("{boards}open 10 5\nroom 78\nreport"));
    begins(t, &report, "report 0 frame=55AA00F900470A13010203040506120102030405061101");
    let fewer = last_answer(&format!("{boards}open 10 5\nopen 9 5"));
    let wanted = "open 0 | boards=9 board9=0,00,000000,000000,0000000000000000";
    t.same("nine boards after ten", fewer, wanted.into());
}

/// Outcome 9 on raw records, against its clauses one by one, at and around edges. The
/// model's other receiver, made from such a record, says the same of it.
fn outcome_nine(t: &mut Tally) {
    let mut rng = Rng::new(9);
    let mut lawful = 0;
    for _ in 0..20_000 {
        let record = some_record(&mut rng);
        let broken = broken_clauses(&record);
        t.same("outcome 9", record.is_lawful(), broken.is_empty());
        lawful += usize::from(record.is_lawful());
        let receiver = receiver_of(&record);
        t.holds("a lawful one becomes a receiver", receiver.is_some() || !record.is_lawful());
        if let Some(receiver) = receiver {
            t.same("lawful as the receiver's", receiver.lawful(), record.is_lawful());
            t.holds("and back", record_of(&receiver, &record) == record);
        }
    }
    t.holds("many are lawful, many are not", (4_000..16_000).contains(&lawful));
}

/// The clauses of outcome 9 that the record meets.
fn broken_clauses(r: &Record) -> Vec<&'static str> {
    let used = if r.boards > 10 { &[] } else { &r.list[..r.boards as usize] };
    let twice = |channel: u8| used.iter().filter(|board| board.channel == channel).count() > 1;
    let unlisted = !used.iter().any(|board| board.channel == r.channel);
    let (announced, checking) = (r.identity.announced, r.check.running);
    let idle = r.phase == Phase::Idle;
    let asked = r.phase == Phase::Asked;
    let told = r.phase == Phase::Told;
    [
        ("held is above 526", r.holding > 526),
        ("no board or more than ten", r.boards == 0 || r.boards > 10),
        ("a channel below 10", used.iter().any(|board| board.channel < 10)),
        ("a channel above 19", used.iter().any(|board| board.channel > 19)),
        ("a channel twice", used.iter().any(|board| twice(board.channel))),
        ("opened 0", r.opened == 0),
        ("opened above 1,048,576", r.opened > 1_048_576),
        ("stored above announced", r.stored > announced),
        ("announced above opened", announced > r.opened),
        ("next number above 65,536", r.next > 65_536),
        ("channel not listed, not idle", !idle && unlisted),
        ("agreed size not 16 to 512, not idle", !idle && (r.agreed < 16 || r.agreed > 512)),
        ("announced 0 in told, receiving, done", !idle && !asked && announced == 0),
        ("last length above 512", r.last > 512),
        ("last length above stored", r.last > r.stored),
        ("a check has read all", checking && r.check.read >= announced),
        ("a check, not all stored", checking && r.stored != announced),
        ("a check, not receiving or done", checking && (idle || asked || told)),
    ]
    .into_iter()
    .filter_map(|(clause, broken)| broken.then_some(clause))
    .collect()
}

/// A record that is lawful, but for a field or two at or around an edge.
fn some_record(rng: &mut Rng) -> Record {
    let phases = [Phase::Idle, Phase::Asked, Phase::Told, Phase::Receiving, Phase::Done];
    let mut record = Record { boards: 2, opened: 600, ..Record::default() };
    for (place, channel) in [(0, 10), (1, 19), (2, 10)] {
        record.list[place] = Board { channel, ..Board::default() };
    }
    (record.identity.announced, record.stored, record.last) = (600, 600, 512);
    record.channel = 19;
    (record.phase, record.agreed) = (rng.pick(&phases), 16);
    if rng.chance(300) {
        (record.check.running, record.check.read) = (true, 599);
        record.phase = rng.pick(&[Phase::Receiving, Phase::Done, record.phase]);
    }
    for _ in 0..rng.below(3) {
        let near = rng.pick(&[0, 1, 15, 16, 17, 511, 512, 513, 599, 600, 601, u64::MAX]);
        match rng.below(14) {
            0 => record.boards = rng.pick(&[0, 1, 2, 3, 10, 11, u64::MAX]),
            1 => record.list[rng.below(3)].channel = rng.pick(&[9, 10, 11, 19, 20]),
            2 => record.opened = rng.pick(&[near, 1_048_576, 1_048_577]),
            3 => record.holding = rng.pick(&[0, 526, 527, u64::MAX]),
            4 => record.phase = rng.pick(&phases),
            5 => record.channel = rng.pick(&[0, 10, 11, 19]),
            6 => record.agreed = near,
            7 => record.next = rng.pick(&[0, 65_536, 65_537, u64::MAX]),
            8 => record.stored = near,
            9 => record.identity.announced = near,
            10 => record.last = near,
            11 => record.check.running = !record.check.running,
            12 => (record.identity.announced, record.stored, record.last) = (0, 0, 0),
            _ => record.check.read = near,
        }
    }
    record
}
