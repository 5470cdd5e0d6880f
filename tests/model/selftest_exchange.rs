//! Self-tests of the exchange: its words, the link, the lines, whole runs turn by
//! turn, and that a falsified output does not pass `cross`.

use std::collections::BTreeSet;
use std::io;

use crate::cross::{cross, Counts};
use crate::ends::{Action, Controller, End};
use crate::exchange::{exchange, stored_line, Exchange};
use crate::exchanges::{stored_words, words, KINDS};
use crate::link::{Event, Letter, Link, Travelling, Way, PLACES};
use crate::rng::Rng;
use crate::selftest::{unhex, Tally};
use crate::sender::Phase;
use crate::words::{Words, BUILT_IN_IMAGE, MAX_FILE};

pub fn run(t: &mut Tally) {
    good_words(t);
    bad_words(t);
    full_link(t);
    no_words(t);
    losses_and_silences(t);
    legs(t);
    giving_up(t);
    stored_run(t);
    false_area(t);
    random_runs(t);
    nothing_lost(t);
    falsified_lines(t);
    other_lines(t);
}

/// Reads words; the files are `LENGTH` with that many bytes.
fn read(words: &[&str]) -> Result<Words, String> {
    Words::read(words, |name| match name.parse() {
        Ok(length) => Ok(vec![7; length]),
        Err(_) => Err(io::ErrorKind::NotFound.into()),
    })
}

/// The output for the built-in image with this script.
fn linked(script: &str) -> String {
    exchange(&read(&[&format!("link={script}")]).unwrap()).0
}

/// The output's lines without the frames' bytes.
fn brief(text: &str) -> Vec<String> {
    let brief = |line: &str| match line.split(' ').collect::<Vec<_>>()[..] {
        [arrow @ ("->" | "<-"), command, _, ref fate @ ..] => {
            format!("{arrow} {command} {}", fate.join(" "))
        }
        _ => line.to_string(),
    };
    text.lines().map(brief).collect()
}

/// The output's lines must be these; `lines` has them with `; ` between.
fn same_lines(t: &mut Tally, what: &str, text: &str, lines: &[&str]) {
    let wanted: Vec<&str> = lines.iter().flat_map(|line| line.split("; ")).collect();
    t.same(what, brief(text), wanted.iter().map(|line| line.to_string()).collect());
}

fn good_words(t: &mut Tally) {
    let plain = Words { image: BUILT_IN_IMAGE.to_vec(), channel: 10, size: 16, script: Vec::new() };
    t.same("no words", read(&[]), Ok(plain.clone()));
    t.same("an empty script", read(&["link="]), Ok(plain.clone()));
    t.same("the same in words", read(&["size=16", "channel=10"]), Ok(plain.clone()));
    t.same("five digits", read(&["size=00016", "channel=00010"]), Ok(plain.clone()));
    let script = vec![Letter::Repeat, Letter::Silence, Letter::Pass, Letter::Lose];
    let wanted = Words { image: vec![7; MAX_FILE], channel: 19, size: 65_535, script };
    let all = ["link=rspl", "size=65535", "image=65536", "channel=019"];
    t.same("all words", read(&all), Ok(wanted));
    t.same("one byte", read(&["image=1"]), Ok(Words { image: vec![7], ..plain }));
    t.same("the built-in image has 40 bytes", BUILT_IN_IMAGE.len(), 40);
}

fn bad_words(t: &mut Tally) {
    let bad: [&[&str]; 29] = [
        &[""],
        &["p"],
        &["="],
        &["link"],
        &["links="],
        &["Link="],
        &[" link="],
        &["link=x"],
        &["link=P"],
        &["link=p p"],
        &["link=p", "link=p"],
        &["link=", "size=16", "link="],
        &["channel=9"],
        &["channel=20"],
        &["channel="],
        &["channel=+10"],
        &["channel=1O"],
        &["channel=000010"],
        &["channel=10", "channel=10"],
        &["size=15"],
        &["size=65536"],
        &["size=000016"],
        &["size=-16"],
        &["size=16 "],
        &["size=16", "size=17"],
        &["image="],
        &["image=0"],
        &["image=65537"],
        &["image=1", "image=1"],
    ];
    for words in bad {
        let got = read(words);
        let one_line = got.as_ref().is_err_and(|line| !line.contains('\n'));
        t.holds(&format!("bad words {words:?}"), one_line);
    }
    let line = read(&["image=two\nlines"]).unwrap_err();
    t.holds("one line whatever the word", !line.contains('\n'));
}

/// "A copy for which all 64 places are taken is lost." The letter is used up.
fn full_link(t: &mut Tally) {
    let frame = Travelling { way: Way::ToSender, bytes: vec![1] };
    let mut script = vec![Letter::Pass; PLACES - 1];
    script.extend([Letter::Repeat, Letter::Repeat, Letter::Pass, Letter::Lose, Letter::Silence]);
    let mut link = Link::new(&script);
    let lost: usize = (1..PLACES).map(|_| link.send(&frame)).sum();
    t.same("63 places", lost, 0);
    t.same("r, one place left", link.send(&frame), 1);
    t.same("r, none left", link.send(&frame), 2);
    t.same("p, none left", link.send(&frame), 1);
    t.same("l", link.send(&frame), 1);
    t.same("s waits", link.send(&frame), 1);
    t.holds("... for the turn", matches!(link.turn(), Event::Silence));
    t.holds("then frames arrive", matches!(link.turn(), Event::Arrival(_)));
    t.same("a place is free again", (link.send(&frame), link.send(&frame)), (0, 1));
    t.same("all 64 are dropped", link.clear().count(), PLACES);
    t.holds("nothing under way", matches!(link.turn(), Event::Silence));
}

/// A transfer without mishap, line by line.
fn no_words(t: &mut Tally) {
    let wanted = "\
-> FA 55AA00FA00030A001016 controller 0
<- FA 55AA00FA00070A0001000202000F sender 0 go on
-> FB 55AA10FB00240A0000000000000000010003000000000000000000000000000000000000002848FE285A2C \
controller 0
<- FB 55AA10FB001A0A000000000000000000000000000000000000000000000000002E sender 0 go on
-> FC 55AA00FC00050A000000000A controller 0
<- FC 55AA00FC00050A000000000A sender 0 go on
-> FD 55AA10FD00170A00000010D3BF556D617269677765626F206564676520B6 controller 0
stored 16 of 40, as in the image
<- FD 55AA00FD00020A0008 sender 0 go on
-> FD 55AA10FD00170A0001001091A2636162696E6574206669726D77617265C4 controller 0
stored 32 of 40, as in the image
<- FD 55AA00FD00020A0008 sender 0 go on
-> FD 55AA10FD000F0A0002000884412C2076312E302E33A6 controller 0
stored 40 of 40, as in the image
<- FD 55AA00FD00020A0008 sender 0 go on
-> FE 55AA00FE00010A08 controller 0
<- FE 55AA00FE00020A0009 sender 0 done
sender done
controller done, stored 40 of 40
area equals the image
";
    t.same("no words", &linked("")[..], wanted);
    t.same("all pass", &linked("pppppppppppppppppppp")[..], wanted);
    let channel_19 = exchange(&read(&["channel=19"]).unwrap()).0;
    let first = "-> FA 55AA00FA00031300101F controller 0\n";
    t.holds("channel 19", channel_19.starts_with(first) && channel_19.ends_with("the image\n"));
}

/// From telling on nothing happens to a transfer of forty bytes.
const REST: &str = "\
-> FC controller 0; <- FC sender 0 go on; \
-> FD controller 0; stored 16 of 40, as in the image; <- FD sender 0 go on; \
-> FD controller 0; stored 32 of 40, as in the image; <- FD sender 0 go on; \
-> FD controller 0; stored 40 of 40, as in the image; <- FD sender 0 go on; \
-> FE controller 0; <- FE sender 0 done";
const DONE: &str = "sender done; controller done, stored 40 of 40; area equals the image";
const ASKED: &str = "-> FA controller 0; <- FA sender 0 go on";
const TOLD: &str = "-> FB controller 0; <- FB sender 0 go on";

/// Letters p, l, r and s where requests and replies are sent.
fn losses_and_silences(t: &mut Tally) {
    let again = "silence sender 0 send again";
    let mut check = |script: &str, lines: &[&str]| {
        let lines = [lines, &[REST, DONE]].concat();
        same_lines(t, &format!("link={script}"), &linked(script), &lines);
    };
    check("l", &["-> FA lost", again, ASKED, TOLD]);
    check("lll", &["-> FA lost", again, "-> FA lost", again, "-> FA lost", again, ASKED, TOLD]);
    check("pl", &["-> FA controller 0; <- FA lost", again, ASKED, TOLD]);
    check("pplpl", &[ASKED, "-> FB lost", again, "-> FB controller 0; <- FB lost", again, TOLD]);
    let both = "-> FA controller 0; -> FA controller 0; <- FA sender 0 go on; <- FA sender 21 none";
    check("r", &[both, TOLD]);
    check("s", &[again, both, TOLD]);
    check("ps", &[again, both, TOLD]);
    check("ls", &["-> FA lost", again, ASKED, TOLD]);
    check("sl", &[again, "-> FA lost", ASKED, TOLD]);
    check("rl", &["-> FA controller 0; <- FA lost", ASKED, TOLD]);
    let twice = "-> FA controller 0; <- FA sender 0 go on; <- FA sender 21 none";
    check("pr", &[twice, TOLD]);
    // The reply is under way when silence is told; FA comes behind it.
    let late = "<- FA sender 0 go on; -> FA controller 0; -> FB controller 0; \
                <- FA sender 21 none; <- FB sender 0 go on";
    check("pps", &["-> FA controller 0", again, late]);
}

/// New legs: frames under way are dropped both ways, the oldest first; what is
/// stored is kept, and its end is asked for.
fn legs(t: &mut Tally) {
    let again = "silence sender 0 send again";
    let over = "silence sender 0 new leg";
    let text = linked("prssss");
    let dropped = "<- FA dropped; <- FA dropped; -> FA dropped; -> FA dropped; -> FA dropped";
    let lines = ["-> FA controller 0", again, again, again, over, dropped, ASKED, TOLD, REST, DONE];
    same_lines(t, "link=prssss", &text, &lines);

    // Packet 0's reply comes twice, the second is taken for packet 1's, which is
    // lost; packet 2 is then refused.
    let text = linked("ppppppprlp");
    let refused = "-> FD controller 0; stored 16 of 40, as in the image; \
                   <- FD sender 0 go on; -> FD lost; <- FD sender 0 go on; \
                   -> FD controller 0; <- FD sender 0 new leg";
    let resumed = "-> FC controller 0; <- FC sender 0 go on; \
                   -> FD controller 0; stored 32 of 40, as in the image; <- FD sender 0 go on; \
                   -> FD controller 0; stored 40 of 40, as in the image; <- FD sender 0 go on; \
                   -> FE controller 0; <- FE sender 0 done";
    let placed = "-> FC controller 0; <- FC sender 0 go on";
    let lines = [ASKED, TOLD, placed, refused, ASKED, TOLD, resumed, DONE];
    same_lines(t, "FD 01: a new leg from 16", &text, &lines);
    t.holds("... which FC asks for", text.contains("-> FC 55AA00FC00050A000000101A"));

    // The same with a last packet: FE comes too early.
    let text = linked("ppppppppprlp");
    let early = "-> FD controller 0; stored 32 of 40, as in the image; \
                 <- FD sender 0 go on; -> FD lost; <- FD sender 0 go on; \
                 -> FE controller 0; <- FE sender 0 new leg";
    let lines = brief(&text).join("; ");
    t.holds("FE 01: a new leg", lines.contains(early) && lines.ends_with(DONE));

    // All is stored when the leg ends: FC at length, then FE at once.
    let text = linked("ppppppppppppllll");
    let lines = brief(&text).join("; ");
    let end = "<- FC sender 0 go on; -> FE controller 0; <- FE sender 0 done; ";
    t.holds("gap 18: FC at length", lines.ends_with(&(end.to_string() + DONE)));
    t.holds("... which is 40", text.contains("<- FC 55AA00FC00050A0000002832 sender 0 go on"));
}

/// Sixteen silences; gap 20: giving up drops nothing, frames under way are left.
fn giving_up(t: &mut Tally) {
    let text = linked(&"l".repeat(16));
    let leg = |end| {
        let again = "-> FA lost; silence sender 0 send again; ".repeat(3);
        format!("{again}-> FA lost; silence sender 0 {end}")
    };
    let end = "sender given up; controller idle, stored 0 of 40; area differs from the image";
    let (new, last) = (leg("new leg"), leg("given up"));
    same_lines(t, "all silent", &text, &[&new, &new, &new, &last, end]);
    let text = linked(&("l".repeat(15) + "rs"));
    let lines = brief(&text).join("; ");
    let left = "silence sender 0 given up; -> FA left; -> FA left; ".to_string() + end;
    t.holds("gap 20: frames under way are left", lines.ends_with(&left));
    let text = linked(&("p".repeat(8) + &"l".repeat(16)));
    let end =
        "sender given up\ncontroller receiving, stored 16 of 40\narea differs from the image\n";
    t.holds("given up in the middle", text.ends_with(end));
}

/// The stored run shows what it is for.
fn stored_run(t: &mut Tally) {
    let words = stored_words();
    let words = read(&words.each_ref().map(|word| word.as_str())).unwrap();
    let watched = watch(&words);
    for feature in [
        "silence: send again",
        "early silence",
        "silence: new leg",
        "reply: 21",
        "a packet sent again",
        "FB tells stored above 0",
        "FC in the middle",
        "-> dropped",
        "<- lost",
        "<- left",
        "done in leg 2",
    ] {
        t.holds(&format!("the stored run has {feature}"), watched.seen.contains(feature));
    }
    t.holds("the stored run is sound", watched.sound);
    t.holds("the stored run is short", watched.text.lines().count() < 60);
    let counts = Counts { requests: 13, replies: 11, silences: 7 };
    t.same("the stored run, cross", cross(&words, &watched.text), Ok(counts));
}

/// The lines that never come: an area that is not the image's.
fn false_area(t: &mut Tally) {
    let words = read(&[]).unwrap();
    let mut run = Exchange::begin(&words);
    while !run.over() {
        run.turn();
    }
    let mut other = words.image.clone();
    other[39] ^= 1;
    let controller = &run.ends.controller;
    let line = stored_line(controller, &other);
    t.same("not as in the image", &line[..], "stored 40 of 40, NOT as in the image");
    t.holds("... nor in the area", !controller.area_equals(&other));
    t.holds("as in the image", controller.stored_as_in(&words.image));
    t.holds("a shorter image", !controller.stored_as_in(&words.image[..39]));
}

/// A run that was looked at after every turn.
struct Watched {
    text: String,
    /// After every turn the stored bytes were the image's first, and with done the
    /// area's first bytes the whole image.
    sound: bool,
    /// What came up, by name.
    seen: BTreeSet<String>,
}

fn watch(words: &Words) -> Watched {
    let mut run = Exchange::begin(words);
    let mut twin = Controller::new(words); // hears what the run's controller hears
    let (mut sound, mut seen) = (true, BTreeSet::new());
    while !run.over() {
        let (before, under_way) = (run.text().len(), run.under_way());
        run.turn();
        let (controller, sender) = (&run.ends.controller, &run.ends.module.sender);
        sound &= controller.stored_as_in(&words.image) && sender.lawful();
        sound &= sender.phase != Phase::Done || controller.area_equals(&words.image);
        let line = run.text()[before..].lines().next().unwrap_or_default();
        note_turn(&mut seen, line, &mut twin, words.image.len());
        if line.starts_with("silence") && under_way > 0 {
            seen.insert("early silence".into());
        }
        if run.under_way() == PLACES {
            seen.insert("a full link".into());
        }
    }
    let sender = &run.ends.module.sender;
    let end = if sender.phase == Phase::Done { "done" } else { "given up" };
    seen.insert(format!("{end} in leg {}", sender.new_legs + 1));
    sound &= run.sound();
    let text = run.finish();
    note_copies(&mut seen, &text);
    Watched { text, sound, seen }
}

/// Notes the line of an arrival or silence.
fn note_turn(seen: &mut BTreeSet<String>, line: &str, twin: &mut Controller, length: usize) {
    match line.splitn(6, ' ').collect::<Vec<_>>()[..] {
        ["silence", "sender", "0", ..] => {
            seen.insert(line.replace("silence sender 0", "silence:"));
        }
        ["<-", _, _, "sender", "0", decision] => _ = seen.insert(format!("reply: {decision}")),
        ["<-", _, _, "sender", "21", "none"] => _ = seen.insert("reply: 21".into()),
        ["->", _, bytes, "controller", outcome] => {
            seen.insert(format!("controller: {outcome}"));
            note_request(seen, &unhex(bytes), twin, length);
        }
        _ => _ = seen.insert("a line of no kind".into()),
    }
}

/// Notes what the controller makes of a request.
fn note_request(seen: &mut BTreeSet<String>, bytes: &[u8], twin: &mut Controller, length: usize) {
    let before = twin.stored();
    let Action::Send(reply) = twin.arrives(bytes).action else { return };
    let (command, state, stored) = (bytes[3], reply[7], twin.stored());
    let feature = match command {
        0xFB if state == 0 && stored > 0 => "FB tells stored above 0".into(),
        0xFC if stored == length => "FC at length".into(),
        0xFC if stored > 0 => "FC in the middle".into(),
        0xFC => "FC at 0".into(),
        0xFD if state == 0 && stored == before => "a packet sent again".into(),
        _ => format!("{command:02X} {state:02X}"),
    };
    seen.insert(feature);
}

/// Notes what became of copies that did not arrive: `-> lost` and the like.
fn note_copies(seen: &mut BTreeSet<String>, text: &str) {
    for line in text.lines() {
        if let [arrow @ ("->" | "<-"), _, _, fate] = line.split(' ').collect::<Vec<_>>()[..] {
            seen.insert(format!("{arrow} {fate}"));
        }
    }
}

/// What a few hundred runs show: every decision, states 00 and 01, resumed legs,
/// packets sent again, four legs, giving up, a full link.
const WANTED: [&str; 31] = [
    "silence: send again",
    "silence: new leg",
    "silence: given up",
    "early silence",
    "reply: go on",
    "reply: new leg",
    "reply: given up",
    "reply: done",
    "reply: 21",
    "controller: 0",
    "FB tells stored above 0",
    "FC at 0",
    "FC in the middle",
    "FC at length",
    "FD 00",
    "FD 01",
    "FE 00",
    "FE 01",
    "a packet sent again",
    "a full link",
    "-> lost",
    "<- lost",
    "-> dropped",
    "<- dropped",
    "-> left",
    "<- left",
    "done in leg 1",
    "done in leg 2",
    "done in leg 3",
    "done in leg 4",
    "given up in leg 4",
];

/// Runs of all kinds, turn by turn; their outputs pass `cross`; all that is wanted
/// turns up.
fn random_runs(t: &mut Tally) {
    let mut rng = Rng::new(5);
    let (mut seen, mut sizes, mut lengths) = (BTreeSet::new(), BTreeSet::new(), BTreeSet::new());
    for round in 0..450 {
        let (kind, seed) = (KINDS[round % KINDS.len()], rng.next());
        let set = words(kind, seed, "image");
        t.same("same seed, same words", &words(kind, seed, "image").words, &set.words);
        let read = set.read();
        let watched = watch(&read);
        t.holds(&format!("stored bytes and done, {kind} {seed}"), watched.sound);
        t.holds("the same in one go", exchange(&read) == (watched.text.clone(), true));
        t.same(&format!("cross, {kind} {seed}"), cross(&read, &watched.text).err(), None);
        sizes.insert(read.size);
        lengths.insert(read.image.len());
        seen.extend(watched.seen);
    }
    for feature in WANTED {
        t.holds(&format!("{feature} turns up"), seen.remove(feature));
    }
    seen.remove("FA 00");
    seen.remove("FB 00");
    t.same("no other outcome or state ever", seen, BTreeSet::new());
    for size in [16, 17, 64, 256, 512, 513, 65_535] {
        t.holds(&format!("size {size} turns up"), sizes.contains(&size));
    }
    for length in [1, 16, 512, MAX_FILE] {
        t.holds(&format!("an image of {length} turns up"), lengths.contains(&length));
    }
}

/// "all granted, it follows FA, FB, FC, full packets but the last, and FE" (K3).
fn nothing_lost(t: &mut Tally) {
    for seed in 0..60 {
        let read = words("plain", seed, "image").read();
        let watched = watch(&read);
        let packet = usize::from(read.size.min(512));
        let requests: Vec<&str> = watched
            .text
            .lines()
            .filter_map(|line| line.strip_prefix("-> "))
            .map(|line| &line[..2])
            .collect();
        let mut wanted = vec!["FA", "FB", "FC"];
        wanted.extend(read.image.chunks(packet).map(|_| "FD"));
        wanted.push("FE");
        t.same("FA, FB, FC, packets, FE", &requests, &wanted);
        let stored = read.image.chunks(packet).scan(0, |stored, packet| {
            *stored += packet.len();
            Some(*stored)
        });
        for stored in stored {
            let line = format!("stored {stored} of {}, as in the image\n", read.image.len());
            t.holds("full packets but the last", watched.text.contains(&line));
        }
        t.holds("done in the first leg", watched.seen.contains("done in leg 1"));
        t.holds("no silence", !watched.text.contains("silence"));
    }
}

/// `cross` refuses an output in which an end does or says something else.
fn falsified_lines(t: &mut Tally) {
    let mut rng = Rng::new(6);
    let mut refused = 0;
    for round in 0..90 {
        let read = words(KINDS[round % KINDS.len()], rng.next(), "image").read();
        let text = exchange(&read).0;
        let lines: Vec<&str> = text.lines().collect();
        let place = rng.below(lines.len());
        for line in falsified(&mut rng, lines[place]) {
            let mut other = lines.clone();
            other[place] = &line;
            let fits = cross(&read, &(other.join("\n") + "\n")).is_ok();
            t.holds(&format!("refused: {line:?} for {:?}", lines[place]), !fits);
            refused += 1;
        }
        for text in [&text[..text.len() - 1], &(text.clone() + "\n"), &text[1..], ""] {
            t.holds("refused: another beginning or end", cross(&read, text).is_err());
        }
    }
    t.holds("many were tried", refused > 300);
}

/// The line with another outcome, decision, number or byte.
fn falsified(rng: &mut Rng, line: &str) -> Vec<String> {
    let words: Vec<&str> = line.split(' ').collect();
    let mut lines = vec![line.to_string() + " ", line.to_lowercase() + "x"];
    for (place, word) in words.iter().enumerate() {
        let other: String = match *word {
            "->" => "<-".into(),
            "go" | "send" | "new" | "given" => "done".into(),
            "done" => "given up".into(),
            "lost" | "dropped" | "left" => rng.pick(&["controller 0", "sender 0 go on"]).into(),
            word if word.bytes().all(|byte| byte.is_ascii_hexdigit()) => {
                let digit = rng.below(word.len());
                let flipped = if word[digit..].starts_with('3') { "4" } else { "3" };
                word[..digit].to_string() + flipped + &word[digit + 1..]
            }
            _ => continue,
        };
        let mut words = words.clone();
        words[place] = &other;
        lines.push(words.join(" "));
    }
    lines
}

/// Lines too few, too many or in another order; the script is not looked at, so
/// that a second copy of a reply fits, but no third.
fn other_lines(t: &mut Tally) {
    let (plain, text) = (read(&[]).unwrap(), linked(""));
    t.holds("the script is not looked at", cross(&plain, &linked("rsplprls")).is_ok());
    let lines: Vec<&str> = text.split_inclusive('\n').collect();
    let stray = lines[1].replace("0 go on", "21 none");
    for copies in 0..4 {
        let more = [&lines[..2], &vec![&stray[..]; copies], &lines[2..]].concat().concat();
        let what = format!("a reply has one copy or two: {copies} more");
        t.same(&what, cross(&plain, &more).is_ok(), copies < 2);
    }
    for place in 0..lines.len() {
        let gone = [&lines[..place], &lines[place + 1..]].concat().concat();
        t.holds(&format!("refused: line {place} is gone"), cross(&plain, &gone).is_err());
        let twice = [&lines[..=place], &lines[place..]].concat().concat();
        t.holds(&format!("refused: line {place} twice"), cross(&plain, &twice).is_err());
        let mut swapped = lines.clone();
        swapped.swap(place, (place + 1) % lines.len());
        t.holds("refused: lines swapped", cross(&plain, &swapped.concat()).is_err());
    }
}
