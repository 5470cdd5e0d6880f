//! Random sessions over opening: lists that break each rule, counts and lengths at
//! and around their edges, both wrong, rubbish in unused places.

use crate::console::record::{Board, MOST_BOARDS};
use crate::rng::Rng;
use crate::sessions::Script;
use crate::sessions_module::board_words;
use crate::wire;

/// Openings, each after a list or a change of it, and calls on what they give.
pub fn openings(script: &mut Script) {
    let mut list = [Board::default(); MOST_BOARDS];
    let used = script.rng.between(1, MOST_BOARDS);
    for place in 0..used {
        list[place] = sound_board(&mut script.rng, place);
        put(script, place, &list[place]);
    }
    while script.goes_on() {
        if script.rng.chance(500) {
            let place = script.rng.below(MOST_BOARDS);
            let before = list[place];
            list[place] = any_board(&mut script.rng, &list);
            put(script, place, &list[place]);
            open(script, used);
            if script.rng.chance(700) {
                list[place] = before;
                put(script, place, &before);
            }
        }
        open(script, used);
    }
}

fn put(script: &mut Script, place: usize, board: &Board) {
    script.line(&format!("board {place} {}", board_words(board)));
}

/// An opening and a call.
fn open(script: &mut Script, used: usize) {
    let rng = &mut script.rng;
    let used = used as u64;
    let edge = rng.pick(&[0, 1, 10, 11, 1 << 32, 1 << 63, u64::MAX]);
    let near = rng.pick(&[used - 1, used + 1]);
    let count = rng.pick(&[used, used, used, near, edge, edge]);
    let edge = rng.pick(&[0, 1, 1_048_575, 1_048_576, 1_048_577, 1 << 32, u64::MAX]);
    let length = rng.pick(&[300, 65_536, edge, edge, edge]);
    let channel = rng.between(10, 19) as u8;
    script.line(&format!("open {count} {length}"));
    match script.rng.below(5) {
        0 => drop(script.line("report")),
        1 => drop(script.line("show")),
        2 => {
            script.line(&format!("area {}", length.min(65_536)));
            script.line("quiet");
        }
        3 => {
            script.line(&format!("area {}", length.min(65_536)));
            let first = script.bench.list[0].channel;
            let channel = script.rng.pick(&[channel, first, first]);
            script.send(&wire::fa(channel, 64));
        }
        _ => {}
    }
}

/// A board whose channel no other place has.
fn sound_board(rng: &mut Rng, place: usize) -> Board {
    Board { channel: 10 + place as u8, ..any_rest(rng) }
}

/// A board with a channel that the list has, or one at or around the edges.
fn any_board(rng: &mut Rng, list: &[Board]) -> Board {
    let listed = rng.pick(list).channel;
    let channel = rng.pick(&[listed, listed, 0, 9, 10, 19, 20, 29, 255]);
    Board { channel, ..any_rest(rng) }
}

fn any_rest(rng: &mut Rng) -> Board {
    let (soft, hard, pid) = ([0; 3].map(|_| rng.byte()), [0; 3].map(|_| rng.byte()), [0; 8]);
    Board { channel: 0, soft, hard, pid: pid.map(|_| rng.byte()), permit: rng.chance(500) }
}
