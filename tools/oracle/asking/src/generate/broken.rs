//! Questions that are none, and must be answered by `?`: at a fixed place of every run of this length.

use super::rng::Rng;
use crate::form::{Kind, Op};

pub const EVERY: u64 = 512;
pub const FIRST: u64 = 100;

/// More words than any question has.
const TOO_LARGE: usize = 300_000;

fn whole(op: u32, words: Vec<u32>) -> Vec<u32> {
    let mut all = vec![op, words.len() as u32];
    all.extend(words);
    all
}

/// The index of the first word of the op's first argument of a kind, where only arguments of fixed size stand before
/// it.
fn index_of(op: &Op, wanted: Kind) -> Option<usize> {
    let mut at = 0;
    for (_, kind) in op.asked {
        if *kind == wanted {
            return Some(at);
        }
        at += match kind {
            Kind::U32 | Kind::F32 | Kind::Room => 1,
            Kind::U64 | Kind::I64 | Kind::F64 => 2,
            Kind::Beat => 3,
            Kind::Pickup => 4,
            Kind::Transport => 17,
            Kind::Meter | Kind::Points | Kind::Notes | Kind::Lines | Kind::Tempo | Kind::File => return None,
        };
    }
    None
}

/// A question of the op, broken in one of several ways, which take turns.
pub fn question(op: &Op, mut words: Vec<u32>, turn: u64, r: &mut Rng) -> Vec<u32> {
    let number = op.number;
    let mut spoil = |at: Option<usize>, value: u32| {
        match at {
            Some(at) => words[at] = value,
            None => words.push(value),
        }
        whole(number, words.clone())
    };
    match turn % 12 {
        0 => {
            words.pop();
            whole(number, words)
        }
        1 => {
            words.push(r.u32());
            whole(number, words)
        }
        2 => whole(r.pick(&[0x00, 0x0a, 0x0f, 0x15, 0x24, 0x3d, 0x47, 0x53, 0x7f00, 0xffff_ffff]), words),
        3 => whole(number, Vec::new()),
        4 => spoil(index_of(op, Kind::Transport).map(|at| at + 7), 3),
        5 => spoil(index_of(op, Kind::Transport).map(|at| at + 8), 2),
        6 => spoil(index_of(op, Kind::Transport).map(|at| at + 13).or(index_of(op, Kind::Pickup)), 2),
        7 => spoil(index_of(op, Kind::Room), 65_541),
        8 => spoil(index_of(op, Kind::Room), u32::MAX),
        9 => {
            let list = [Kind::Meter, Kind::Points, Kind::Notes, Kind::Lines, Kind::Tempo, Kind::File]
                .into_iter()
                .find_map(|kind| index_of(op, kind));
            let count = list.map_or(0, |at| words[at]);
            // a byte more of a file may still be in its last word
            let one = if index_of(op, Kind::File).is_some() { 4 } else { 1 };
            let off = if r.once_in(2) { count.wrapping_add(one) } else { u32::MAX - r.below(2) as u32 };
            match list {
                Some(at) => words[at] = off,
                None => words.truncate(1),
            }
            whole(number, words)
        }
        // large, so once in many turns
        10 if turn % 240 == 10 => whole(number, vec![0; TOO_LARGE]),
        10 => whole(number | 0x100, words),
        _ => {
            words.truncate(words.len() / 2);
            whole(number, words)
        }
    }
}
