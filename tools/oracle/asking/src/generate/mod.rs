//! Making questions. A question depends on the seed, on its op and on its place in the op's run, so the same seed
//! always gives the same bytes, whichever ops stand beside it. At fixed rare places of a run stand questions that are
//! none, and questions with lists at the limits and one past them.

mod beats;
mod broken;
mod cues;
mod frames;
mod maps;
mod meter;
mod pattern;
mod rng;
mod score;
mod scores;
mod tempo;
mod transport;
pub mod write;

use crate::form::Op;
use maps::Size;
use rng::Rng;

/// Once in so many questions of an op stands a list of as many points, lines or notes as are taken, and one that is
/// longer by one.
const HUGE_EVERY: u64 = 4096;
const HUGE_AT: u64 = 1000;
/// More rarely for a transport, of which many ops have maps.
const MAPS_EVERY: u64 = 16_384;
/// In a run of `layer` they stand so early that the replayed sample has one of each.
const LAYER_AT: u64 = 215;

/// The size of the lists at a place of an op's run. Of notes some have as many as fill a smaller room for sorting.
fn size(op: u32, place: u64) -> Size {
    let every = if (0x30..=0x46).contains(&op) { MAPS_EVERY } else { HUGE_EVERY };
    let first = if op == 0x62 { LAYER_AT } else { HUGE_AT };
    match (place % every).checked_sub(first) {
        Some(past @ 4..=5) if op >= 0x60 => Size::Huge(1_020 + past as usize, false),
        Some(past @ 0..=5) => Size::Huge(if op >= 0x60 { 4_096 } else { 65_536 } + past as usize % 2, past < 2),
        _ => Size::Small,
    }
}

/// The words of a question, its op and count before them.
pub fn question(seed: u64, op: &Op, place: u64) -> Vec<u32> {
    let mut r = Rng::new(seed, op.number, place);
    let size = size(op.number, place);
    let words = match op.number {
        number @ 0x01..=0x07 => beats::question(number, &mut r),
        number @ (0x08 | 0x09) => frames::question(number, &mut r),
        number @ 0x10..=0x14 => meter::question(number, &mut r, size),
        number @ 0x20..=0x23 => tempo::question(number, &mut r, size),
        number @ (0x30 | 0x31) => transport::make(number, &mut r),
        number @ 0x32..=0x46 => transport::question(number, &mut r, size),
        number @ 0x50..=0x52 => cues::question(number, &mut r, size),
        0x70 => score::question(place, &mut r),
        number => pattern::question(number, &mut r, size),
    }
    .0;
    if place % broken::EVERY == broken::FIRST {
        return broken::question(op, words, place / broken::EVERY, &mut r);
    }
    let mut whole = vec![op.number, words.len() as u32];
    whole.extend(words);
    whole
}

/// The first so many questions over these ops, which take turns.
pub fn questions<'a>(seed: u64, count: u64, ops: &'a [&'static Op]) -> impl Iterator<Item = Vec<u32>> + 'a {
    let turns = ops.len() as u64;
    (0..count).map(move |k| question(seed, ops[(k % turns) as usize], k / turns))
}
