//! Questions 10 to 14: the meter walk, with beats at and beside the starts of bars, and the meter map's problems.

use super::beats::{any_beat, reduced};
use super::maps::{self, Size};
use super::rng::Rng;
use super::write::Asked;
use tono_core::song::meter_map_problems;
use tono_core::units::{Beat, MeterPoint, beat_at_bar};

fn points(words: &[u32]) -> Vec<MeterPoint> {
    words.chunks_exact(3).map(|p| MeterPoint { bar: p[0], numerator: p[1], denominator: p[2] }).collect()
}

/// A beat at the start of a bar, or beside one, or any.
fn beat_near(r: &mut Rng, default: u32, pickup: Option<Beat>, meter: &[u32]) -> Beat {
    let sound = pickup.is_none_or(crate::refusal::is_beat);
    if !sound || r.once_in(6) {
        return any_beat(r);
    }
    let bar = maps::bar(r, meter);
    let start = beat_at_bar(&points(meter), default, pickup, bar);
    let beside = r.pick(&[0, 0, 1, -1]);
    match r.below(3) {
        0 => start,
        1 => reduced(start.num.saturating_add(beside), start.den),
        _ => {
            let k = (u32::MAX / start.den).min(r.pick(&[2, 3, 1000])).max(1);
            reduced(start.num.saturating_mul(i64::from(k)).saturating_add(beside), start.den * k)
        }
    }
}

/// How many words of output: exactly those that the entries take, one more or less, one entry less, none, or any number.
pub fn room(r: &mut Rng, entries: usize, each: usize) -> u32 {
    let full = entries * each;
    (match r.below(12) {
        0..=4 => full,
        5 => full.saturating_sub(1),
        6 => full.saturating_sub(each),
        7 => 0,
        8 => full + 1,
        9 => full + each - 1,
        10 => full.saturating_sub(r.below(full as u64 + 1) as usize),
        _ => full + r.below(20) as usize,
    })
    .min(65_540) as u32
}

/// Points of a bar each, one in so many of them with a problem.
fn long_map(r: &mut Rng, count: u32, once: u64) -> Vec<u32> {
    let mut words = Vec::new();
    for bar in 0..count {
        let point = match r.below(3 * once) {
            0 => [bar, 0, 4],
            1 => [bar, 4, r.pick(&[0, 3, 128])],
            2 => [bar.saturating_sub(1), 4, 4],
            _ => [bar, 4, r.pick(&[1, 4, 64])],
        };
        words.extend(point);
    }
    words
}

pub fn question(op: u32, r: &mut Rng, size: Size) -> Asked {
    let asked = Asked::default();
    if op == 0x14 {
        let words = match size {
            // the longest map, with problems that there can be room for
            Size::Huge(count, true) => long_map(r, count as u32, 5_000),
            // at the limits of 256 points and of a tempo map's 1,024, and past them
            Size::Small if r.once_in(20) => {
                let limit = if r.once_in(8) { 1_024 } else { 256 };
                let count = r.between(limit - 1, limit + 2) as u32;
                long_map(r, count, 30)
            }
            _ => maps::meter_points(r, size),
        };
        let problems = meter_map_problems(&points(&words)).len();
        let asked = asked.u32(room(r, problems, 3)).u32(words.len() as u32 / 3);
        return words.into_iter().fold(asked, Asked::u32);
    }
    let default = maps::default_numerator(r);
    let meter = if size == Size::Small && r.once_in(200) {
        (0..r.between(250, 260) as u32).flat_map(|k| [2 * k, 1 + k % 7, 1 << (k % 7)]).collect()
    } else {
        maps::meter(r, size)
    };
    if op == 0x10 {
        return asked.u32(default).u32(maps::bar(r, &meter)).words(&meter);
    }
    let pickup = maps::pickup(r);
    let asked = asked.u32(default).pickup(pickup);
    let asked =
        if op == 0x13 { asked.beat(beat_near(r, default, pickup, &meter)) } else { asked.u32(maps::bar(r, &meter)) };
    asked.words(&meter)
}
