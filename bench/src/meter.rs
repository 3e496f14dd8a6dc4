//! The twin of crates/bench_meter, which says what each row is.

use crate::benching::{Asked, INPUTS, beat_word, inputs, place};
use tono_core::units::{Beat, MeterPoint, bar_count_at_beat, beat_at_bar};

/// The points of the largest map.
const POINTS: usize = 4096;

/// The numerator where no point is in force; the denominator is 4 there.
const DEFAULT: u32 = 4;

/// Point k begins at bar 4 * k. A smaller map is the front of this one.
pub fn map() -> Vec<MeterPoint> {
    inputs(|r, s| ((r % 8 + 1) as u32, [2, 4, 8, 16][(s % 4) as usize]))
        .into_iter()
        .take(POINTS)
        .zip(0..)
        .map(|((numerator, denominator), k)| MeterPoint { bar: 4 * k, numerator, denominator })
        .collect()
}

/// Numbers below `span`, spread over it.
pub fn questions(span: usize) -> [u32; INPUTS] {
    std::array::from_fn(|k| (place(k) * span / INPUTS) as u32)
}

pub fn rows(asked: &Asked) {
    let map = map();
    let start = |size: &str, points: usize, few: u64| {
        let bars = questions(4 * points + 8);
        asked.row_or(few, "beat_at_bar", size, |k, _| beat_word(beat_at_bar(&map[..points], DEFAULT, None, bars[k])));
    };
    let count = |size: &str, points: usize, few: u64| {
        let beats = questions(17 * points + 34);
        asked.row_or(few, "bar_count_at_beat", size, |k, _| {
            u64::from(bar_count_at_beat(&map[..points], DEFAULT, None, Beat::from_int(i64::from(beats[k]))))
        });
    };

    let bars = questions(4 * POINTS + 8);
    asked.row_or(5000, "empty", "any", |k, _| u64::from(bars[k]));

    start("0", 0, 5000);
    start("16", 16, 5000);
    start("128", 128, 1000);
    start("256", 256, 1000);
    start("2048", 2048, 10);
    start("4096", 4096, 5);

    count("0", 0, 5000);
    count("16", 16, 5000);
    count("128", 128, 200);
    count("256", 256, 50);
    count("2048", 2048, 1);
    count("4096", 4096, 1);
}
