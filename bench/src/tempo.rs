//! The twin of crates/bench_tempo, which says what each row is. The original's calls test no map, so the row
//! `walks_seconds_at` is its `tempo_map_seconds_at` again.

use crate::benching::{Asked, INPUTS, inputs, place};
use tono_core::dsl::{TempoPoint, tempo_map_beat_at_seconds, tempo_map_bpm_at, tempo_map_seconds_at};
use tono_core::units::Beat;

/// The points of the largest map.
const POINTS: usize = 1024;

/// The turns of a row that nobody asked by name.
const FEW: u64 = 5000;

/// Point k begins at beat 4 * k. A smaller map is the front of this one.
pub fn map() -> Vec<TempoPoint> {
    inputs(|r, _| f32::from_bits(0x4280_0000 + (r % 0x100_0000) as u32))
        .into_iter()
        .take(POINTS)
        .zip(0..)
        .map(|(bpm, k)| TempoPoint { at: Beat::from_int(4 * k), bpm })
        .collect()
}

/// Numbers below `span`, spread over it.
fn questions(span: usize) -> [f64; INPUTS] {
    std::array::from_fn(|k| place(k) as f64 * span as f64 / INPUTS as f64)
}

/// The rows of a call, for each size.
fn sizes(asked: &Asked, map: &[TempoPoint], call: &str, span: usize, walk: impl Fn(&[TempoPoint], f64) -> f64) {
    for (size, points) in [("1", 1), ("64", 64), ("512", 512), ("1024", 1024)] {
        let at = questions(span * (points + 2));
        asked.row_or(FEW, call, size, |k, _| walk(&map[..points], at[k]).to_bits());
    }
}

pub fn rows(asked: &Asked) {
    let map = map();
    let at = questions(4 * (POINTS + 2));
    asked.row_or(FEW, "empty", "any", |k, _| at[k].to_bits());
    sizes(asked, &map, "seconds_at", 4, tempo_map_seconds_at);
    sizes(asked, &map, "bpm_at", 4, tempo_map_bpm_at);
    sizes(asked, &map, "beat_at_seconds", 2, tempo_map_beat_at_seconds);
    sizes(asked, &map, "walks_seconds_at", 4, tempo_map_seconds_at);
}
