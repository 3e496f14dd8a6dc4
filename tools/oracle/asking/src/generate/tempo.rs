//! Questions 20 to 23: the tempo walks at and beside the points of their maps, and the tempo map's problems.

use super::maps::{self, Size};
use super::meter::room;
use super::rng::Rng;
use super::write::Asked;
use crate::args::Tempo;
use tono_core::dsl::bounds::tempo_map_problems;
use tono_core::dsl::{TempoPoint, tempo_map_seconds_at};
use tono_core::units::Beat;

fn points(tempo: &Tempo) -> Vec<TempoPoint> {
    let beats = tempo.nums.iter().zip(&tempo.dens).map(|(num, den)| Beat { num: *num, den: *den });
    beats.zip(&tempo.bpms).map(|(at, bpm)| TempoPoint { at, bpm: f32::from_bits(*bpm) }).collect()
}

/// A beat at or beside a point's, or any number.
pub fn beat_bits(r: &mut Rng, tempo: &Tempo) -> u64 {
    let points = points(tempo);
    if points.is_empty() || r.once_in(4) {
        return r.f64_bits();
    }
    let at = r.pick(&points).at.to_f64();
    match r.below(6) {
        0 => r.beside(at).to_bits(),
        1 => (at + r.between(-8, 40) as f64 / 4.0).to_bits(),
        2 => (at + r.between(-100, 4000) as f64 / 7.0).to_bits(),
        _ => at.to_bits(),
    }
}

/// A time at or beside a point's, or any number.
fn seconds_bits(r: &mut Rng, tempo: &Tempo) -> u64 {
    let points = points(tempo);
    if points.is_empty() || r.once_in(4) {
        return r.f64_bits();
    }
    let at = tempo_map_seconds_at(&points, r.pick(&points).at.to_f64());
    match r.below(6) {
        0 => r.beside(at).to_bits(),
        1 => (at + r.between(-8, 40) as f64 / 4.0).to_bits(),
        2 => (at * r.between(1, 100) as f64 / 64.0).to_bits(),
        _ => at.to_bits(),
    }
}

pub fn question(op: u32, r: &mut Rng, size: Size) -> Asked {
    let asked = Asked::default();
    let limit = op == 0x23 && size == Size::Small && r.once_in(40);
    // at the limit of 1,024 points and past it
    let size = if limit { Size::Huge(r.between(1023, 1026) as usize, false) } else { size };
    let tempo = maps::tempo(r, size);
    match op {
        0x20 | 0x21 => asked.u64(beat_bits(r, &tempo)).tempo(&tempo),
        0x22 => asked.u64(seconds_bits(r, &tempo)).tempo(&tempo),
        _ => {
            let problems = tempo_map_problems(&points(&tempo)).len();
            asked.u32(room(r, problems, 3)).tempo(&tempo)
        }
    }
}
