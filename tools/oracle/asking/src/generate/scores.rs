//! Score files that are accepted: sound ones, and ones whose maps have every problem, at every size.

use super::beats::{beat, reduced};
use super::maps::{self, Size};
use super::rng::Rng;
use crate::score::{File, tempo_words};
use tono_core::units::Beat;

/// How many kinds of them there are.
pub const KINDS: u64 = 8;

pub fn pickup(r: &mut Rng) -> Option<Beat> {
    Some(match r.below(16) {
        0..=4 => return None,
        5 | 6 => Beat { num: 0, den: 1 },
        7 | 8 => reduced(r.between(1, 16), r.pick(&[1, 2, 4, 8, 16, 32, 64])),
        9 | 10 => reduced(r.between(1, 20), r.pick(&[3, 3, 6, 9, 12, 24])),
        11 | 12 => reduced(r.between(-40, -1), r.pick(&[1, 2, 3, 64])),
        13 => reduced(
            r.pick(&[1 << 45, (1 << 45) + 1, 1 << 53, (1 << 53) + 3, 1, i64::MAX, i64::MIN]),
            r.pick(&[1, 3, 63, 64, 1 << 30, u32::MAX]),
        ),
        _ => beat(r),
    })
}

/// Bars ascending from 0, at most `step` apart, so that a sheet's eight bars see many of them.
fn sound_meters(r: &mut Rng, count: u64, step: i64) -> Vec<[u32; 3]> {
    let mut bar = 0;
    let mut points = Vec::new();
    for _ in 0..count {
        points.push([bar, r.between(1, 13) as u32, 1 << r.below(7)]);
        bar += r.between(1, step) as u32;
    }
    points
}

/// Beats ascending from 0, by some twelfths each, with tempos that are played.
fn sound_tempos(r: &mut Rng, count: u64, most: i64) -> Vec<[u32; 4]> {
    let mut twelfths = 0;
    let mut points = Vec::new();
    for _ in 0..count {
        let bpm = r.pick(&[60.0f32, 120.0, 30.0, 90.0, 240.0, 61.7, 133.33]).to_bits();
        points.push(tempo_words(reduced(twelfths, 12), bpm));
        twelfths += r.between(1, most);
    }
    points
}

/// Points in any order, with numbers that a walk saturates by.
fn odd_meters(r: &mut Rng) -> Vec<[u32; 3]> {
    if r.once_in(3) {
        let wide = |r: &mut Rng| r.pick(&[0, 1, 5, 7, 64, 65, 1 << 31, u32::MAX - 1, u32::MAX]);
        let count = 1 + r.below(9);
        return (0..count).map(|_| [r.below(10) as u32, wide(r), wide(r)]).collect();
    }
    maps::meter_points(r, Size::Small).chunks_exact(3).map(|p| [p[0], p[1], p[2]]).collect()
}

/// Beats in any order, and any float as a tempo.
fn odd_tempos(r: &mut Rng) -> Vec<[u32; 4]> {
    if r.once_in(3) {
        let count = 1 + r.below(6);
        return (0..count).map(|_| tempo_words(beat(r), r.bpm())).collect();
    }
    let tempo = maps::even_tempo(r, Size::Small);
    let beats = tempo.nums.iter().zip(&tempo.dens).map(|(num, den)| Beat { num: *num, den: *den });
    beats.zip(&tempo.bpms).map(|(at, bpm)| tempo_words(at, *bpm)).collect()
}

fn few_meters(r: &mut Rng) -> Vec<[u32; 3]> {
    let count = r.below(5);
    sound_meters(r, count, 3)
}

fn few_tempos(r: &mut Rng) -> Vec<[u32; 4]> {
    let count = r.below(5);
    sound_tempos(r, count, 96)
}

/// A score of few points that has no problems.
pub fn plain(r: &mut Rng) -> File {
    let rate = r.pick(&[44_100, 48_000, 96_000]);
    let bpm = r.pick(&[60.0f32, 120.0, 90.0, 61.7]).to_bits();
    let pickup = r.once_in(2).then(|| reduced(r.between(0, 12), r.pick(&[1, 2, 3, 4])));
    let beats_per_bar = r.between(1, 8) as u32;
    let (meters, tempos) = (few_meters(r), few_tempos(r));
    File::new(rate, beats_per_bar, bpm, pickup, meters, tempos)
}

/// A score with a number of points of each kind, without problems or with points in any order.
pub fn of_counts(r: &mut Rng, meters: u64, tempos: u64) -> File {
    let sound = r.once_in(2);
    let pickup = pickup(r);
    let meters = if sound {
        sound_meters(r, meters, 1)
    } else {
        (0..meters).map(|_| [r.below(12) as u32, r.below(9) as u32, 1 << r.below(8)]).collect()
    };
    let tempos =
        if sound { sound_tempos(r, tempos, 6) } else { (0..tempos).map(|_| tempo_words(beat(r), r.bpm())).collect() };
    File::new(r.rate(), maps::default_numerator(r), r.bpm(), pickup, meters, tempos)
}

/// A score of the kind, which is accepted.
pub fn score(kind: u64, turn: u64, r: &mut Rng) -> File {
    let (meters, tempos) = match kind {
        0 => return plain(r),
        1 => (Vec::new(), Vec::new()),
        2 => (odd_meters(r), few_tempos(r)),
        3 => (few_meters(r), odd_tempos(r)),
        // many points, once in a while as many as there may be
        4 => {
            let (most_meters, most_tempos) = if turn % 8 == 0 { (256, 1_024) } else { (r.bits(5), r.bits(6)) };
            let (meters, tempos) = (r.below(most_meters + 1), r.below(most_tempos + 1));
            return of_counts(r, meters, tempos);
        }
        // a meter in each bar of the sheet
        5 => {
            let count = r.between(6, 10) as u64;
            (sound_meters(r, count, 1), few_tempos(r))
        }
        6 => (odd_meters(r), Vec::new()),
        _ => (odd_meters(r), odd_tempos(r)),
    };
    let pickup = pickup(r);
    File::new(r.rate(), maps::default_numerator(r), r.bpm(), pickup, meters, tempos)
}
