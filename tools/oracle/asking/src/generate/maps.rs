//! Meter maps, tempo maps and pickups: sound ones, ones with each problem, and ones that are refused.

use super::beats::{any_beat, beat, no_beat, reduced};
use super::rng::Rng;
use crate::args::Tempo;
use tono_core::units::Beat;

/// How large the lists of a question are.
#[derive(Clone, Copy, PartialEq, Eq)]
pub enum Size {
    Small,
    /// A list of this many points, lines or notes, at a rare place; and whether nothing else refuses it.
    Huge(usize, bool),
}

fn denominator(r: &mut Rng) -> u32 {
    match r.below(12) {
        0 => r.pick(&[0, 3, 5, 6, 48, 65, 127, 128, 1 << 31, u32::MAX]),
        _ => 1 << r.below(7),
    }
}

fn numerator(r: &mut Rng) -> u32 {
    match r.below(16) {
        0 => 0,
        1 => r.pick(&[4095, 4096, 4097, 1 << 30, u32::MAX]),
        _ => r.between(1, 13) as u32,
    }
}

/// Sound points, bars ascending from the first.
fn ascending(r: &mut Rng, count: u64, mut bar: u32) -> Vec<u32> {
    let mut words = Vec::new();
    for _ in 0..count {
        words.extend([bar, r.between(1, 13) as u32, 1 << r.below(7)]);
        bar = bar.saturating_add(r.between(1, 6) as u32);
    }
    words
}

/// The points of a meter map, whole.
pub fn meter_points(r: &mut Rng, size: Size) -> Vec<u32> {
    if let Size::Huge(count, _) = size {
        // few different bars, since a walk looks through all points for each
        return (0..count).flat_map(|_| [r.below(4) as u32, r.between(1, 9) as u32, 1 << r.below(7)]).collect();
    }
    let some = r.between(1, 6) as u64;
    match r.below(12) {
        0 | 1 => Vec::new(),
        2..=5 => ascending(r, some, 0),
        6 => {
            let first = r.between(1, 9) as u32;
            ascending(r, some, first)
        }
        // in any order, some of them equal
        7 | 8 => (0..some).flat_map(|_| [r.below(9) as u32, numerator(r), denominator(r)]).collect(),
        9 => (0..some).flat_map(|_| [r.u32(), r.u32(), r.u32()]).collect(),
        10 => (0..some).flat_map(|k| [k as u32 * 3, numerator(r), denominator(r)]).collect(),
        _ => {
            // ascending but for one point
            let mut words = ascending(r, some + 1, 0);
            let at = 3 * r.below(some + 1) as usize;
            words[at] = words[at].wrapping_add_signed(r.between(-6, 6) as i32);
            words
        }
    }
}

/// The words of a meter map, once in a while not of whole points. No list is longer than the form takes.
pub fn meter(r: &mut Rng, size: Size) -> Vec<u32> {
    let mut words = meter_points(r, size);
    if matches!(size, Size::Huge(_, false)) && r.once_in(3) {
        words.truncate(words.len() - r.between(1, 2) as usize);
    } else if size == Size::Small && r.once_in(12) {
        words.extend([r.u32(), r.u32()].iter().take(1 + r.below(2) as usize));
    }
    words
}

pub fn pickup(r: &mut Rng) -> Option<Beat> {
    match r.below(16) {
        0..=6 => None,
        7 => Some(Beat { num: 0, den: 1 }),
        8..=10 => Some(reduced(r.between(1, 40), r.pick(&[1, 1, 2, 3, 4, 8, 64]))),
        11 => Some(reduced(r.between(-40, -1), r.pick(&[1, 2, 3, 64]))),
        12 => Some(reduced(
            r.pick(&[1 << 45, (1 << 45) + 1, 1, i64::MAX, i64::MIN]),
            r.pick(&[1, 63, 64, 1 << 30, u32::MAX]),
        )),
        13 => Some(beat(r)),
        14 => Some(any_beat(r)),
        _ => Some(no_beat(r)),
    }
}

pub fn default_numerator(r: &mut Rng) -> u32 {
    if r.once_in(6) { r.pick(&[0, 1, 2, 4096, 4097, 1 << 30, u32::MAX]) } else { r.between(1, 8) as u32 }
}

/// A bar at or beside one of a map's, a small one, or any.
pub fn bar(r: &mut Rng, meter: &[u32]) -> u32 {
    let points = meter.len() as u64 / 3;
    match r.below(8) {
        0..=3 if points > 0 => meter[3 * r.below(points) as usize].wrapping_add_signed(r.between(-1, 2) as i32),
        4 => r.u32(),
        5 => r.pick(&[0, 1, 2, 1 << 31, (1 << 31) - 1, u32::MAX]),
        _ => r.below(24) as u32,
    }
}

fn point(r: &mut Rng, tempo: &mut Tempo, at: Beat, bpm: Option<u32>) {
    tempo.nums.push(at.num);
    tempo.dens.push(at.den);
    tempo.bpms.push(bpm.unwrap_or_else(|| r.bpm()));
}

/// A tempo map of three lists of one length.
pub fn even_tempo(r: &mut Rng, size: Size) -> Tempo {
    let mut tempo = Tempo::default();
    let huge = if let Size::Huge(count, _) = size { Some(count as u64) } else { None };
    let some = huge.unwrap_or_else(|| r.between(1, 6) as u64);
    let kind = if huge.is_some() { 2 } else { r.below(12) };
    let mut at = match kind {
        0 | 1 => return tempo,
        2..=5 => Beat { num: 0, den: 1 },
        6 => reduced(r.between(-8, 8), 4),
        _ => Beat { num: 0, den: 1 },
    };
    for k in 0..some {
        let sane = r.once_in(2).then(|| r.pick(&[60.0f32, 120.0, 30.0, 90.0, 240.0]).to_bits());
        match kind {
            2..=6 => {
                point(r, &mut tempo, at, sane);
                let den = r.pick(&[1, 2, 4, 4, 3]);
                at = reduced(at.num.saturating_mul(12) / i64::from(at.den) + r.between(1, 48) * 12 / den, 12);
            }
            // in any order, some of them equal
            7 | 8 => {
                let at = reduced(r.between(-4, 24), r.pick(&[1, 1, 2, 4]));
                point(r, &mut tempo, at, sane);
            }
            9 => {
                let at = beat(r);
                point(r, &mut tempo, at, None);
            }
            10 => point(r, &mut tempo, Beat { num: k as i64 * 4, den: 1 }, None),
            _ => {
                let at = Beat { num: (k as i64 * 4 + r.pick(&[0, 0, 0, -4, -5])), den: 1 };
                point(r, &mut tempo, at, sane);
            }
        }
    }
    tempo
}

/// A tempo map, once in a while uneven, or with a beat that is none. No list is longer than the form takes.
pub fn tempo(r: &mut Rng, size: Size) -> Tempo {
    let mut tempo = even_tempo(r, size);
    if matches!(size, Size::Huge(_, true)) {
        return tempo;
    }
    let small = size == Size::Small;
    if r.once_in(if small { 12 } else { 3 }) {
        match r.below(if small { 6 } else { 3 }) {
            0 => _ = tempo.nums.pop(),
            1 => _ = tempo.dens.pop(),
            2 => _ = tempo.bpms.pop(),
            3 => tempo.nums.push(1),
            4 => tempo.dens.push(1),
            _ => tempo.bpms.push(0x42f0_0000),
        }
    }
    let count = tempo.nums.len().min(tempo.dens.len());
    if count > 0 && r.once_in(16) {
        let at = match r.below(3) {
            0 => 0,
            1 => count - 1,
            _ => r.below(count as u64) as usize,
        };
        match r.below(3) {
            0 => tempo.dens[at] = 0,
            1 => (tempo.nums[at], tempo.dens[at]) = (2, 4),
            _ => (tempo.nums[at], tempo.dens[at]) = (0, 2),
        }
    }
    tempo
}
