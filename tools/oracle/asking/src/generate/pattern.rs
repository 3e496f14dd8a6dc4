//! Questions 60 to 6b: patterns, on the grid and off it, with equal steps, saturated steps and full outputs.

use super::maps::Size;
use super::rng::Rng;
use super::write::Asked;

/// A grid on which the steps of a pattern often stand.
struct Grid {
    bars: u32,
    steps_per_bar: u32,
}

fn grid(r: &mut Rng) -> Grid {
    let bars = match r.below(8) {
        0 => 0,
        1 => r.u32(),
        2 => r.pick(&[1 << 16, 1 << 28, 1 << 31, u32::MAX]),
        _ => r.between(1, 4) as u32,
    };
    let steps_per_bar = match r.below(8) {
        0 => 0,
        1 => r.u32(),
        2 => r.pick(&[1, 1 << 16, u32::MAX]),
        _ => r.pick(&[16, 12, 8, 4, 3]),
    };
    Grid { bars, steps_per_bar }
}

/// So many notes, with steps that are multiples of a number but for some.
fn some_notes(r: &mut Rng, count: usize, multiple: u32) -> Vec<[u32; 4]> {
    let most = if r.once_in(2) { 12 } else { 12.max(4 * count as u64) };
    let note = |k: usize| {
        let step = match r.below(12) {
            0 => r.u32(),
            1 => u32::MAX - r.below(20) as u32,
            2 => r.below(40) as u32,
            _ => multiple.wrapping_mul(r.below(most) as u32),
        };
        let len = match r.below(12) {
            0 => r.u32(),
            1 => 0,
            2 => r.below(40) as u32,
            _ => multiple.wrapping_mul(r.between(1, 4) as u32),
        };
        let gain = if r.once_in(2) { (r.below(9) as f32 / 8.0).to_bits() } else { r.f32_bits() };
        // most tags tell their place, so that a changed order shows
        let tag = if r.once_in(8) { r.u32() } else { k as u32 };
        [step, len, gain, tag]
    };
    (0..count).map(note).collect()
}

/// The flat words of a list of notes: ascending, descending or in any order, once in a while not of whole notes, and
/// rarely as long as the form takes, or longer by one.
fn notes(r: &mut Rng, size: Size, multiple: u32) -> Vec<u32> {
    let count = match size {
        Size::Huge(count, _) => count,
        Size::Small if r.once_in(64) => r.pick(&[16, 17, 31, 63, 64, 65, 100, 100]),
        Size::Small => r.below(10) as usize,
    };
    let mut notes = some_notes(r, count, multiple);
    match r.below(4) {
        0 => notes.sort_by_key(|note| note[0]),
        1 => notes.sort_by_key(|note| !note[0]),
        _ => {}
    }
    let mut words = notes.concat();
    if !matches!(size, Size::Huge(_, true)) && r.once_in(12) {
        words.extend([1, 2, 3].iter().take(1 + r.below(3) as usize));
    }
    if matches!(size, Size::Huge(_, false)) && r.once_in(8) {
        words.resize(r.between(65_536, 65_538) as usize, 0);
    }
    words
}

/// How many words of output: about what the notes take, but few where they are many and the question is a small one.
fn room(r: &mut Rng, notes: usize, size: Size) -> u32 {
    if size == Size::Small && notes > 500 { r.below(60) as u32 } else { super::meter::room(r, notes.min(16_385), 4) }
}

/// A factor of a length or a gain.
fn factor(r: &mut Rng) -> u32 {
    if r.once_in(2) {
        r.pick(&[0.5f32, 0.25, 1.5, 2.0, 0.1, 0.75, 1.0, 0.0, -0.0, -1.0]).to_bits()
    } else {
        r.f32_bits()
    }
}

/// 60.
fn repeat(r: &mut Rng, size: Size) -> Asked {
    let mut g = grid(r);
    let past = r.once_in(16);
    if past {
        // the fourth copy stands at 2^64
        (g.bars, g.steps_per_bar) = (1 << 31, 1 << 31);
    }
    let notes = notes(r, size, 1);
    let times = match r.below(6) {
        _ if past => r.below(9) as u32,
        0 => r.u32(),
        1 => r.below(2) as u32,
        2 if size == Size::Small => r.below(40) as u32,
        _ => r.below(6) as u32,
    };
    let entries = (notes.len() / 4).saturating_mul(times as usize);
    Asked::default().u32(g.bars).u32(g.steps_per_bar).u32(times).u32(room(r, entries, size)).words(&notes)
}

/// 63.
fn slice(r: &mut Rng, size: Size) -> Asked {
    let g = grid(r);
    let notes = notes(r, size, 1);
    let start = if r.once_in(5) { r.u32() } else { r.below(12) as u32 };
    let len = match r.below(5) {
        0 => r.u32(),
        1 => r.pick(&[0, 1, u32::MAX]),
        _ => r.below(40) as u32,
    };
    let end = u64::from(start) + u64::from(len);
    let kept = notes.chunks_exact(4).filter(|n| start <= n[0] && u64::from(n[0]) < end).count();
    Asked::default().u32(g.bars).u32(start).u32(len).u32(g.steps_per_bar).u32(room(r, kept, size)).words(&notes)
}

/// 64.
fn stretch(r: &mut Rng, size: Size) -> Asked {
    let (num, den) = match r.below(8) {
        0 => (r.u32(), r.u32()),
        1 => (r.pick(&[0, 1, 5]), r.pick(&[0, 1, 2])),
        2 => (r.u32(), r.pick(&[1, 1, 2])),
        _ => (r.between(1, 6) as u32, r.between(1, 6) as u32),
    };
    let multiple = if r.once_in(4) { 1 } else { den };
    let bars = if r.once_in(5) { r.u32() } else { multiple.wrapping_mul(r.below(5) as u32) };
    let mut notes = notes(r, size, multiple);
    if r.once_in(2) {
        // on the grid but for one number of one note
        for (k, word) in notes.iter_mut().enumerate().filter(|(k, _)| k % 4 < 2) {
            *word = multiple.wrapping_mul((k % 13) as u32);
        }
        if notes.len() >= 4 && r.once_in(2) {
            let at = 4 * r.below(notes.len() as u64 / 4) as usize + r.below(2) as usize;
            notes[at] = notes[at].wrapping_add(1);
        }
    }
    let entries = notes.len() / 4;
    Asked::default().u32(bars).u32(num).u32(den).u32(r.below(20) as u32).u32(room(r, entries, size)).words(&notes)
}

/// 6a. The original walks every step; past some number of them the oracle has a formula.
fn euclidean(r: &mut Rng, size: Size) -> Asked {
    let steps = match r.below(12) {
        0 => 0,
        1 if size != Size::Small => r.below(70_000) as u32,
        2 => r.below(300) as u32,
        3 => r.u32(),
        _ => r.below(24) as u32,
    };
    let pulses = match r.below(6) {
        0 => steps.wrapping_add(1),
        1 => steps,
        2 => r.pick(&[0, 1]),
        3 if r.once_in(4) => r.u32(),
        4 => steps.min(r.below(24) as u32),
        _ => r.below(u64::from(steps) + 1) as u32,
    };
    let len = if r.once_in(3) { r.u32() } else { r.below(4) as u32 };
    let asked = Asked::default().u32(pulses).u32(steps).u32(r.u32()).u32(len).u32(grid(r).steps_per_bar);
    asked.u32(room(r, pulses as usize, size))
}

/// 6b.
fn tuplet(r: &mut Rng, size: Size) -> Asked {
    let count = match r.below(8) {
        0 => r.u32(),
        1 if size != Size::Small => r.between(16_384, 16_386) as u32,
        _ => r.below(24) as u32,
    };
    let in_steps = if r.once_in(3) { r.u32() } else { r.below(40) as u32 };
    let len = if r.once_in(3) { r.u32() } else { r.below(4) as u32 };
    Asked::default().u32(count).u32(in_steps).u32(r.u32()).u32(len).u32(room(r, count as usize, size))
}

pub fn question(op: u32, r: &mut Rng, size: Size) -> Asked {
    let asked = Asked::default();
    match op {
        0x60 => return repeat(r, size),
        0x63 => return slice(r, size),
        0x64 => return stretch(r, size),
        0x6a => return euclidean(r, size),
        0x6b => return tuplet(r, size),
        _ => {}
    }
    let g = grid(r);
    let a = notes(r, size, 1);
    if matches!(op, 0x61 | 0x62) {
        let other = if r.once_in(2) { size } else { Size::Small };
        let b = notes(r, other, 1);
        let (a, b) = if r.once_in(2) { (b, a) } else { (a, b) };
        let entries = a.len() / 4 + b.len() / 4;
        let bars = if r.once_in(3) { r.u32() } else { r.below(5) as u32 };
        let asked = asked.u32(g.bars).u32(bars);
        let asked = if op == 0x61 { asked.u32(g.steps_per_bar) } else { asked };
        return asked.u32(room(r, entries, size)).words(&a).words(&b);
    }
    let total = i64::from(g.bars).saturating_mul(i64::from(g.steps_per_bar.max(1)));
    let asked = asked.u32(g.bars);
    let asked = match op {
        0x65 => {
            let shift = match r.below(5) {
                0 => r.i64(),
                1 => total.saturating_add(r.between(-2, 2)),
                _ => r.between(-40, 40),
            };
            asked.i64(shift).u32(g.steps_per_bar)
        }
        0x66 => asked.u32(g.steps_per_bar),
        0x67 => asked.u32(if r.once_in(4) { r.u32() } else { r.below(10) as u32 }),
        _ => asked.u32(factor(r)),
    };
    asked.u32(room(r, a.len() / 4, size)).words(&a)
}
