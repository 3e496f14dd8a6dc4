//! Questions 08 and 09: beats on frames, at ties, at the last odd floats and at saturation; beats on steps, on the grid
//! and off it.

use super::beats::{any_beat, beat, reduced};
use super::rng::Rng;
use super::write::Asked;
use tono_core::units::Beat;

/// A beat, a tempo and a rate.
fn framed(r: &mut Rng) -> (Beat, u32, u32) {
    let sixty = 60.0f32.to_bits();
    match r.below(10) {
        0 | 1 => (any_beat(r), r.bpm(), r.rate()),
        2 => (reduced(r.between(-99, 999), r.between(1, 48) as u32), r.bpm(), r.rate()),
        // halves of a frame, exactly
        3 => (reduced(2 * r.between(-20, 2000) + 1, 2 << r.below(20)), sixty, 1 << r.below(21)),
        4 => (
            reduced(r.between(-20, 20_000), 1 << r.below(12)),
            r.pick(&[sixty, 120.0f32.to_bits(), 15.0f32.to_bits()]),
            r.pick(&[1, 2, 3, 44_100]),
        ),
        // near a half: a rate times its own reciprocal
        5 => {
            let rate = (r.bits(30) as u32).max(1) | 1;
            (reduced(r.pick(&[1, 1, 3, 5, -1]), rate.saturating_mul(2)), sixty, rate)
        }
        // odd whole frames of 53 bits, to which no half can be added
        6 => {
            let rate = (1 << 20 | r.below(1 << 20) | 1) as u32;
            let beats = ((1u64 << 52) + r.below(1 << 52)) / u64::from(rate) | 1;
            (Beat { num: beats as i64, den: 1 }, sixty, rate)
        }
        // at or beside 2^63 and 2^64 frames
        7 if r.once_in(2) => {
            // 2^53 - 1 is 20394401 times this rate: the last float below a power of two, and that power's neighbours
            let num = (20_394_401i64 << r.pick(&[10, 11, 11, 12])) + r.pick(&[0, 0, 0, -1, 1]);
            (Beat { num, den: 1 }, sixty, 441_650_591)
        }
        7 => {
            let power = r.pick(&[31, 32, 32, 33]);
            (
                Beat { num: (1i64 << power) + r.between(-2, 2), den: 1 },
                sixty,
                r.pick(&[u32::MAX, u32::MAX - 1, 1 << 31]),
            )
        }
        8 => (Beat { num: r.i64(), den: 1 }, r.bpm(), r.u32()),
        _ => (reduced(r.i64(), r.u32()), (1.0f32.to_bits() - 2) + r.below(5) as u32, r.rate()),
    }
}

/// A beat and a grid.
fn stepped(r: &mut Rng) -> (Beat, u32) {
    match r.below(8) {
        0 | 1 => (any_beat(r), r.u32()),
        2 => (beat(r), r.pick(&[0, 1, 2, 3, 4, 12, 48])),
        // on the grid, or one beside it
        3 | 4 => {
            let den = r.between(1, 64) as u32;
            (
                reduced(r.between(-50, 5000), den),
                (den * r.between(1, 4) as u32).wrapping_add_signed(r.pick(&[0, 0, 0, 1, -1])),
            )
        }
        // at or beside the last step
        5 | 6 => {
            let (grid, den) = (r.between(1, 99) as u32, r.pick(&[1, 1, 2, 3, 4]));
            let num = ((1i64 << 32) + r.between(-3, 3)) / i64::from(grid) * i64::from(den) + r.between(-2, 2);
            (reduced(num, den), grid)
        }
        _ => {
            let den = (r.bits(32) as u32).max(1);
            (reduced(r.pick(&[-1, 1]) * r.bits(62) as i64, den), if r.once_in(2) { den } else { r.u32() })
        }
    }
}

pub fn question(op: u32, r: &mut Rng) -> Asked {
    let asked = Asked::default();
    if op == 0x08 {
        let (beat, bpm, rate) = framed(r);
        asked.beat(beat).u32(bpm).u32(rate)
    } else {
        let (beat, grid) = stepped(r);
        asked.beat(beat).u32(grid)
    }
}
