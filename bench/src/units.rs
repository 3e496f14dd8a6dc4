//! The twin of crates/bench_units, which says what each row is. The original has no second form without tests, so the
//! rows `add`, `order` and `frame_of` are its `checked_add`, `cmp` and `beat_to_frames` again.

use crate::benching::{Asked, INPUTS, beat_word, inputs};
use std::cmp::Ordering;
use tono_core::units::{Beat, BeatError, SampleRate, Tempo, beat_to_frames};

/// The inputs lie as in the port: an array for each field.
struct Fractions {
    nums: [i64; INPUTS],
    dens: [u32; INPUTS],
}

impl Fractions {
    fn of(make: impl Fn(u64, u64) -> (i64, u32)) -> Fractions {
        let made = inputs(make);
        Fractions { nums: std::array::from_fn(|k| made[k].0), dens: std::array::from_fn(|k| made[k].1) }
    }

    fn at(&self, k: usize) -> Beat {
        Beat { num: self.nums[k], den: self.dens[k] }
    }
}

fn fraction(size: u64, s: u64, den: u64) -> (i64, u32) {
    let num = i64::try_from(size).expect("a size below 2^63");
    let den = u32::try_from(den).expect("a denominator below 2^32");
    (if s.is_multiple_of(8) { -num } else { num }, den)
}

fn small(r: u64, s: u64) -> (i64, u32) {
    fraction(r % 0x1_0000, s, s / 8 % 0x100)
}

fn wider(r: u64, s: u64) -> (i64, u32) {
    fraction(r % 0x8000_0000_0000, s, s / 8 % 0x1000)
}

fn large(r: u64, s: u64) -> (i64, u32) {
    fraction(r / 2, s, s / 8 % 0x1_0000_0000)
}

fn lowest((num, den): (i64, u32)) -> (i64, u32) {
    let b = Beat::new(num, den);
    (b.num, b.den)
}

fn mixed(r: u64, s: u64) -> (i64, u32) {
    lowest(match s >> 60 {
        0 => large(r, s),
        1..=4 => wider(r, s),
        _ => small(r, s),
    })
}

fn grid(r: u64, s: u64) -> (i64, u32) {
    let dens = [1, 1, 1, 1, 2, 2, 2, 4, 4, 3, 3, 6, 8, 12, 16, 24];
    lowest(fraction(r % 0x1_0000, s, dens[(s >> 60) as usize]))
}

fn tempo(r: u64, _: u64) -> f32 {
    f32::from_bits(0x4280_0000 + (r % 0x100_0000) as u32)
}

fn rate(_: u64, s: u64) -> u32 {
    [22050, 44100, 48000, 96000][(s % 4) as usize]
}

fn sum_word(answer: Result<Beat, BeatError>) -> u64 {
    match answer {
        Ok(b) => beat_word(b),
        Err(BeatError::Overflow) => 2,
    }
}

fn order_word(order: Ordering) -> u64 {
    match order {
        Ordering::Less => 3,
        Ordering::Equal => 4,
        Ordering::Greater => 5,
    }
}

pub fn rows(asked: &Asked) {
    let tempos: [f32; INPUTS] = inputs(tempo).try_into().expect("as many as the inputs");
    let rates: [u32; INPUTS] = inputs(rate).try_into().expect("as many as the inputs");
    let add = |call: &str, size: &str, set: &Fractions| {
        asked.row(call, size, |k, after| sum_word(set.at(k).checked_add(set.at(after))));
    };
    let cmp = |call: &str, size: &str, set: &Fractions| {
        asked.row(call, size, |k, after| order_word(set.at(k).cmp(&set.at(after))));
    };
    let frames = |call: &str, size: &str, set: &Fractions| {
        asked.row(call, size, |k, _| beat_to_frames(set.at(k), Tempo(tempos[k]), SampleRate(rates[k])).0);
    };
    let new = |size: &str, set: &Fractions| {
        asked.row("new", size, |k, _| beat_word(Beat::new(set.nums[k], set.dens[k])));
    };

    let set = Fractions::of(mixed);
    asked.row("empty", "mixed", |k, _| beat_word(set.at(k)));
    add("checked_add", "mixed", &set);
    add("add", "mixed", &set);
    cmp("cmp", "mixed", &set);
    cmp("order", "mixed", &set);
    frames("beat_to_frames", "mixed", &set);
    frames("frame_of", "mixed", &set);

    let set = Fractions::of(grid);
    add("checked_add", "grid", &set);
    cmp("cmp", "grid", &set);
    frames("beat_to_frames", "grid", &set);

    new("small", &Fractions::of(small));
    new("large", &Fractions::of(large));
}
