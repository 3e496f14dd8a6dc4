//! Questions 30 to 46: transports, sound and unsound, their moves at and beside the loop's and the program's end, and
//! their conversions at ties and at the ends of the widths.

use super::beats::reduced;
use super::maps::{self, Size};
use super::rng::Rng;
use super::tempo::beat_bits;
use super::write::Asked;
use crate::answer::maps::Asked as Maps;
use crate::answer::transport::original;
use crate::args::{Tempo, Transport};
use crate::refusal;
use tono_core::units::Beat;

/// At a frame, or one beside it.
fn near(r: &mut Rng, frame: u64) -> u64 {
    match r.below(4) {
        0 => frame.wrapping_sub(1),
        1 => frame.wrapping_add(1),
        _ => frame,
    }
}

/// A sound loop in a program of this length, where one fits.
fn sound_loop(r: &mut Rng, length: u64) -> Option<(u64, u64)> {
    if length == 0 || r.once_in(3) {
        return None;
    }
    let end = match r.below(4) {
        0 => length,
        1 => 1,
        _ => 1 + r.below(length),
    };
    let start = match r.below(4) {
        0 => 0,
        1 => end - 1,
        _ => r.below(end),
    };
    Some((start, end))
}

/// A position in a program of this length: at its ends, at the loop's, or anywhere.
fn sound_position(r: &mut Rng, length: u64, looped: Option<(u64, u64)>) -> u64 {
    let (start, end) = looped.unwrap_or((length / 2, length));
    let base = match r.below(6) {
        0 => 0,
        1 => near(r, start),
        2 => near(r, end),
        3 => near(r, length),
        _ => r.below(length.max(1)),
    };
    base.min(length)
}

/// A sound transport of this length.
pub fn sound_transport(r: &mut Rng, length: u64) -> Transport {
    let looped = sound_loop(r, length);
    Transport {
        rate: r.rate(),
        bpm: r.bpm(),
        beats_per_bar: if r.once_in(3) { maps::default_numerator(r) } else { 4 },
        length,
        position: sound_position(r, length, looped),
        state: r.pick(&[1, 1, 1, 0, 2]),
        looped,
        pickup: maps::pickup(r).filter(|beat| refusal::is_beat(*beat)),
    }
}

/// A transport of this length, sound but for one in twelve.
pub fn transport(r: &mut Rng, length: u64) -> Transport {
    let mut t = sound_transport(r, length);
    if r.once_in(12) {
        spoil(r, &mut t);
    }
    t
}

/// Makes it unsound, in one of the ways.
fn spoil(r: &mut Rng, t: &mut Transport) {
    match r.below(8) {
        0 if t.length < u64::MAX => t.position = t.length + 1,
        1 if t.length < u64::MAX => t.position = u64::MAX,
        2 => t.looped = Some((t.length, t.length)),
        3 => t.looped = Some((t.length / 2 + 1, t.length / 2)),
        4 if t.length < u64::MAX => t.looped = Some((t.length / 2, t.length + 1)),
        5 => t.pickup = Some(Beat { num: 1, den: 0 }),
        6 => t.pickup = Some(Beat { num: 2, den: 2 }),
        _ => t.pickup = Some(Beat { num: 0, den: 3 }),
    }
}

pub fn length(r: &mut Rng) -> u64 {
    match r.below(8) {
        0 => u64::MAX,
        1 => r.u64(),
        2 => 1000,
        3 => r.below(4),
        4 => u64::MAX - r.below(3),
        _ => r.bits(34),
    }
}

/// Frames to move by: to the loop's or the program's end or beside it, whole laps, or any.
fn frames(r: &mut Rng, t: &Transport) -> u64 {
    let (start, end) = t.looped.unwrap_or((0, t.length));
    let span = end.wrapping_sub(start);
    match r.below(8) {
        0 => r.below(3),
        1 => near(r, end.wrapping_sub(t.position)),
        2 => near(r, t.length.wrapping_sub(t.position)),
        3 => {
            let laps = r.below(5);
            near(r, span.wrapping_mul(laps))
        }
        4 => near(r, (u64::MAX).wrapping_sub(t.position)),
        5 => r.below(2000),
        _ => r.u64(),
    }
}

/// A tempo that makes ties: a beat at 60, a rate that keeps it whole.
fn plain(r: &mut Rng, t: &mut Transport) {
    if r.once_in(2) {
        t.bpm = r.pick(&[60.0f32, 60.0, 120.0, 15.0, 240.0]).to_bits();
        t.rate = r.pick(&[1, 1, 2, 4, 1000, 48_000, 1 << 16, u32::MAX]);
    }
}

/// A beat that is a half of a frame or stands beside one, where a beat is a frame.
fn half_frame(r: &mut Rng, t: &mut Transport) -> u64 {
    (t.bpm, t.rate) = (60.0f32.to_bits(), 1);
    let half = r.pick(&[0.5, 0.5, 1.5, 2.5, 3.5, -0.5, 4_503_599_627_370_495.5, 4_503_599_627_370_497.0]);
    r.beside(half).to_bits()
}

/// A pickup that ends at a half of a frame, or nearly there.
fn half_pickup(r: &mut Rng, t: &mut Transport) {
    let rate = if r.once_in(2) { 1 << r.below(20) } else { r.below(1 << 20) as u32 | 1 };
    (t.bpm, t.rate) = (60.0f32.to_bits(), rate);
    t.pickup = Some(reduced(r.pick(&[1, 1, 3, 5, -1]), 2 * rate));
}

/// A position at or beside a beat, where the tempo is plain.
fn on_grid(r: &mut Rng, t: &mut Transport) {
    t.bpm = r.pick(&[60.0f32, 120.0, 240.0, 90.0]).to_bits();
    t.rate = r.pick(&[1, 100, 44_100, 48_000]);
    let beat = u64::from(t.rate) * 60 / f32::from_bits(t.bpm) as u64;
    let at = beat.wrapping_mul(r.below(64) * r.pick(&[1, 1, 4, 1 << 20, 1 << 28]));
    let at = near(r, at);
    if at <= t.length {
        t.position = at;
    }
}

/// The two maps. Beside a huge one the other is small, so that the question keeps its size, or empty where nothing else
/// is to refuse it.
fn both(r: &mut Rng, size: Size) -> (Vec<u32>, Tempo) {
    match size {
        Size::Small => {
            let tempo = if r.once_in(2) { Tempo::default() } else { maps::tempo(r, size) };
            (maps::meter(r, size), tempo)
        }
        Size::Huge(_, whole) if r.once_in(2) => {
            (if whole { Vec::new() } else { maps::meter(r, Size::Small) }, maps::tempo(r, size))
        }
        Size::Huge(_, whole) => {
            (maps::meter(r, size), if whole { Tempo::default() } else { maps::tempo(r, Size::Small) })
        }
    }
}

fn lone_tempo(r: &mut Rng, size: Size) -> Tempo {
    if size == Size::Small && r.once_in(2) { Tempo::default() } else { maps::tempo(r, size) }
}

/// The frame of a bar or of a beat through the maps, or one beside it; none where the transport or a map is refused.
fn on_line(r: &mut Rng, t: &Transport, meter: &[u32], tempo: &Tempo) -> Option<u64> {
    refusal::sound(t).ok()?;
    Maps { meter: Some(meter), tempo: Some(tempo), ..Maps::default() }.test().ok()?;
    let made = original(t, meter, tempo);
    let frame = if r.once_in(2) {
        made.frame_at_bar(maps::bar(r, meter))
    } else {
        made.frame_at_beat(f64::from_bits(beat_bits(r, tempo)))
    };
    Some(near(r, frame))
}

/// Once in a while the position goes to such a frame.
fn to_line(r: &mut Rng, t: &mut Transport, meter: &[u32], tempo: &Tempo) {
    if r.once_in(3)
        && let Some(frame) = on_line(r, t, meter, tempo)
    {
        t.position = frame.min(t.length);
    }
}

/// 30 and 31.
pub fn make(op: u32, r: &mut Rng) -> Asked {
    let asked = Asked::default().u32(r.rate()).u32(r.bpm()).u32(maps::default_numerator(r));
    if op == 0x30 { asked } else { asked.u64(length(r)).pickup(maps::pickup(r)) }
}

/// 32 to 46.
pub fn question(op: u32, r: &mut Rng, size: Size) -> Asked {
    let length = length(r);
    let mut t = transport(r, length);
    match op {
        0x40 | 0x41 | 0x37 => plain(r, &mut t),
        0x43..=0x46 if r.once_in(2) => on_grid(r, &mut t),
        _ => {}
    }
    let asked = Asked::default().transport(&t);
    match op {
        0x32..=0x35 => asked,
        0x36 => {
            let frame = if r.once_in(2) { near(r, t.length) } else { r.u64() };
            asked.u64(frame)
        }
        0x39 => {
            let end = if r.once_in(2) { near(r, t.length) } else { r.u64() };
            let start = match r.below(3) {
                0 => near(r, end),
                1 => r.u64(),
                _ => r.below(end.max(1)),
            };
            asked.u64(start).u64(end)
        }
        0x3b | 0x3c => asked.u64(frames(r, &t)),
        0x37 | 0x40 if size == Size::Small && r.once_in(6) => {
            let beat = half_frame(r, &mut t);
            Asked::default().transport(&t).u64(beat).tempo(&Tempo::default())
        }
        0x38 | 0x42 if size == Size::Small && r.once_in(12) => {
            half_pickup(r, &mut t);
            Asked::default().transport(&t).u32(1).words(&[]).tempo(&Tempo::default())
        }
        0x37 | 0x40 => {
            let tempo = lone_tempo(r, size);
            asked.u64(beat_bits(r, &tempo)).tempo(&tempo)
        }
        0x41 => {
            let tempo = lone_tempo(r, size);
            let line = if r.once_in(2) { on_line(r, &t, &[], &tempo) } else { None };
            asked.u64(line.unwrap_or_else(|| r.u64())).tempo(&tempo)
        }
        0x43 | 0x45 => {
            let tempo = lone_tempo(r, size);
            to_line(r, &mut t, &[], &tempo);
            Asked::default().transport(&t).tempo(&tempo)
        }
        _ => {
            let (meter, tempo) = both(r, size);
            if op >= 0x43 {
                to_line(r, &mut t, &meter, &tempo);
            }
            let asked = Asked::default().transport(&t);
            let asked = match op {
                0x38 | 0x42 => asked.u32(maps::bar(r, &meter)),
                0x3a => {
                    let start = maps::bar(r, &meter);
                    let end = if r.once_in(2) {
                        start.wrapping_add_signed(r.between(-1, 4) as i32)
                    } else {
                        maps::bar(r, &meter)
                    };
                    asked.u32(start).u32(end)
                }
                0x44 => asked.u32(if r.once_in(4) { r.u32() } else { r.below(9) as u32 }),
                _ => asked,
            };
            asked.words(&meter).tempo(&tempo)
        }
    }
}
