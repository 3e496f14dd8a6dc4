//! Questions 50 to 52: the cue call over laps, ends and full outputs, the line filler, and the range of lines.

use super::maps::{self, Size};
use super::meter::room;
use super::rng::Rng;
use super::transport;
use super::write::Asked;
use crate::answer::cues::by_laps;
use crate::args::{Tempo, Transport};

/// Lines in a span of frames, ascending, some of them equal; once in a while not ascending.
fn lines(r: &mut Rng, size: Size, span: u64) -> Vec<u64> {
    let count = if let Size::Huge(count, _) = size { count } else { r.below(9) as usize };
    let mut lines: Vec<u64> = (0..count).map(|_| r.below(span.saturating_add(2).max(1))).collect();
    lines.sort();
    if count > 1 && r.once_in(4) {
        let at = r.below(count as u64 - 1) as usize;
        lines[at + 1] = lines[at];
        lines.sort();
    }
    if count > 1 && !matches!(size, Size::Huge(_, true)) && r.once_in(if size == Size::Small { 16 } else { 3 }) {
        let at = match r.below(3) {
            0 => 0,
            1 => count - 2,
            _ => r.below(count as u64 - 1) as usize,
        };
        lines[at] = lines[at + 1].saturating_add(r.below(2));
        lines[at + 1] = lines[at].saturating_sub(1);
    }
    lines
}

/// 50.
fn cues(r: &mut Rng, size: Size) -> Asked {
    let length = match r.below(6) {
        0 => transport::length(r),
        1 => r.below(4),
        _ => r.below(400),
    };
    let mut t = transport::transport(r, length);
    if r.once_in(2) {
        t.state = 1;
    }
    let frames = match r.below(14) {
        0 => r.below(2),
        1 => u64::MAX - t.position,
        2 => (u64::MAX - t.position).wrapping_add(1 + r.below(2)),
        3 => r.u64(),
        4 => 4090 + r.below(20),
        5 => t.length.wrapping_sub(t.position).wrapping_add(r.below(3)).wrapping_sub(1),
        6 => t.looped.map_or(0, |(_, end)| end.wrapping_sub(t.position)).wrapping_add(r.below(3)).wrapping_sub(1),
        // blocks as a sound card asks for them
        7 | 8 => r.pick(&[63, 64, 65, 511, 512, 513]),
        _ => r.below(600),
    };
    let mut lines = lines(r, size, t.length);
    // at the position, the program's end and the loop's, and one before
    if size == Size::Small && r.once_in(3) {
        lines.extend([t.position, t.length.saturating_sub(1), t.length]);
        if let Some((start, end)) = t.looped {
            lines.extend([start, end.saturating_sub(1), end]);
        }
        lines.sort();
    }
    let sound = crate::refusal::sound(&t).is_ok() && t.position.checked_add(frames).is_some() && lines.is_sorted();
    let found =
        if sound { by_laps(&t, frames, &lines, 30_000).map_or(r.below(40) as usize, |cues| cues.len()) } else { 3 };
    Asked::default().transport(&t).u64(frames).u32(room(r, found, 2)).longs(lines.into_iter())
}

/// 51.
fn fill(r: &mut Rng, size: Size) -> Asked {
    let length = transport::length(r);
    let mut t: Transport = transport::transport(r, length);
    let (room, meter, tempo) = match size {
        Size::Small => {
            let tempo = if r.once_in(2) { Tempo::default() } else { maps::tempo(r, size) };
            (r.below(40) as u32, maps::meter(r, size), tempo)
        }
        Size::Huge(_, false) if r.once_in(3) => (r.below(6) as u32, Vec::new(), maps::tempo(r, size)),
        // as many lines as are taken, and nothing that would refuse them
        Size::Huge(count @ ..=65_536, _) => {
            t = transport::sound_transport(r, length);
            (count as u32, maps::meter_points(r, Size::Small), Tempo::default())
        }
        // more lines, alone or beside another refusal
        Size::Huge(count, whole) => {
            let bad = Tempo { nums: vec![2], dens: vec![2], bpms: vec![0] };
            let (meter, tempo) = match r.below(5) {
                _ if whole => (Vec::new(), Tempo::default()),
                0 => (vec![7], Tempo::default()),
                1 => (Vec::new(), bad),
                _ => (Vec::new(), Tempo::default()),
            };
            (count as u32 + if whole { 0 } else { r.pick(&[0, 0, 3]) }, meter, tempo)
        }
    };
    Asked::default().transport(&t).u32(room).words(&meter).tempo(&tempo)
}

/// 52.
fn range(r: &mut Rng, size: Size) -> Asked {
    let span = if r.once_in(6) { u64::MAX } else { r.pick(&[4, 10, 400]) };
    let lines = lines(r, size, span);
    let mut edge = || match r.below(4) {
        0 => r.u64(),
        1 => r.below(span.saturating_add(3)),
        _ if lines.is_empty() => r.below(5),
        _ => r.pick(&lines).wrapping_add(r.below(3)).wrapping_sub(1),
    };
    let (start, end) = (edge(), edge());
    Asked::default().u64(start).u64(end).longs(lines.into_iter())
}

pub fn question(op: u32, r: &mut Rng, size: Size) -> Asked {
    match op {
        0x50 => cues(r, size),
        0x51 => fill(r, size),
        _ => range(r, size),
    }
}
