//! 50 to 52: the cue call, the line filler and the range of lines, which the original does not have.

use super::maps::Asked;
use super::transport::{original, read_back};
use super::{Answer, numbers_of};
use crate::args::{Args, Tempo, Transport};
use crate::refusal;

/// Up to so many frames are stepped one at a time by the original's `advance`; more are counted by laps.
const STEPPED: u64 = 4096;

/// 50.
pub fn cues(args: &Args, lent: &mut [u64]) -> Answer {
    let (t, frames, lines) = (args.transport(0), args.u64(1), args.lines(3));
    refusal::sound(t)?;
    refusal::lines_short(lines.len())?;
    refusal::ascend(lines)?;
    let none = Tempo::default();
    let mut made = original(t, &[], &none);
    if !made.is_playing() {
        return Ok([&numbers_of(t)[..], &[0, 0, 0]].concat());
    }
    if t.position.checked_add(frames).is_none() {
        return refusal::by(10);
    }
    let holds = lent.len() / 2;
    let found = if frames <= STEPPED { stepped(t, frames, lines, holds) } else { by_laps(t, frames, lines, holds) };
    let Some(found) = found else { return refusal::by(8) };
    for (to, (time, place)) in lent.chunks_exact_mut(2).zip(&found) {
        to.copy_from_slice(&[*time, *place]);
    }
    let report = made.advance(frames);
    let mut values = numbers_of(&read_back(t, &made)).to_vec();
    values.extend([u64::from(report.wrapped), u64::from(report.finished), found.len() as u64]);
    Ok(values)
}

/// The places of the lines from one frame up to another, which is not included.
fn places(lines: &[u64], from: u64, to: u64) -> std::ops::Range<usize> {
    lines.partition_point(|line| *line < from)..lines.partition_point(|line| *line < to)
}

/// The cues by the words of the rule: for each t the beginning is advanced by t, and every line that equals the frame
/// where it stands is a cue. None where there are more than the output holds.
pub fn stepped(t: &Transport, frames: u64, lines: &[u64], holds: usize) -> Option<Vec<(u64, u64)>> {
    let beginning = original(t, &[], &Tempo::default());
    let mut found = Vec::new();
    for time in 0..frames {
        let mut now = beginning.clone();
        if now.advance(time).finished {
            break;
        }
        let frame = now.position_frames();
        let first = lines.partition_point(|line| *line < frame);
        for (place, line) in lines.iter().enumerate().skip(first) {
            if *line != frame {
                break;
            }
            found.push((time, place as u64));
        }
        if found.len() > holds {
            return None;
        }
    }
    Some(found)
}

/// The same for any number of frames: a run of frames up to the end, then laps of the loop.
pub fn by_laps(t: &Transport, frames: u64, lines: &[u64], holds: usize) -> Option<Vec<(u64, u64)>> {
    let mut found = Vec::new();
    let mut run = |time: u64, from: u64, to: u64| {
        for place in places(lines, from, to) {
            if found.len() == holds {
                return false;
            }
            found.push((time + (lines[place] - from), place as u64));
        }
        true
    };
    let Some((start, end)) = t.looped else {
        let fits = run(0, t.position, t.length.min(t.position + frames));
        return fits.then_some(found);
    };
    let mut from = if t.position >= end { start + (t.position - start) % (end - start) } else { t.position };
    let mut time = 0;
    if places(lines, start, end).is_empty() {
        // no lap but the first has a cue
        let fits = run(0, from, end.min(from.saturating_add(frames)));
        return fits.then_some(found);
    }
    while time < frames {
        let to = end.min(from.saturating_add(frames - time));
        if !run(time, from, to) {
            return None;
        }
        time += to - from;
        from = start;
    }
    Some(found)
}

/// 51.
pub fn fill(args: &Args, lent: &mut [u64]) -> Answer {
    let (t, meter, tempo) = (args.transport(0), args.words(2), args.tempo(3));
    refusal::sound(t)?;
    refusal::meter_even(meter)?;
    refusal::tempo_even(tempo)?;
    refusal::lines_short(lent.len())?;
    Asked { meter: Some(meter), tempo: Some(tempo), ..Asked::default() }.test()?;
    let made = original(t, meter, tempo);
    for (bar, to) in lent.iter_mut().enumerate() {
        *to = made.frame_at_bar(bar as u32);
    }
    Ok(Vec::new())
}

/// 52.
pub fn range(args: &Args) -> Answer {
    let (start, end, lines) = (args.u64(0), args.u64(1), args.lines(2));
    refusal::lines_short(lines.len())?;
    refusal::ascend(lines)?;
    let within: Vec<u64> = lines.iter().copied().filter(|line| start <= *line && *line < end).collect();
    Ok([&[within.len() as u64][..], &within].concat())
}

#[cfg(test)]
mod tests {
    use super::*;

    /// Numbers in a row, each from the one before.
    fn numbers() -> impl FnMut(u64) -> u64 {
        let mut state = 1u64;
        move |below| {
            state = state.wrapping_mul(6_364_136_223_846_793_005).wrapping_add(1_442_695_040_888_963_407);
            (state >> 33) % below
        }
    }

    #[test]
    fn laps_count_what_is_stepped() {
        let mut number = numbers();
        for _ in 0..20_000 {
            let length = number(30);
            let end = 1 + number(length.max(1));
            let looped = (length > 0 && number(3) > 0).then(|| (number(end), end));
            let t = Transport {
                rate: 1,
                bpm: 0,
                beats_per_bar: 4,
                length,
                position: number(length + 1),
                state: 1,
                looped,
                pickup: None,
            };
            let mut lines: Vec<u64> = (0..number(6)).map(|_| number(32)).collect();
            lines.sort();
            let (frames, holds) = (number(100), number(40) as usize);
            assert_eq!(
                stepped(&t, frames, &lines, holds),
                by_laps(&t, frames, &lines, holds),
                "{t:?} {frames} {lines:?}"
            );
        }
    }
}
