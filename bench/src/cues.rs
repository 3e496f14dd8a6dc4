//! The twin of crates/bench_cues, which says what each row is. The original has no cue call, so the twin is one in plain
//! Rust over the original's transport. It does not go from frame to frame: it cuts the run into stretches at the loop's
//! end, finds the lines of each by binary search, and counts the cues before it writes the first. The rows `cue` test the
//! lines as the port does, and the rows `tested` trust them, as the original trusts its callers. None tests the
//! transport: the original's own calls leave no bad one.

use crate::benching::{Asked, mixed};
use std::ops::Range;
use tono_core::runtime::transport::{Advance, Transport};

/// The most lines that a list may have.
const LINES: usize = 65_536;

/// The words of the lent output: room for 2,048 cues.
const ROOM: usize = 4096;

/// From one line to the next, in frames.
const APART: u64 = 93;

/// What the advance did and the number of cues, or the number of the refusal.
type Answer = Result<(Advance, usize), u64>;

/// The places of the lines in so many frames from one on.
fn places(lines: &[u64], from: u64, frames: u64) -> Range<usize> {
    lines.partition_point(|line| *line < from)..lines.partition_point(|line| *line < from + frames)
}

/// Writes the cues of lines of which the frame `from` sounds at this time, from the pair `at` on. Gives the next pair.
fn write(lines: &[u64], places: &Range<usize>, from: u64, time: u64, out: &mut [u64], at: usize) -> usize {
    let next = at + places.len();
    for (pair, place) in out[2 * at..2 * next].chunks_exact_mut(2).zip(places.clone()) {
        pair[0] = time + (lines[place] - from);
        pair[1] = place as u64;
    }
    next
}

/// The cue call over lines that ascend.
fn tested(t: &mut Transport, lines: &[u64], frames: u64, out: &mut [u64]) -> Answer {
    if !t.is_playing() {
        return Ok((t.advance(frames), 0));
    }
    let position = t.position_frames();
    if position.checked_add(frames).is_none() {
        return Err(10);
    }
    let (start, end) = t.loop_range().unwrap_or((0, t.length_frames()));
    let from = if position < end { position } else { start + (position - start) % (end - start) };
    let left = frames.min(end - from);
    let first = places(lines, from, left);
    let mut cues = first.len();
    if t.loop_range().is_some() && left < frames {
        let (lap, more) = (end - start, frames - left);
        let (laps, rest) = (more / lap, more % lap);
        let (every, last) = (places(lines, start, lap), places(lines, start, rest));
        let count = u128::from(laps) * every.len() as u128 + (cues + last.len()) as u128;
        if count > out.len() as u128 / 2 {
            return Err(8);
        }
        let mut at = write(lines, &first, from, 0, out, 0);
        for k in 0..if every.is_empty() { 0 } else { laps } {
            at = write(lines, &every, start, left + k * lap, out, at);
        }
        cues = write(lines, &last, start, left + laps * lap, out, at);
    } else {
        if cues > out.len() / 2 {
            return Err(8);
        }
        write(lines, &first, from, 0, out, 0);
    }
    Ok((t.advance(frames), cues))
}

/// The cue call.
fn cue(t: &mut Transport, lines: &[u64], frames: u64, out: &mut [u64]) -> Answer {
    if lines.len() > LINES {
        return Err(4);
    }
    if !lines.is_sorted() {
        return Err(11);
    }
    tested(t, lines, frames, out)
}

/// Where the run stands, how many cues it has, what the advance did in the highest bits, and each cue. A refusal counts
/// as its number.
fn word(t: &Transport, answer: Answer, out: &[u64]) -> u64 {
    match answer {
        Err(number) => number,
        Ok((did, cues)) => {
            let flags = u64::from(did.wrapped) << 63 | u64::from(did.finished) << 62;
            let stands = t.position_frames().wrapping_add(cues as u64) ^ flags;
            out[..2 * cues].chunks_exact(2).fold(stands, |sum, cue| mixed(sum, cue[0] << 32 ^ cue[1]))
        }
    }
}

/// A transport that stands at a frame and plays in a loop from frame 0 up to another.
fn clock(position: u64, end: u64) -> Transport {
    let mut t = Transport::constant(48_000, 120.0, 4);
    assert!(t.set_loop_frames(0, end));
    t.seek_frame(position);
    t.play();
    t
}

pub fn rows(asked: &Asked) {
    let lines: Vec<u64> = (0..LINES as u64).map(|k| APART * k).collect();
    let mut out = vec![0; ROOM];
    asked.row_or(5000, "empty", "any", |k, _| k as u64);

    for (size, lines, end) in [("none", &lines[..0], 1), ("1000", &lines[..1000], 1 << 40)] {
        let start = clock(0, end);
        asked.row_or(5000, "far", size, |k, _| {
            let mut t = start.clone();
            let answer = cue(&mut t, lines, (1 << 60) - k as u64, &mut out);
            word(&t, answer, &out)
        });
    }
    for (call, frames, run) in [
        ("cue-64", 64, cue as fn(&mut Transport, &[u64], u64, &mut [u64]) -> Answer),
        ("cue-512", 512, cue),
        ("tested-64", 64, tested),
        ("tested-512", 512, tested),
    ] {
        for (size, count, few) in [("1000", 1000, 5000), ("32768", 32_768, 50), ("65536", 65_536, 50)] {
            let end = APART * count as u64;
            let mut t = clock(end - 1000, end);
            asked.row_or(few, call, size, |_, _| {
                let answer = run(&mut t, &lines[..count], frames, &mut out);
                word(&t, answer, &out)
            });
        }
    }
}
