//! The tests that the original does not make, one for each refusal of theirs. A call makes those that concern it in the
//! order 12, 3, 4, 1, 5, 11, then the original's own errors and the rest.

use crate::args::{Tempo, Transport};
use tono_core::units::Beat;

/// The number of a refusal, and the three facts of refusal 7.
#[derive(Debug, Clone, Copy, PartialEq, Eq)]
pub struct Refusal {
    pub number: u64,
    pub facts: Option<[u64; 3]>,
}

/// Refused by a number with no facts.
pub fn by<T>(number: u64) -> Result<T, Refusal> {
    Err(Refusal { number, facts: None })
}

/// Refused by this number unless the test holds.
fn unless(test: bool, number: u64) -> Result<(), Refusal> {
    if test { Ok(()) } else { by(number) }
}

const MOST_POINTS: usize = 65_536;
const MOST_LINES: usize = 65_536;
const MOST_NOTES: usize = 4_096;

fn gcd(a: u64, b: u64) -> u64 {
    if b == 0 { a } else { gcd(b, a % b) }
}

/// In lowest terms with a denominator; 0 is 0/1 alone.
pub fn is_beat(beat: Beat) -> bool {
    beat.den != 0 && gcd(beat.num.unsigned_abs(), u64::from(beat.den)) == 1
}

/// 1, for a beat.
pub fn beat(beat: Beat) -> Result<(), Refusal> {
    unless(is_beat(beat), 1)
}

/// 1, for a pickup.
pub fn pickup(pickup: Option<Beat>) -> Result<(), Refusal> {
    pickup.map_or(Ok(()), beat)
}

/// 1, for the beats of a tempo map.
pub fn tempo_beats(tempo: &Tempo) -> Result<(), Refusal> {
    tempo.nums.iter().zip(&tempo.dens).try_for_each(|(num, den)| beat(Beat { num: *num, den: *den }))
}

/// 3, for the words of a meter map.
pub fn meter_even(words: &[u32]) -> Result<(), Refusal> {
    unless(words.len().is_multiple_of(3), 3)
}

/// 3, for the lists of a tempo map.
pub fn tempo_even(tempo: &Tempo) -> Result<(), Refusal> {
    unless(tempo.nums.len() == tempo.dens.len() && tempo.nums.len() == tempo.bpms.len(), 3)
}

/// 3, for the words of notes.
pub fn notes_even(words: &[u32]) -> Result<(), Refusal> {
    unless(words.len().is_multiple_of(4), 3)
}

/// 4, for the words of a meter map.
pub fn meter_short(words: &[u32]) -> Result<(), Refusal> {
    unless(words.len() / 3 <= MOST_POINTS, 4)
}

/// 4, for a tempo map.
pub fn tempo_short(tempo: &Tempo) -> Result<(), Refusal> {
    unless(tempo.nums.len() <= MOST_POINTS, 4)
}

/// 4, for a number of bar lines.
pub fn lines_short(count: usize) -> Result<(), Refusal> {
    unless(count <= MOST_LINES, 4)
}

/// 4, for the words of notes.
pub fn notes_short(words: &[u32]) -> Result<(), Refusal> {
    unless(words.len() / 4 <= MOST_NOTES, 4)
}

/// 5: a walk over no points.
pub fn not_empty(tempo: &Tempo) -> Result<(), Refusal> {
    unless(!tempo.nums.is_empty(), 5)
}

/// 8: more entries than the output holds.
pub fn room(entries: usize, holds: usize) -> Result<(), Refusal> {
    unless(entries <= holds, 8)
}

/// 11: a line is less than the one before.
pub fn ascend(lines: &[u64]) -> Result<(), Refusal> {
    unless(lines.is_sorted(), 11)
}

/// 12: the position is past the length, the loop is bad, or the pickup is no beat.
pub fn sound(t: &Transport) -> Result<(), Refusal> {
    let good_loop = t.looped.is_none_or(|(start, end)| start < end && end <= t.length);
    unless(t.position <= t.length && good_loop && t.pickup.is_none_or(is_beat), 12)
}
