//! 60 to 6b: patterns. A note's tag goes through the original as part of the name of its pitch, together with its place
//! in the list, which an error of the original then tells.

use super::Answer;
use crate::args::Args;
use crate::refusal::{self, Refusal};
use tono_core::dsl::{SeqNote, Value};
use tono_core::song::{self, Pattern, PatternError};

/// Up to so many copies and steps the original walks; past it the same is said by a formula.
const WALKED: u64 = 1 << 17;

fn pattern(bars: u32, words: &[u32]) -> Pattern {
    let note = |(place, n): (usize, &[u32])| SeqNote {
        step: n[0],
        len: n[1],
        pitch: Value::Note(format!("{:x}@{place}", n[3])),
        gain: f32::from_bits(n[2]),
    };
    Pattern { name: String::new(), bars, notes: words.chunks_exact(4).enumerate().map(note).collect() }
}

/// The tag in a pitch's name.
fn tag(pitch: &Value) -> u32 {
    let Value::Note(name) = pitch else { panic!("a note keeps its name") };
    let first = name.split('@').next().unwrap_or("");
    u32::from_str_radix(first, 16).unwrap_or_else(|_| panic!("no tag in {name}"))
}

fn write(result: &Pattern, lent: &mut [u64]) -> Answer {
    refusal::room(result.notes.len(), lent.len() / 4)?;
    for (to, n) in lent.chunks_exact_mut(4).zip(&result.notes) {
        to.copy_from_slice(&[n.step, n.len, n.gain.to_bits(), tag(&n.pitch)].map(u64::from));
    }
    Ok(vec![result.notes.len() as u64, u64::from(result.bars)])
}

/// The lists of notes at these indices, tested by 3 and 4.
fn test(args: &Args, lists: &[usize]) -> Result<(), Refusal> {
    lists.iter().try_for_each(|k| refusal::notes_even(args.words(*k)))?;
    lists.iter().try_for_each(|k| refusal::notes_short(args.words(*k)))
}

pub fn call(op: u32, args: &Args, lent: &mut [u64]) -> Answer {
    let number = |k: usize| args.u32(k);
    let one = |k: usize| test(args, &[k]).map(|()| pattern(args.u32(0), args.words(k)));
    let result = match op {
        0x60 => repeat(args, lent.len() / 4)?,
        0x61 => {
            test(args, &[4, 5])?;
            song::concat(&pattern(number(0), args.words(4)), &pattern(number(1), args.words(5)), number(2))
        }
        0x62 => {
            test(args, &[3, 4])?;
            song::layer(&pattern(number(0), args.words(3)), &pattern(number(1), args.words(4)))
        }
        0x63 => song::slice(&one(5)?, number(1), number(2), number(3)),
        0x64 => song::stretch(&one(5)?, number(1), number(2), number(3)).map_err(refused)?,
        0x65 => song::rotate(&one(4)?, args.i64(1), number(2)),
        0x66 => song::reverse(&one(3)?, number(1)),
        0x67 => song::quantize(&one(3)?, number(1)),
        0x68 => vel(&one(3)?, f32::from_bits(args.f32_bits(1))),
        0x69 => song::gate(&one(3)?, f32::from_bits(args.f32_bits(1))),
        0x6a => euclidean(args, lent.len() / 4)?,
        0x6b => tuplet(args, lent.len() / 4)?,
        _ => unreachable!("op {op:02x}"),
    };
    write(&result, lent)
}

/// What the original's errors are called here.
fn refused(error: PatternError) -> Refusal {
    match error {
        PatternError::BadParams(_) => Refusal { number: 6, facts: None },
        PatternError::OffGrid { what, value, .. } => {
            let kind = match () {
                () if what.starts_with("the bar count") => 0,
                () if what.starts_with("the note at") => 1,
                () if what.starts_with("the length of") => 2,
                () => panic!("no part of a pattern is called {what}"),
            };
            let place = what.split(['@', '"']).nth(2).map_or(0, |text| text.parse().expect("a place"));
            Refusal { number: 7, facts: Some([kind, place, u64::from(value)]) }
        }
        other => panic!("{other}"),
    }
}

/// Every NaN that is written is the one quiet NaN.
fn vel(p: &Pattern, scale: f32) -> Pattern {
    let mut result = song::vel(p, scale);
    for note in result.notes.iter_mut().filter(|note| note.gain.is_nan()) {
        note.gain = f32::from_bits(0x7fc0_0000);
    }
    result
}

/// The original walks every copy, and its steps overflow past u64: there the exact steps are saturated.
fn repeat(args: &Args, holds: usize) -> Result<Pattern, Refusal> {
    let (bars, steps_per_bar, times, words) = (args.u32(0), args.u32(1), args.u32(2), args.words(4));
    test(args, &[4])?;
    let copies = (words.len() / 4) as u64 * u64::from(times);
    refusal::room(usize::try_from(copies).expect("64 bits"), holds)?;
    let p = pattern(bars, words);
    let stride = u64::from(bars) * u64::from(steps_per_bar.max(1));
    let last = u128::from(times.saturating_sub(1)) * u128::from(stride) + u128::from(u32::MAX);
    if u64::from(times) <= WALKED && last <= u128::from(u64::MAX) {
        return Ok(song::repeat(&p, steps_per_bar, times));
    }
    let mut notes = Vec::new();
    for copy in (0..times).take(if p.notes.is_empty() { 0 } else { times as usize }) {
        for note in &p.notes {
            let step = u128::from(note.step) + u128::from(copy) * u128::from(stride);
            notes.push(SeqNote { step: step.min(u128::from(u32::MAX)) as u32, ..note.clone() });
        }
    }
    Ok(Pattern { name: String::new(), bars: bars.saturating_mul(times), notes })
}

/// The original walks every step. A pulse k stands at the first step i with i * pulses >= k * steps.
fn euclidean(args: &Args, holds: usize) -> Result<Pattern, Refusal> {
    let (pulses, steps, tag, len, steps_per_bar) = (args.u32(0), args.u32(1), args.u32(2), args.u32(3), args.u32(4));
    let name = format!("{tag:x}");
    if u64::from(steps) <= WALKED {
        return song::euclidean("", pulses, steps, &name, len, steps_per_bar).map_err(refused);
    }
    if pulses > steps {
        return refusal::by(6);
    }
    refusal::room(pulses as usize, holds)?;
    // the original over no pulses has the bars, and over one pulse the note
    let mut result = song::euclidean("", 1, 1, &name, len, 1).map_err(refused)?;
    let note = result.notes.pop().expect("one pulse");
    let at = |k: u32| (u64::from(k) * u64::from(steps)).div_ceil(u64::from(pulses)) as u32;
    result.notes = (0..pulses).map(|k| SeqNote { step: at(k), ..note.clone() }).collect();
    result.bars = steps.div_ceil(steps_per_bar.max(1));
    Ok(result)
}

/// The room limits the count, and so no step of the original overflows.
fn tuplet(args: &Args, holds: usize) -> Result<Pattern, Refusal> {
    let (count, in_steps, tag, len) = (args.u32(0), args.u32(1), args.u32(2), args.u32(3));
    refusal::room(count as usize, holds)?;
    Ok(song::tuplet("", count, in_steps, &format!("{tag:x}"), len))
}

#[cfg(test)]
mod tests {
    use super::*;

    #[test]
    fn a_pulse_stands_where_the_formula_says() {
        for steps in 1..60u32 {
            for pulses in 0..=steps {
                let walked = song::euclidean("", pulses, steps, "", 1, 1).expect("good numbers");
                let at = |k: u32| (u64::from(k) * u64::from(steps)).div_ceil(u64::from(pulses)) as u32;
                let said: Vec<u32> = (0..pulses).map(at).collect();
                assert_eq!(walked.notes.iter().map(|note| note.step).collect::<Vec<_>>(), said);
            }
        }
    }

    #[test]
    fn a_note_keeps_its_words() {
        let words = [1, 2, 0x7f80_0001, 0xffff_fffe, 5, 6, 0xff80_0001, 0];
        let mut lent = [0; 8];
        assert_eq!(write(&pattern(3, &words), &mut lent), Ok(vec![2, 3]));
        assert_eq!(lent, words.map(u64::from));
    }
}
