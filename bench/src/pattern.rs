//! The twin of crates/bench_pattern, which says what each row is. The original makes a new list each time. A note of a
//! list has a pitch that is a number, so that a copy of it allocates nothing; `euclidean` and `tuplet` name their pitch.

use crate::benching::{Asked, inputs, place};
use tono_core::dsl::{SeqNote, Value};
use tono_core::song::{self, Pattern};

/// The notes of the largest list.
const NOTES: usize = 4096;

/// What the calls that make notes name their pitch, and the tag that it is on the port's side.
const PITCH: &str = "midi:36";
const TAG: u32 = 36;

/// A list of notes with these steps, each worked out from its place and a number. A smaller list is the front of it.
fn notes(step: impl Fn(u32, u64) -> u32) -> Vec<SeqNote> {
    inputs(|r, s| (r, s))
        .into_iter()
        .take(NOTES)
        .zip(0..)
        .map(|((r, s), k)| SeqNote {
            step: step(k, s),
            len: (r % 8 + 1) as u32,
            pitch: Value::Const(f32::from_bits(k)),
            gain: f32::from_bits(0x3f00_0000 + (r % 0x80_0000) as u32),
        })
        .collect()
}

fn tag(pitch: &Value) -> u32 {
    if let Value::Const(x) = pitch { x.to_bits() } else { TAG }
}

/// The word at an index of the notes that were written, or 0 behind them.
fn written(notes: &[SeqNote], at: usize) -> u32 {
    notes.get(at / 4).map_or(0, |n| [n.step, n.len, n.gain.to_bits(), tag(&n.pitch)][at % 4])
}

fn word(result: &Pattern, at: usize) -> u64 {
    u64::from(result.bars) << 32 ^ (result.notes.len() as u64) << 16 ^ u64::from(written(&result.notes, at))
}

/// A pattern of 512 bars of 16 steps.
fn pattern(notes: &[SeqNote]) -> Pattern {
    Pattern { name: String::new(), bars: 512, notes: notes.to_vec() }
}

/// A factor from a half to nearly 1.
fn factor(q: u32) -> f32 {
    f32::from_bits(0x3f00_0000 + q % 8192 * 1024)
}

/// One row of a call. `parts` is what share of the notes the call is given.
fn show(
    asked: &Asked,
    list: &[SeqNote],
    call: &str,
    (size, notes, few): (&str, usize, u64),
    parts: usize,
    made: impl Fn(&Pattern, u32, u32) -> Pattern,
) {
    let given = pattern(&list[..notes / parts]);
    asked.row_or(few, call, size, |k, _| {
        let q = place(k) as u32;
        word(&made(&given, notes as u32, q), 5 * q as usize % (4 * notes))
    });
}

/// The rows of a call, for each size.
fn sizes(asked: &Asked, list: &[SeqNote], call: &str, parts: usize, made: impl Fn(&Pattern, u32, u32) -> Pattern) {
    for size in [("16", 16, 1000), ("256", 256, 200), ("4096", 4096, 30)] {
        show(asked, list, call, size, parts, &made);
    }
}

/// The rows of a call that sorts, over lists in each order.
fn sorts(
    asked: &Asked,
    lists: &[(&str, Vec<SeqNote>)],
    call: &str,
    parts: usize,
    made: impl Fn(&Pattern, u32, u32) -> Pattern,
) {
    for (order, list) in lists {
        let call = format!("{call}-{order}");
        sizes(asked, list, &call, parts, &made);
        if *order == "random" {
            show(asked, list, &call, ("2048", 2048, 30), parts, &made);
        }
    }
}

pub fn rows(asked: &Asked) {
    let sorted = notes(|k, _| k / 2 * 4);
    let reversed = notes(|k, _| (4095 - k) / 2 * 4);
    let random = notes(|_, s| (s % 8192) as u32);

    asked.row_or(5000, "empty", "any", |k, _| (place(k) as u64) << 32);
    sizes(asked, &random, "repeat", 4, |p, _, q| song::repeat(p, q % 64, 4));
    sizes(asked, &random, "concat", 2, |p, _, q| song::concat(p, p, q % 64));
    sizes(asked, &random, "slice", 1, |p, _, q| song::slice(p, q / 2, 4096, 16));
    sizes(asked, &random, "stretch", 1, |p, _, q| song::stretch(p, q % 7 * 3 + 3, 3, 16).expect("on the grid"));
    sizes(asked, &random, "vel", 1, |p, _, q| song::vel(p, factor(q)));
    sizes(asked, &random, "gate", 1, |p, _, q| song::gate(p, factor(q)));
    sizes(asked, &random, "euclidean", 1, |_, n, q| {
        song::euclidean("", n, 2 * n + q % 16, PITCH, 1, 16).expect("good numbers")
    });
    sizes(asked, &random, "tuplet", 1, |_, n, q| song::tuplet("", n, 4 * n + q % 16, PITCH, 1));

    let lists = [("sorted", sorted), ("reversed", reversed), ("random", random)];
    sorts(asked, &lists, "layer", 2, |p, _, _| song::layer(p, p));
    sorts(asked, &lists, "rotate", 1, |p, _, q| song::rotate(p, i64::from(q), 16));
    sorts(asked, &lists, "reverse", 1, |p, _, q| song::reverse(p, q % 2 + 16));
    sorts(asked, &lists, "quantize", 1, |p, _, q| song::quantize(p, q % 16 + 1));
}
