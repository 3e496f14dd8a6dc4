//! A question in words: the call by name, its arguments as they are named in the table of ops. Long lists are cut.

use crate::args::{Arg, Args, Tempo, Transport};
use crate::form;
use tono_core::units::Beat;

/// As many elements of a list are told.
const SHOWN: usize = 24;

/// The call of a question, or why it is none.
pub fn tell(number: u32, words: &[u32]) -> String {
    let Some(op) = form::find(number) else {
        return format!("op {number:02x}, which is not known, with {} words", words.len());
    };
    match Args::read(op, words) {
        None => format!(
            "{} ({number:02x}) with {} words that are no question of it: {}",
            op.name,
            words.len(),
            list(words, |w| format!("{w:x}"))
        ),
        Some(args) => {
            let told: Vec<String> =
                op.asked.iter().zip(&args.0).map(|((name, _), arg)| format!("{name} = {}", tell_arg(arg))).collect();
            format!("{}({})", op.name, told.join(", "))
        }
    }
}

fn tell_arg(arg: &Arg) -> String {
    match arg {
        Arg::U32(x) => x.to_string(),
        Arg::U64(x) => x.to_string(),
        Arg::I64(x) => x.to_string(),
        Arg::F32(bits) => single(*bits),
        Arg::F64(bits) => format!("{:?} (0x{bits:016x})", f64::from_bits(*bits)),
        Arg::Beat(x) => beat(*x),
        Arg::Pickup(x) => pickup(*x),
        Arg::Room(x) => x.to_string(),
        Arg::Words(x) => list(x, |w| w.to_string()),
        Arg::Lines(x) => list(x, |w| w.to_string()),
        Arg::Tempo(x) => tempo(x),
        Arg::Transport(x) => transport(x),
        Arg::File(x) => file(x),
    }
}

/// The bytes of a file as words, and what is left behind the last whole one.
fn file(bytes: &[u8]) -> String {
    let chunks: Vec<&[u8]> = bytes.chunks(4).collect();
    let told = list(&chunks, |chunk| chunk.iter().rev().map(|byte| format!("{byte:02x}")).collect());
    format!("{} bytes {told}", bytes.len())
}

fn single(bits: u32) -> String {
    format!("{:?} (0x{bits:08x})", f32::from_bits(bits))
}

fn beat(beat: Beat) -> String {
    format!("{}/{}", beat.num, beat.den)
}

fn pickup(pickup: Option<Beat>) -> String {
    pickup.map_or("none".to_string(), beat)
}

fn list<T>(list: &[T], tell: impl Fn(&T) -> String) -> String {
    let shown: Vec<String> = list.iter().take(SHOWN).map(tell).collect();
    let more = if list.len() > SHOWN { format!(" .. {} in all", list.len()) } else { String::new() };
    format!("[{}{more}]", shown.join(" "))
}

fn tempo(tempo: &Tempo) -> String {
    if tempo.nums.len() != tempo.dens.len() || tempo.nums.len() != tempo.bpms.len() {
        return format!(
            "uneven: nums {} dens {} bpms {}",
            list(&tempo.nums, i64::to_string),
            list(&tempo.dens, u32::to_string),
            list(&tempo.bpms, |bits| single(*bits))
        );
    }
    let points: Vec<(Beat, u32)> = tempo
        .nums
        .iter()
        .zip(&tempo.dens)
        .zip(&tempo.bpms)
        .map(|((num, den), bpm)| (Beat { num: *num, den: *den }, *bpm))
        .collect();
    list(&points, |(at, bpm)| format!("{} at {};", single(*bpm), beat(*at)))
}

fn transport(t: &Transport) -> String {
    let state = ["stopped", "playing", "paused"][t.state as usize];
    let looped = t.looped.map_or("no loop".to_string(), |(start, end)| format!("loop {start}..{end}"));
    format!(
        "{{rate {}, bpm {}, {} beats per bar, length {}, {state} at {}, {looped}, pickup {}}}",
        t.rate,
        single(t.bpm),
        t.beats_per_bar,
        t.length,
        t.position,
        pickup(t.pickup)
    )
}
