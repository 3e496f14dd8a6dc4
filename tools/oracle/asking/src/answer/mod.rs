//! Answering a question: the line that the form asks for, from the originals where they have the call.

mod beats;
pub(crate) mod cues;
pub(crate) mod maps;
mod meter;
mod pattern;
mod problems;
mod score;
mod tempo;
pub(crate) mod transport;

use crate::args::{Args, Transport};
use crate::form::{self, MARK, Op};
use crate::refusal::Refusal;
use std::io::Write;
use std::panic::{AssertUnwindSafe, catch_unwind};

/// The numbers of an accepted call, without the 0 before them and the lent output behind.
type Answer = Result<Vec<u64>, Refusal>;

/// Writes the line that answers a question: `?` where it is none, and `panic` where the original panicked.
pub fn answer(number: u32, words: &[u32], out: &mut Vec<u8>) {
    let asked = form::find(number).and_then(|op| Some((op, Args::read(op, words)?)));
    let Some((op, args)) = asked else {
        out.extend_from_slice(b"?\n");
        return;
    };
    let mut lent: Vec<u64> = (0..args.room().unwrap_or(0) as u64).map(|k| MARK + k).collect();
    match catch_unwind(AssertUnwindSafe(|| call(op, &args, &mut lent))) {
        Ok(answer) => write_line(op, &args, &answer, &lent, out),
        Err(_) => out.extend_from_slice(b"panic\n"),
    }
}

fn call(op: &Op, args: &Args, lent: &mut Vec<u64>) -> Answer {
    match op.number {
        number @ 0x01..=0x09 => beats::call(number, args),
        number @ 0x10..=0x13 => meter::call(number, args),
        number @ 0x20..=0x22 => tempo::call(number, args),
        number @ (0x14 | 0x23) => problems::call(number, args, lent),
        number @ (0x30 | 0x31) => transport::make(number, args),
        number @ 0x32..=0x3c => transport::change(number, args),
        number @ 0x40..=0x46 => transport::ask(number, args),
        0x50 => cues::cues(args, lent),
        0x51 => cues::fill(args, lent),
        0x52 => cues::range(args),
        number @ 0x60..=0x6b => pattern::call(number, args, lent),
        0x70 => score::sheet(args, lent),
        number => unreachable!("op {number:02x}"),
    }
}

fn write_line(op: &Op, args: &Args, answer: &Answer, lent: &[u64], out: &mut Vec<u8>) {
    match answer {
        Ok(values) => {
            out.push(b'0');
            more(values, out);
        }
        Err(refusal) => {
            write!(out, "{:x}", refusal.number).expect("memory");
            more(refusal.facts.as_ref().map_or(&[], |facts| &facts[..]), out);
            if op.hands_back {
                more(&numbers_of(args.transport(0)), out);
            }
        }
    }
    more(lent, out);
    out.push(b'\n');
}

fn more(values: &[u64], out: &mut Vec<u8>) {
    for value in values {
        write!(out, " {value:x}").expect("memory");
    }
}

/// The twelve numbers of a transport, with zeros for what an off loop or an absent pickup does not have.
fn numbers_of(t: &Transport) -> [u64; 12] {
    let (start, end) = t.looped.unwrap_or((0, 0));
    let (num, den) = t.pickup.map_or((0, 0), |beat| (beat.num as u64, u64::from(beat.den)));
    [
        u64::from(t.rate),
        u64::from(quiet(t.bpm).to_bits()),
        u64::from(t.beats_per_bar),
        t.length,
        t.position,
        u64::from(t.state),
        u64::from(t.looped.is_some()),
        start,
        end,
        u64::from(t.pickup.is_some()),
        num,
        den,
    ]
}

/// The float of these bits; every NaN is the one quiet NaN, since on some machines a maximum keeps a signalling one.
fn quiet(bits: u32) -> f32 {
    let x = f32::from_bits(bits);
    if x.is_nan() { f32::from_bits(0x7fc0_0000) } else { x }
}

/// The bits that answer a float of 64 bits.
fn f64_bits(x: f64) -> u64 {
    if x.is_nan() { 0x7ff8_0000_0000_0000 } else { x.to_bits() }
}
