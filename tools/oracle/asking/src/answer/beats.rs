//! 01 to 09: beats, frames and steps.

use super::{Answer, f64_bits, quiet};
use crate::args::Args;
use crate::refusal::{self, Refusal};
use std::cmp::Ordering;
use tono_core::units::{Beat, BeatError, SampleRate, Tempo, beat_to_frames};

pub fn call(op: u32, args: &Args) -> Answer {
    if op == 0x01 {
        return Ok(numbers(Beat::new(args.i64(0), args.u32(1))));
    }
    let a = args.beat(0);
    refusal::beat(a)?;
    match op {
        0x02 => sum(a.checked_add(second(args)?)),
        0x03 => sum(a.checked_sub(second(args)?)),
        0x04 => sum(a.mul_rational(args.i64(1), args.u32(2))),
        0x05 => sum(a.scale(args.i64(1))),
        0x06 => Ok(vec![match a.cmp(&second(args)?) {
            Ordering::Less => 0,
            Ordering::Equal => 1,
            Ordering::Greater => 2,
        }]),
        0x07 => Ok(vec![f64_bits(a.to_f64())]),
        0x08 => Ok(vec![beat_to_frames(a, Tempo(quiet(args.f32_bits(1))), SampleRate(args.u32(2))).0]),
        0x09 => match tono_core::access::beat_to_step(a, args.u32(1)) {
            Ok(step) => Ok(vec![u64::from(step)]),
            Err(_) => Err(Refusal { number: 7, facts: Some([3, 0, 0]) }),
        },
        _ => unreachable!("op {op:02x}"),
    }
}

fn second(args: &Args) -> Result<Beat, Refusal> {
    refusal::beat(args.beat(1))?;
    Ok(args.beat(1))
}

fn sum(result: Result<Beat, BeatError>) -> Answer {
    match result {
        Ok(beat) => Ok(numbers(beat)),
        Err(BeatError::Overflow) => refusal::by(2),
    }
}

/// A beat as it is answered.
pub fn numbers(beat: Beat) -> Vec<u64> {
    vec![beat.num as u64, u64::from(beat.den)]
}
