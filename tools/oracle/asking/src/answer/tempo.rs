//! 20 to 22: the three tempo walks.

use super::maps::{tempos, tested_tempo};
use super::{Answer, f64_bits};
use crate::args::Args;
use crate::refusal;
use tono_core::dsl::{tempo_map_beat_at_seconds, tempo_map_bpm_at, tempo_map_seconds_at};

pub fn call(op: u32, args: &Args) -> Answer {
    let tempo = tested_tempo(args, 1)?;
    refusal::not_empty(tempo)?;
    let walk = match op {
        0x20 => tempo_map_seconds_at,
        0x21 => tempo_map_bpm_at,
        0x22 => tempo_map_beat_at_seconds,
        _ => unreachable!("op {op:02x}"),
    };
    Ok(vec![f64_bits(walk(&tempos(tempo), args.f64(0)))])
}
