//! 10 to 13: the meter walk.

use super::Answer;
use super::beats::numbers;
use super::maps::{Asked, points};
use crate::args::Args;
use tono_core::units::{bar_count_at_beat, bar_len, beat_at_bar, meter_at};

pub fn call(op: u32, args: &Args) -> Answer {
    let default = args.u32(0);
    if op == 0x10 {
        let meter = args.words(2);
        Asked { meter: Some(meter), ..Asked::default() }.test()?;
        let point = meter_at(&points(meter), default, args.u32(1));
        return Ok([point.bar, point.numerator, point.denominator].map(u64::from).to_vec());
    }
    let (pickup, meter) = (args.pickup(1), args.words(3));
    let beat = (op == 0x13).then(|| args.beat(2));
    Asked { meter: Some(meter), pickup, beat, ..Asked::default() }.test()?;
    let map = points(meter);
    Ok(match (op, beat) {
        (0x11, _) => numbers(bar_len(&map, default, pickup, args.u32(2))),
        (0x12, _) => numbers(beat_at_bar(&map, default, pickup, args.u32(2))),
        (0x13, Some(beat)) => vec![u64::from(bar_count_at_beat(&map, default, pickup, beat))],
        _ => unreachable!("op {op:02x}"),
    })
}
