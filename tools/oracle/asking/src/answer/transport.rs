//! 30 to 46: the transport. A transport of the original is brought into the state that is asked by its own calls.

use super::maps::{Asked, points, tempos};
use super::{Answer, f64_bits, numbers_of, quiet};
use crate::args::{Args, Tempo, Transport};
use crate::refusal::{self, Refusal};
use tono_core::access;
use tono_core::runtime::transport::{Transport as Original, TransportState};
use tono_core::units::Beat;

/// A sound transport as the original has it, over even maps.
pub fn original(t: &Transport, meter: &[u32], tempo: &Tempo) -> Original {
    let mut made =
        access::transport(t.rate, quiet(t.bpm), t.beats_per_bar, t.pickup, t.length, points(meter), tempos(tempo));
    match t.state {
        0 => made.stop(),
        1 => made.play(),
        _ => made.pause(),
    }
    made.seek_frame(t.position);
    if let Some((start, end)) = t.looped {
        assert!(made.set_loop_frames(start, end), "a sound loop");
    }
    made
}

/// What the original's transport has become. Rate, tempo, beats per bar and pickup are never changed by its calls.
pub fn read_back(t: &Transport, made: &Original) -> Transport {
    let state = match made.state() {
        TransportState::Stopped => 0,
        TransportState::Playing => 1,
        TransportState::Paused => 2,
    };
    Transport {
        rate: made.sample_rate(),
        length: made.length_frames(),
        position: made.position_frames(),
        state,
        looped: made.loop_range(),
        ..*t
    }
}

/// 30 and 31.
pub fn make(op: u32, args: &Args) -> Answer {
    let (rate, bpm) = (args.u32(0), quiet(args.f32_bits(1)));
    let constant = Original::constant(rate, bpm, args.u32(2));
    if op == 0x30 {
        return Ok(numbers_of(&all_fields(&constant, None)).to_vec());
    }
    let (length, pickup) = (args.u64(3), args.pickup(4));
    refusal::pickup(pickup)?;
    let like = all_fields(&constant, None);
    let made = access::transport(rate, bpm, like.beats_per_bar, pickup, length, Vec::new(), Vec::new());
    Ok(numbers_of(&all_fields(&made, pickup)).to_vec())
}

/// A new transport's fields. Two that the original hides are read from its text.
fn all_fields(made: &Original, pickup: Option<Beat>) -> Transport {
    let text = format!("{made:?}");
    let field = |name: &str| {
        let from = text.find(name).unwrap_or_else(|| panic!("no {name} in {text}")) + name.len();
        let rest = &text[from..];
        rest[..rest.find(',').unwrap_or(rest.len())].to_string()
    };
    let bpm: f32 = field(" bpm: ").parse().expect("a float");
    let hidden = Transport {
        rate: 0,
        bpm: bpm.to_bits(),
        beats_per_bar: field(" beats_per_bar: ").parse().expect("a number"),
        length: 0,
        position: 0,
        state: 0,
        looped: None,
        pickup,
    };
    read_back(&hidden, made)
}

/// The maps among the arguments, tested by 3, 4 and 1; an absent one is empty.
fn maps<'a>(
    args: &'a Args,
    meter: Option<usize>,
    tempo: Option<usize>,
    none: &'a Tempo,
) -> Result<(&'a [u32], &'a Tempo), Refusal> {
    let meter = meter.map(|k| args.words(k));
    let tempo = tempo.map(|k| args.tempo(k));
    Asked { meter, tempo, ..Asked::default() }.test()?;
    Ok((meter.unwrap_or(&[]), tempo.unwrap_or(none)))
}

/// 32 to 3c: what changes a transport.
pub fn change(op: u32, args: &Args) -> Answer {
    let t = args.transport(0);
    refusal::sound(t)?;
    let none = Tempo::default();
    let (meter, tempo) = match op {
        0x37 => maps(args, None, Some(2), &none)?,
        0x38 => maps(args, Some(2), Some(3), &none)?,
        0x3a => maps(args, Some(3), Some(4), &none)?,
        _ => (&[][..], &none),
    };
    let mut made = original(t, meter, tempo);
    let mut report = Vec::new();
    let set = match op {
        0x32 => {
            made.play();
            true
        }
        0x33 => {
            made.pause();
            true
        }
        0x34 => {
            made.stop();
            true
        }
        0x35 => {
            made.clear_loop();
            true
        }
        0x36 => {
            made.seek_frame(args.u64(1));
            true
        }
        0x37 => {
            made.seek_beat(args.f64(1));
            true
        }
        0x38 => {
            made.seek_bar(args.u32(1));
            true
        }
        0x39 => made.set_loop_frames(args.u64(1), args.u64(2)),
        0x3a => made.set_loop_bars(args.u32(1), args.u32(2)),
        0x3b | 0x3c => {
            let advance = made.advance(args.u64(1));
            report = vec![u64::from(advance.wrapped), u64::from(advance.finished)];
            true
        }
        _ => unreachable!("op {op:02x}"),
    };
    if !set {
        assert_eq!(numbers_of(&read_back(t, &made)), numbers_of(t), "a refused loop changes nothing");
        return refusal::by(9);
    }
    let mut values = numbers_of(&read_back(t, &made)).to_vec();
    values.extend(report);
    Ok(values)
}

/// 40 to 46: what asks a transport.
pub fn ask(op: u32, args: &Args) -> Answer {
    let t = args.transport(0);
    refusal::sound(t)?;
    let none = Tempo::default();
    let (meter, tempo) = match op {
        0x40 | 0x41 => maps(args, None, Some(2), &none)?,
        0x42 | 0x44 => maps(args, Some(2), Some(3), &none)?,
        0x43 | 0x45 => maps(args, None, Some(1), &none)?,
        0x46 => maps(args, Some(1), Some(2), &none)?,
        _ => unreachable!("op {op:02x}"),
    };
    let made = original(t, meter, tempo);
    Ok(vec![match op {
        0x40 => made.frame_at_beat(args.f64(1)),
        0x41 => f64_bits(made.beat_at_frame(args.u64(1))),
        0x42 => made.frame_at_bar(args.u32(1)),
        0x43 => made.next_beat(),
        0x44 => next_bar(&made, args.u32(1))?,
        0x45 => f64_bits(made.position_beats()),
        _ => f64_bits(made.position_bars()),
    }])
}

/// Refused by 10 where the bar's number is too large; there the original's arithmetic would overflow.
fn next_bar(made: &Original, every: u32) -> Result<u64, Refusal> {
    let grid = u64::from(every.max(1));
    let bar = (u64::from(made.position_bars().floor() as u32) / grid + 1) * grid;
    if bar > u64::from(u32::MAX) {
        return refusal::by(10);
    }
    Ok(made.next_bar(every))
}
