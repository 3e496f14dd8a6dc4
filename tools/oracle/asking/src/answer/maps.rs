//! Meter and tempo maps: the tests that each call makes of them, and the maps as the originals take them.

use super::quiet;
use crate::args::{Args, Tempo};
use crate::refusal::{self, Refusal};
use tono_core::dsl::TempoPoint;
use tono_core::units::{Beat, MeterPoint};

/// What a call asks of maps and beats, so that the refusals 3, 4 and 1 come in this order over all of them.
#[derive(Default)]
pub struct Asked<'a> {
    pub meter: Option<&'a [u32]>,
    pub tempo: Option<&'a Tempo>,
    pub pickup: Option<Beat>,
    pub beat: Option<Beat>,
}

impl Asked<'_> {
    pub fn test(&self) -> Result<(), Refusal> {
        self.meter.map_or(Ok(()), refusal::meter_even)?;
        self.tempo.map_or(Ok(()), refusal::tempo_even)?;
        self.meter.map_or(Ok(()), refusal::meter_short)?;
        self.tempo.map_or(Ok(()), refusal::tempo_short)?;
        refusal::pickup(self.pickup)?;
        refusal::pickup(self.beat)?;
        self.tempo.map_or(Ok(()), refusal::tempo_beats)
    }
}

/// The points of a meter map of whole points.
pub fn points(words: &[u32]) -> Vec<MeterPoint> {
    words.chunks_exact(3).map(|p| MeterPoint { bar: p[0], numerator: p[1], denominator: p[2] }).collect()
}

/// The points of an even tempo map.
pub fn tempos(tempo: &Tempo) -> Vec<TempoPoint> {
    let beats = tempo.nums.iter().zip(&tempo.dens).map(|(num, den)| Beat { num: *num, den: *den });
    beats.zip(&tempo.bpms).map(|(at, bpm)| TempoPoint { at, bpm: quiet(*bpm) }).collect()
}

/// The tempo map at an index, tested by 3, 4 and 1.
pub fn tested_tempo(args: &Args, k: usize) -> Result<&Tempo, Refusal> {
    let tempo = args.tempo(k);
    Asked { tempo: Some(tempo), ..Asked::default() }.test()?;
    Ok(tempo)
}
