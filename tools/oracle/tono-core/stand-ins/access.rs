//! A door to `Song::beat_to_step`, which its crate keeps to itself, and to a transport with any maps, pickup and length.

use crate::dsl::{Node, SoundDoc, TempoPoint};
use crate::program::{PROGRAM_VERSION, Program, ProgramEstimates, ProgramMeta};
use crate::runtime::transport::Transport;
use crate::song::{CompileTarget, Song, SongError};
use crate::units::{Beat, MeterPoint};

/// The original `beat_to_step` of a song with this grid.
pub fn beat_to_step(beat: Beat, steps_per_beat: u32) -> Result<u32, SongError> {
    let mut song = Song::new(String::new(), 120.0);
    song.steps_per_beat = steps_per_beat;
    song.beat_to_step(beat)
}

/// The original `Transport::for_program`, of a program with these facts: stopped at frame 0, with no loop.
pub fn transport(
    sample_rate: u32,
    bpm: f32,
    beats_per_bar: u32,
    pickup: Option<Beat>,
    length_frames: u64,
    meter_map: Vec<MeterPoint>,
    tempo_map: Vec<TempoPoint>,
) -> Transport {
    let mut doc = SoundDoc::new(String::new(), Node::Chain { stages: Vec::new() });
    doc.sample_rate = sample_rate;
    Transport::for_program(&Program {
        program_version: PROGRAM_VERSION,
        hash: 0,
        target: CompileTarget::Offline,
        doc,
        meta: ProgramMeta {
            tempo_bpm: bpm,
            beats_per_bar,
            steps_per_beat: 1,
            tempo_map,
            meter_map,
            pickup,
            sections: Vec::new(),
            markers: Vec::new(),
            length_bars: 0,
            tracks: Vec::new(),
        },
        estimates: ProgramEstimates { frames: length_frames },
    })
}
