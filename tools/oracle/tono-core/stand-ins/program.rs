//! Stands in for the compiled program: the facts that `Transport::for_program` copies, and the names that
//! song/compile.rs uses.

use crate::diag::Diagnostic;
use crate::dsl::{SeqWave, SoundDoc, TempoPoint};
use crate::song::{CompileTarget, Marker, Section};
use crate::units::{Beat, MeterPoint};

pub const PROGRAM_VERSION: u32 = 0;

pub struct Program {
    pub program_version: u32,
    pub hash: u64,
    pub target: CompileTarget,
    pub doc: SoundDoc,
    pub meta: ProgramMeta,
    pub estimates: ProgramEstimates,
}

impl Program {
    pub fn computed_hash(&self) -> u64 {
        unimplemented!("no program is compiled here")
    }
}

pub struct ProgramMeta {
    pub tempo_bpm: f32,
    pub beats_per_bar: u32,
    pub steps_per_beat: u32,
    pub tempo_map: Vec<TempoPoint>,
    pub meter_map: Vec<MeterPoint>,
    pub pickup: Option<Beat>,
    pub sections: Vec<Section>,
    pub markers: Vec<Marker>,
    pub length_bars: u32,
    pub tracks: Vec<TrackMeta>,
}

pub struct TrackMeta {
    pub name: String,
    pub wave: SeqWave,
    pub notes: u64,
    pub mute: bool,
    pub solo: bool,
}

pub struct ProgramEstimates {
    pub frames: u64,
}

pub fn blocker_warnings(_: &SoundDoc) -> Vec<Diagnostic> {
    unimplemented!("no program is compiled here")
}
