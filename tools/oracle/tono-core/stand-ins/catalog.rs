//! Stands in for the catalog: the fields that song/mod.rs and song/compile.rs name.

use crate::dsl::{Adsr, KitStyle, SeqWave};

#[derive(Clone, Debug)]
pub struct Voice {
    pub name: String,
    pub wave: SeqWave,
    pub env: Adsr,
    pub gain: f32,
    pub pan: f32,
    pub voice: VoiceParams,
    pub reverb: f32,
    pub swing: Option<f32>,
    pub humanize: Option<f32>,
}

#[derive(Clone, Copy, Debug, Default)]
pub struct VoiceParams {
    pub duty: Option<f32>,
    pub fm_ratio: Option<f32>,
    pub fm_index: Option<f32>,
    pub fm_strike: Option<f32>,
    pub pluck_decay: Option<f32>,
    pub pluck_body: Option<f32>,
    pub pluck_pick: Option<f32>,
    pub pluck_tone: Option<f32>,
    pub piano_hammer: Option<f32>,
    pub piano_strike: Option<f32>,
    pub piano_inharm: Option<f32>,
    pub piano_detune: Option<f32>,
    pub piano_decay: Option<f32>,
    pub kit: Option<KitStyle>,
    pub bass_cutoff: Option<f32>,
    pub bass_env: Option<f32>,
    pub bass_env_vel: Option<f32>,
    pub bass_decay: Option<f32>,
    pub bass_click: Option<f32>,
    pub bass_body: Option<f32>,
    pub bass_sub: Option<f32>,
    pub bass_sub_ratio: Option<f32>,
    pub bass_drive: Option<f32>,
    pub bass_body_decay: Option<f32>,
}
