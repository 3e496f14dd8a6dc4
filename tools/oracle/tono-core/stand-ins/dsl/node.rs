//! Stands in for the signal graph: the variants and knobs that the originals name.

use super::{Adsr, Bus, KitStyle, SeqNote, SeqWave, TempoPoint, Track, Value};

#[derive(Debug, Clone)]
pub enum Node {
    Chain {
        stages: Vec<Node>,
    },
    Reverb {
        room: f32,
        mix: f32,
    },
    Tracks {
        tracks: Vec<Track>,
        master: Vec<Node>,
        buses: Vec<Bus>,
    },
    Seq {
        bpm: f32,
        tempo_map: Vec<TempoPoint>,
        steps_per_beat: u32,
        wave: SeqWave,
        duty: Value,
        fm: FmKnobs,
        pluck: PluckKnobs,
        piano: PianoKnobs,
        kit: KitStyle,
        bass: BassKnobs,
        sf2: Sf2Knobs,
        swing: f32,
        humanize: f32,
        env: Adsr,
        notes: Vec<SeqNote>,
    },
}

impl Node {
    pub fn children(&self) -> Children<'_> {
        Children([].iter())
    }
}

pub struct Children<'a>(std::slice::Iter<'a, Node>);

impl<'a> Iterator for Children<'a> {
    type Item = &'a Node;
    fn next(&mut self) -> Option<&'a Node> {
        self.0.next()
    }
}

pub struct ChildrenMut<'a>(std::slice::IterMut<'a, Node>);

pub(crate) fn default_duty() -> Value {
    Value::Const(0.5)
}

#[derive(Debug, Clone, Default)]
pub struct FmKnobs {
    pub fm_ratio: f32,
    pub fm_index: f32,
    pub fm_strike: f32,
}

#[derive(Debug, Clone, Default)]
pub struct PluckKnobs {
    pub pluck_decay: f32,
    pub pluck_body: f32,
    pub pluck_pick: f32,
    pub pluck_tone: f32,
}

#[derive(Debug, Clone, Default)]
pub struct PianoKnobs {
    pub piano_hammer: f32,
    pub piano_strike: f32,
    pub piano_inharm: f32,
    pub piano_detune: f32,
    pub piano_decay: f32,
}

#[derive(Debug, Clone, Default)]
pub struct BassKnobs {
    pub bass_cutoff: f32,
    pub bass_env: f32,
    pub bass_env_vel: f32,
    pub bass_decay: f32,
    pub bass_click: f32,
    pub bass_body: f32,
    pub bass_sub: f32,
    pub bass_sub_ratio: f32,
    pub bass_drive: f32,
    pub bass_body_decay: f32,
}

#[derive(Debug, Clone, Default)]
pub struct Sf2Knobs {
    pub sf2: String,
    pub sf2_preset: u32,
    pub sf2_bank: u32,
}
