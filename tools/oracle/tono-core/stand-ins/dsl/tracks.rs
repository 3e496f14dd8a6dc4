//! Stands in for the mixer: the fields that the originals name.

use super::Node;

#[derive(Debug, Clone)]
pub struct Track {
    pub id: Option<String>,
    pub node: Node,
    pub pan: f32,
    pub gain: f32,
    pub at: f32,
    pub mute: bool,
    pub automation: Vec<AutoLane>,
    pub sidechain: Option<Sidechain>,
    pub bus: Option<String>,
    pub sends: Vec<Send>,
}

#[derive(Debug, Clone, Copy, PartialEq)]
pub enum AutoTarget {
    Gain,
    Pan,
}

#[derive(Debug, Clone, Copy, PartialEq)]
pub enum AutoCurve {
    Linear,
}

#[derive(Debug, Clone)]
pub struct AutoLane {
    pub target: AutoTarget,
    pub curve: AutoCurve,
    pub points: Vec<AutoPoint>,
}

#[derive(Debug, Clone)]
pub struct AutoPoint {
    pub t: f32,
    pub v: f32,
}

#[derive(Debug, Clone)]
pub struct Bus;

#[derive(Debug, Clone)]
pub struct Send;

#[derive(Debug, Clone)]
pub struct Sidechain;
