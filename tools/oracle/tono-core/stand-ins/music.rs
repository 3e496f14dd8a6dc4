//! Stands in for the pitch grammar that `transpose` names. No question reaches it.

#[derive(Debug, Clone, PartialEq, Eq)]
pub struct MusicError;

impl std::fmt::Display for MusicError {
    fn fmt(&self, f: &mut std::fmt::Formatter<'_>) -> std::fmt::Result {
        f.write_str("no pitch is read here")
    }
}

pub struct Pitch;

impl Pitch {
    pub fn from_name(_: &str) -> Result<Pitch, MusicError> {
        Err(MusicError)
    }
    pub fn add_semitones(self, _: i16) -> Result<Pitch, MusicError> {
        Err(MusicError)
    }
    pub fn to_midi(&self) -> u8 {
        0
    }
}

impl std::fmt::Display for Pitch {
    fn fmt(&self, f: &mut std::fmt::Formatter<'_>) -> std::fmt::Result {
        f.write_str("pitch")
    }
}
