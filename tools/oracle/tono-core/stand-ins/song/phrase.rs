//! Stands in for the fluent writer of notes. No question reaches it.

use crate::dsl::SeqNote;

pub struct Phrase {
    pub notes: Vec<SeqNote>,
}

impl Phrase {
    pub fn new(_: u32) -> Phrase {
        Phrase { notes: Vec::new() }
    }
}
