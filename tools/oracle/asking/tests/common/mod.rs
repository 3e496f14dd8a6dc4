//! Asking a question and looking at its line.

#![allow(dead_code)] // each file of tests uses a part of it

use asking::answer::answer;
use asking::args::{Tempo, Transport};
use asking::generate::write::Asked;
use tono_core::units::Beat;

/// The line that answers a question, without its end.
pub fn ask(op: u32, asked: Asked) -> String {
    ask_words(op, &asked.0)
}

pub fn ask_words(op: u32, words: &[u32]) -> String {
    let mut line = Vec::new();
    answer(op, words, &mut line);
    assert_eq!(line.pop(), Some(b'\n'));
    String::from_utf8(line).expect("text")
}

/// A question to be filled.
pub fn of() -> Asked {
    Asked::default()
}

pub fn beat(num: i64, den: u32) -> Beat {
    Beat { num, den }
}

pub fn no_tempo() -> Tempo {
    Tempo::default()
}

/// A sound transport at 48,000 frames a second and 120 beats a minute, playing at frame 0.
pub fn playing(length: u64) -> Transport {
    Transport {
        rate: 48_000,
        bpm: 120.0f32.to_bits(),
        beats_per_bar: 4,
        length,
        position: 0,
        state: 1,
        looped: None,
        pickup: None,
    }
}
