//! The words of a question, one argument behind the other.

use crate::args::{Tempo, Transport};
use tono_core::units::Beat;

#[derive(Default)]
pub struct Asked(pub Vec<u32>);

impl Asked {
    pub fn u32(mut self, x: u32) -> Asked {
        self.0.push(x);
        self
    }

    pub fn u64(self, x: u64) -> Asked {
        self.u32(x as u32).u32((x >> 32) as u32)
    }

    pub fn i64(self, x: i64) -> Asked {
        self.u64(x as u64)
    }

    pub fn beat(self, beat: Beat) -> Asked {
        self.i64(beat.num).u32(beat.den)
    }

    /// Of an absent pickup the beat's words count for nothing, so they are any.
    pub fn pickup(self, pickup: Option<Beat>) -> Asked {
        match pickup {
            Some(beat) => self.u32(1).beat(beat),
            None => self.u32(0).u32(7).u32(0xffff_fff0).u32(0),
        }
    }

    pub fn words(mut self, words: &[u32]) -> Asked {
        self.0.push(words.len() as u32);
        self.0.extend_from_slice(words);
        self
    }

    pub fn longs(mut self, longs: impl ExactSizeIterator<Item = u64>) -> Asked {
        self.0.push(longs.len() as u32);
        longs.fold(self, Asked::u64)
    }

    pub fn tempo(self, tempo: &Tempo) -> Asked {
        self.longs(tempo.nums.iter().map(|n| *n as u64)).words(&tempo.dens).words(&tempo.bpms)
    }

    /// The count of the bytes, and the bytes, four a word; behind the end any bytes.
    pub fn file(mut self, bytes: &[u8]) -> Asked {
        self.0.push(bytes.len() as u32);
        self.0.extend(bytes.chunks(4).map(|chunk| {
            let mut four = [0xa5; 4];
            four[..chunk.len()].copy_from_slice(chunk);
            u32::from_le_bytes(four)
        }));
        self
    }

    /// Of a loop that is off the two frames count for nothing, so they are any.
    pub fn transport(self, t: &Transport) -> Asked {
        let (start, end) = t.looped.unwrap_or((9, 3));
        self.u32(t.rate)
            .u32(t.bpm)
            .u32(t.beats_per_bar)
            .u64(t.length)
            .u64(t.position)
            .u32(t.state)
            .u32(u32::from(t.looped.is_some()))
            .u64(start)
            .u64(end)
            .pickup(t.pickup)
    }
}
