//! What a question asks: its words taken apart by the kinds of its op. A question that has words too few or too many, a
//! state above 2, a flag above 1, or a list or an output that is larger than the form's limits is none.

use crate::form::{Kind, MOST_FILE, MOST_LIST, MOST_ROOM, Op};
use tono_core::units::Beat;

#[derive(Debug, Clone)]
pub enum Arg {
    U32(u32),
    U64(u64),
    I64(i64),
    /// A float of 32 bits, as its bits.
    F32(u32),
    /// A float of 64 bits, as its bits.
    F64(u64),
    /// Any two numbers: a Beat need not be in lowest terms to be asked.
    Beat(Beat),
    Pickup(Option<Beat>),
    Room(usize),
    Words(Vec<u32>),
    Lines(Vec<u64>),
    Tempo(Tempo),
    Transport(Transport),
    File(Vec<u8>),
}

/// A tempo map: three lists, which need not be of one length to be asked.
#[derive(Debug, Clone, Default)]
pub struct Tempo {
    pub nums: Vec<i64>,
    pub dens: Vec<u32>,
    pub bpms: Vec<u32>,
}

#[derive(Debug, Clone, Copy)]
pub struct Transport {
    pub rate: u32,
    /// The tempo's bits.
    pub bpm: u32,
    pub beats_per_bar: u32,
    pub length: u64,
    pub position: u64,
    /// 0 stopped, 1 playing, 2 paused.
    pub state: u32,
    pub looped: Option<(u64, u64)>,
    pub pickup: Option<Beat>,
}

/// The words that are still to be read.
struct Rest<'a>(&'a [u32]);

impl Rest<'_> {
    fn u32(&mut self) -> Option<u32> {
        let (first, rest) = self.0.split_first()?;
        self.0 = rest;
        Some(*first)
    }

    fn u64(&mut self) -> Option<u64> {
        let (low, high) = (self.u32()?, self.u32()?);
        Some(u64::from(low) | u64::from(high) << 32)
    }

    fn beat(&mut self) -> Option<Beat> {
        Some(Beat { num: self.u64()? as i64, den: self.u32()? })
    }

    fn flag(&mut self) -> Option<bool> {
        match self.u32()? {
            0 => Some(false),
            1 => Some(true),
            _ => None,
        }
    }

    fn pickup(&mut self) -> Option<Option<Beat>> {
        let present = self.flag()?;
        let beat = self.beat()?;
        Some(present.then_some(beat))
    }

    /// A list of words, of at most so many.
    fn words(&mut self, count: usize, most: usize) -> Option<Vec<u32>> {
        if count > most || count > self.0.len() {
            return None;
        }
        let (list, rest) = self.0.split_at(count);
        self.0 = rest;
        Some(list.to_vec())
    }

    fn counted(&mut self, most: usize) -> Option<Vec<u32>> {
        let count = self.u32()? as usize;
        self.words(count, most)
    }

    fn longs(&mut self) -> Option<Vec<u64>> {
        let count = self.u32()? as usize;
        if count > MOST_LIST || 2 * count > self.0.len() {
            return None;
        }
        (0..count).map(|_| self.u64()).collect()
    }

    fn tempo(&mut self) -> Option<Tempo> {
        let nums = self.longs()?.into_iter().map(|n| n as i64).collect();
        Some(Tempo { nums, dens: self.counted(MOST_LIST)?, bpms: self.counted(MOST_LIST)? })
    }

    fn transport(&mut self) -> Option<Transport> {
        let (rate, bpm, beats_per_bar) = (self.u32()?, self.u32()?, self.u32()?);
        let (length, position) = (self.u64()?, self.u64()?);
        let state = self.u32().filter(|state| *state <= 2)?;
        let on = self.flag()?;
        let ends = (self.u64()?, self.u64()?);
        let pickup = self.pickup()?;
        Some(Transport { rate, bpm, beats_per_bar, length, position, state, looped: on.then_some(ends), pickup })
    }

    /// The bytes of the last word behind the file's end count for nothing.
    fn file(&mut self) -> Option<Vec<u8>> {
        let count = self.u32()? as usize;
        let words = self.words(count.div_ceil(4), MOST_FILE.div_ceil(4))?;
        let bytes = words.iter().flat_map(|word| word.to_le_bytes()).take(count);
        (count <= MOST_FILE).then(|| bytes.collect())
    }

    fn arg(&mut self, kind: Kind) -> Option<Arg> {
        Some(match kind {
            Kind::U32 => Arg::U32(self.u32()?),
            Kind::U64 => Arg::U64(self.u64()?),
            Kind::I64 => Arg::I64(self.u64()? as i64),
            Kind::F32 => Arg::F32(self.u32()?),
            Kind::F64 => Arg::F64(self.u64()?),
            Kind::Beat => Arg::Beat(self.beat()?),
            Kind::Pickup => Arg::Pickup(self.pickup()?),
            Kind::Room => Arg::Room(Some(self.u32()? as usize).filter(|room| *room <= MOST_ROOM)?),
            Kind::Meter => Arg::Words(self.counted(3 * MOST_LIST)?),
            Kind::Points => {
                let count = self.u32()? as usize;
                Arg::Words(self.words(count.checked_mul(3)?, 3 * MOST_LIST)?)
            }
            Kind::Notes => Arg::Words(self.counted(MOST_LIST)?),
            Kind::Lines => Arg::Lines(self.longs()?),
            Kind::Tempo => Arg::Tempo(self.tempo()?),
            Kind::Transport => Arg::Transport(self.transport()?),
            Kind::File => Arg::File(self.file()?),
        })
    }
}

/// The arguments of a question, in the op's order.
pub struct Args(pub Vec<Arg>);

impl Args {
    /// None where the words are no question of this op.
    pub fn read(op: &Op, words: &[u32]) -> Option<Args> {
        let mut rest = Rest(words);
        let list = op.asked.iter().map(|(_, kind)| rest.arg(*kind)).collect::<Option<Vec<Arg>>>()?;
        rest.0.is_empty().then_some(Args(list))
    }

    pub fn u32(&self, k: usize) -> u32 {
        let Arg::U32(x) = self.0[k] else { panic!("argument {k} is no u32") };
        x
    }

    pub fn u64(&self, k: usize) -> u64 {
        let Arg::U64(x) = self.0[k] else { panic!("argument {k} is no u64") };
        x
    }

    pub fn i64(&self, k: usize) -> i64 {
        let Arg::I64(x) = self.0[k] else { panic!("argument {k} is no i64") };
        x
    }

    pub fn f32_bits(&self, k: usize) -> u32 {
        let Arg::F32(x) = self.0[k] else { panic!("argument {k} is no f32") };
        x
    }

    pub fn f64(&self, k: usize) -> f64 {
        let Arg::F64(x) = self.0[k] else { panic!("argument {k} is no f64") };
        f64::from_bits(x)
    }

    pub fn beat(&self, k: usize) -> Beat {
        let Arg::Beat(x) = self.0[k] else { panic!("argument {k} is no Beat") };
        x
    }

    pub fn pickup(&self, k: usize) -> Option<Beat> {
        let Arg::Pickup(x) = self.0[k] else { panic!("argument {k} is no Pickup") };
        x
    }

    pub fn words(&self, k: usize) -> &[u32] {
        let Arg::Words(x) = &self.0[k] else { panic!("argument {k} is no list of words") };
        x
    }

    pub fn lines(&self, k: usize) -> &[u64] {
        let Arg::Lines(x) = &self.0[k] else { panic!("argument {k} is no list of lines") };
        x
    }

    pub fn tempo(&self, k: usize) -> &Tempo {
        let Arg::Tempo(x) = &self.0[k] else { panic!("argument {k} is no tempo map") };
        x
    }

    pub fn transport(&self, k: usize) -> &Transport {
        let Arg::Transport(x) = &self.0[k] else { panic!("argument {k} is no Transport") };
        x
    }

    pub fn file(&self, k: usize) -> &[u8] {
        let Arg::File(x) = &self.0[k] else { panic!("argument {k} is no file") };
        x
    }

    /// The elements of the lent output, of a call that has one.
    pub fn room(&self) -> Option<usize> {
        self.0.iter().find_map(|arg| if let Arg::Room(room) = arg { Some(*room) } else { None })
    }
}
