//! Reading questions: op, n, then n words, little-endian, one behind the other until the input ends.

use crate::form::MOST_WORDS;
use std::io::{self, Read};

pub enum Next {
    /// The op; the reader's `words` are what is asked.
    Ask(u32),
    /// A question that is cut, which ends the input, or one of more words than fit, which was skipped.
    Unknown,
    End,
}

pub struct Questions<R> {
    input: R,
    buffer: Vec<u8>,
    from: usize,
    to: usize,
    pub words: Vec<u32>,
}

impl<R: Read> Questions<R> {
    pub fn new(input: R) -> Self {
        Questions { input, buffer: vec![0; 1 << 18], from: 0, to: 0, words: Vec::new() }
    }

    /// Some bytes, or none at the input's end.
    fn fill(&mut self) -> io::Result<bool> {
        while self.from == self.to {
            match self.input.read(&mut self.buffer) {
                Ok(0) => return Ok(false),
                Ok(n) => (self.from, self.to) = (0, n),
                Err(e) if e.kind() == io::ErrorKind::Interrupted => {}
                Err(e) => return Err(e),
            }
        }
        Ok(true)
    }

    /// The next word; `Err` with the number of bytes that were left where it is cut.
    fn word(&mut self) -> io::Result<Result<u32, usize>> {
        if self.to - self.from >= 4 {
            let at = self.from;
            self.from += 4;
            let bytes = self.buffer[at..at + 4].try_into().expect("four bytes");
            return Ok(Ok(u32::from_le_bytes(bytes)));
        }
        let mut bytes = [0; 4];
        for k in 0..4 {
            if !self.fill()? {
                return Ok(Err(k));
            }
            bytes[k] = self.buffer[self.from];
            self.from += 1;
        }
        Ok(Ok(u32::from_le_bytes(bytes)))
    }

    pub fn next(&mut self) -> io::Result<Next> {
        let op = match self.word()? {
            Ok(op) => op,
            Err(0) => return Ok(Next::End),
            Err(_) => return Ok(Next::Unknown),
        };
        let Ok(count) = self.word()? else { return Ok(Next::Unknown) };
        self.words.clear();
        let fits = count as usize <= MOST_WORDS;
        for _ in 0..count {
            let Ok(word) = self.word()? else { return Ok(Next::Unknown) };
            if fits {
                self.words.push(word);
            }
        }
        Ok(if fits { Next::Ask(op) } else { Next::Unknown })
    }
}
