//! The twin of crates/benching: which row is asked, numbers that the port makes alike, and the checksum of the answers.

use tono_core::units::Beat;

/// How many inputs a layer makes before it starts.
pub const INPUTS: usize = 8192;

/// The turns of a row that nobody asked by name.
const FEW: u64 = 16384;

/// Where a sequence of numbers starts.
const START: u64 = 0x2545_f491_4f6c_dd1d;

fn next(x: u64) -> u64 {
    let a = x ^ (x << 13);
    let b = a ^ (a >> 7);
    b ^ (b << 17)
}

/// The checksum of the answers so far and of one more.
pub fn mixed(sum: u64, answer: u64) -> u64 {
    sum.rotate_left(5).wrapping_add(answer)
}

/// The inputs, each made of two numbers of the sequence.
pub fn inputs<T>(make: impl Fn(u64, u64) -> T) -> Vec<T> {
    let mut r = START;
    let mut all = Vec::with_capacity(INPUTS);
    for _ in 0..INPUTS {
        let s = next(r);
        all.push(make(r, s));
        r = next(s);
    }
    all
}

/// Where input k lies, of as many places as there are inputs; each next one lies a golden section further.
pub fn place(k: usize) -> usize {
    (4096 + 5063 * (k % INPUTS)) % INPUTS
}

/// A beat as one word: the numerator's size, its sign in the highest bit, and the denominator in the upper half.
pub fn beat_word(b: Beat) -> u64 {
    let sign = u64::from(b.num < 0);
    b.num.unsigned_abs() ^ sign << 63 ^ u64::from(b.den) << 32
}

/// The row to run and its turns; every row a few turns where none is named.
pub struct Asked<'a> {
    row: Option<(&'a str, &'a str)>,
    turns: Option<u64>,
}

impl<'a> Asked<'a> {
    pub fn of(words: &'a [String]) -> Asked<'a> {
        match words {
            [] => Asked { row: None, turns: None },
            [call, size, turns] => {
                Asked { row: Some((call, size)), turns: Some(turns.parse().expect("TURNS is a number")) }
            }
            _ => panic!("a row is asked as CALL SIZE TURNS"),
        }
    }

    /// Runs a row that is asked, and writes its line. `answer` makes the call of one turn, and answers it as a word.
    pub fn row(&self, call: &str, size: &str, answer: impl FnMut(usize, usize) -> u64) {
        self.row_or(FEW, call, size, answer);
    }

    /// The same for a row that makes `few` turns where it is not asked by name.
    pub fn row_or(&self, few: u64, call: &str, size: &str, mut answer: impl FnMut(usize, usize) -> u64) {
        if self.row.is_some_and(|row| row != (call, size)) {
            return;
        }
        let mut sum = 0;
        for i in 0..self.turns.unwrap_or(few) {
            let k = (i % INPUTS as u64) as usize;
            sum = mixed(sum, answer(k, (k + 1) % INPUTS));
        }
        println!("{call} {size} {sum:016x}");
    }
}
