//! The score files of examples/, each made by its rule.

use crate::generate::write::Asked;
use crate::score::{self, File, tempo_words};
use tono_core::units::Beat;

pub struct Example {
    pub name: &'static str,
    pub bytes: Vec<u8>,
}

impl Example {
    /// What is printed for it.
    pub fn sheet(&self) -> String {
        score::sheet(&self.bytes)
    }

    /// It as a question, the op and the count before it.
    pub fn question(&self) -> Vec<u32> {
        let words = Asked::default().file(&self.bytes).0;
        [vec![0x70, words.len() as u32], words].concat()
    }
}

/// Frames a second.
const RATE: u32 = 48_000;

fn beat(num: i64, den: u32) -> Beat {
    Beat { num, den }
}

/// A tempo point at a beat.
fn tempo(num: i64, den: u32, bpm: f32) -> [u32; 4] {
    tempo_words(beat(num, den), bpm.to_bits())
}

/// A score in 4/4 at 120 beats a minute with a pickup and no points.
fn picked_up(pickup: Option<Beat>) -> File {
    File::new(RATE, 4, 120f32.to_bits(), pickup, Vec::new(), Vec::new())
}

/// As many points as a file may have, bars and beats ascending, without a problem.
pub fn full_sound() -> File {
    let meters = (0..256).map(|k| [k, 2 + k % 5, 4 << (k % 2)]).collect();
    let tempos = (0..1_024).map(|k| tempo(k, 1, 60.0 + (k % 90) as f32)).collect();
    File::new(RATE, 4, 120f32.to_bits(), Some(beat(1, 1)), meters, tempos)
}

/// The same points with every problem that maps have, from the first point to the last: bars and beats that do not
/// ascend, numerators 0, denominators 0, 3, 128 and 2^32 - 1, tempos that are none. None refuses the file.
fn full() -> File {
    let mut file = full_sound();
    file.meters[0][0] = 1;
    file.meters[2][1] = 0;
    file.meters[3][2] = 0;
    file.meters[4][2] = 3;
    file.meters[5][0] = 3;
    file.meters[6][2] = u32::MAX;
    file.meters[255] = [254, 0, 128];
    file.tempos[0] = tempo(1, 2, 60.0);
    file.tempos[1] = tempo(1, 1, f32::NAN);
    file.tempos[2] = tempo(2, 1, f32::INFINITY);
    file.tempos[4] = tempo(4, 1, 0.0);
    file.tempos[6] = tempo(6, 1, -120.0);
    file.tempos[8] = tempo(7, 1, 1e-40);
    file.tempos[1_023] = tempo(-1, 3, f32::NEG_INFINITY);
    file
}

/// A file that breaks one rule alone: a meter point more than there may be.
fn meters_257() -> File {
    let mut file = full_sound();
    file.meters.push([256, 4, 4]);
    file.tempos.clear();
    file.lay_out();
    file
}

/// A tempo point more than there may be.
fn tempos_1025() -> File {
    let mut file = full_sound();
    file.meters.clear();
    file.tempos.push(tempo(1_024, 1, 120.0));
    file.lay_out();
    file
}

/// A waltz that turns into a march for a bar and an odd meter behind it.
fn meter_changes() -> File {
    let meters = vec![[0, 3, 4], [2, 4, 4], [3, 7, 8], [5, 5, 16], [6, 3, 2]];
    File::new(44_100, 3, 90f32.to_bits(), None, meters, Vec::new())
}

/// Slower to the double bar, and then at once in tempo.
fn tempo_changes() -> File {
    let tempos = vec![
        tempo(0, 1, 132.0),
        tempo(8, 1, 120.0),
        tempo(28, 3, 104.0),
        tempo(21, 2, 88.5),
        tempo(12, 1, 132.0),
        tempo(20, 1, 66.7),
    ];
    File::new(44_100, 4, 120f32.to_bits(), None, Vec::new(), tempos)
}

/// Both maps and a pickup in thirds.
fn both_maps() -> File {
    let meters = vec![[0, 4, 4], [1, 6, 8], [4, 4, 4], [6, 9, 8]];
    let tempos = vec![tempo(0, 1, 96.0), tempo(2, 3, 144.0), tempo(29, 3, 72.0)];
    File::new(96_000, 4, 120f32.to_bits(), Some(beat(2, 3)), meters, tempos)
}

/// Document 01's own that does not fit: bar 2 saturates.
fn saturated() -> File {
    File::new(RATE, 4, 60f32.to_bits(), Some(beat(1, 1 << 30)), vec![[0, 5, 64]], Vec::new())
}

/// Every example, in the order in which they are asked.
pub fn all() -> Vec<Example> {
    let example = |name, file: File| Example { name, bytes: file.bytes() };
    vec![
        example("cue14", picked_up(Some(beat(1, 1)))),
        example("no_pickup", picked_up(None)),
        example("pickup_zero", picked_up(Some(beat(0, 1)))),
        example("pickup_third", picked_up(Some(beat(1, 3)))),
        example("pickup_negative", picked_up(Some(beat(-5, 2)))),
        example("meter_changes", meter_changes()),
        example("tempo_changes", tempo_changes()),
        example("both_maps", both_maps()),
        example("saturated", saturated()),
        example("full_sound", full_sound()),
        example("full", full()),
        example("meters_257", meters_257()),
        example("tempos_1025", tempos_1025()),
        Example { name: "empty", bytes: Vec::new() },
    ]
}
