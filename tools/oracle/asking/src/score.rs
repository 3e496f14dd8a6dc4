//! The score file and the sheet, by the words of document 01, over the original's own walks. Nothing of the port is
//! used.

use crate::refusal::is_beat;
use std::fmt::Write;
use tono_core::access;
use tono_core::dsl::TempoPoint;
use tono_core::units::{Beat, MeterPoint, beat_at_bar};

/// The words of the header, in their order.
pub const EDITION: usize = 0;
pub const RATE: usize = 1;
pub const BEATS_PER_BAR: usize = 2;
pub const BPM: usize = 3;
pub const PICKUP_DEN: usize = 4;
pub const PICKUP_LOW: usize = 5;
pub const PICKUP_HIGH: usize = 6;
pub const METERS: usize = 7;
pub const METER_OFFSET: usize = 8;
pub const TEMPOS: usize = 9;
pub const TEMPO_OFFSET: usize = 10;
pub const TOTAL: usize = 11;

/// The bytes of the header and of a point.
pub const HEADER_BYTES: usize = 48;
pub const METER_BYTES: usize = 12;
pub const TEMPO_BYTES: usize = 16;

pub const MOST_METERS: u32 = 256;
pub const MOST_TEMPOS: u32 = 1_024;

/// The bars of a sheet.
const BARS: u32 = 8;

/// What a file can break. Each offset is held to the one before it, so that each rule can be broken alone.
#[derive(Debug, Clone, Copy, PartialEq, Eq, PartialOrd, Ord)]
pub enum Rule {
    Header,
    Edition,
    AbsentLow,
    AbsentHigh,
    PickupLowest,
    Meters,
    MeterOffset,
    Tempos,
    TempoOffset,
    Total,
    Length,
    BeatDenominator,
    BeatLowest,
}

impl Rule {
    pub const ALL: [(Rule, &str); 13] = [
        (Rule::Header, "a header of 12 words"),
        (Rule::Edition, "edition 1"),
        (Rule::AbsentLow, "an absent pickup's low word 0"),
        (Rule::AbsentHigh, "an absent pickup's high word 0"),
        (Rule::PickupLowest, "a pickup in lowest terms"),
        (Rule::Meters, "at most 256 meter points"),
        (Rule::MeterOffset, "meter points from byte 48 on"),
        (Rule::Tempos, "at most 1,024 tempo points"),
        (Rule::TempoOffset, "tempo points behind the meter points"),
        (Rule::Total, "the total behind the tempo points"),
        (Rule::Length, "the total is the real length"),
        (Rule::BeatDenominator, "a tempo beat's denominator not 0"),
        (Rule::BeatLowest, "a tempo beat in lowest terms"),
    ];
}

/// A score, as the original takes its parts.
pub struct Score {
    pub rate: u32,
    pub beats_per_bar: u32,
    pub bpm: f32,
    pub pickup: Option<Beat>,
    pub meters: Vec<MeterPoint>,
    pub tempos: Vec<TempoPoint>,
}

fn word(bytes: &[u8], at: usize) -> u32 {
    u32::from_le_bytes(bytes[at..at + 4].try_into().expect("four bytes"))
}

/// Numerator low, numerator high, denominator.
fn beat(low: u32, high: u32, den: u32) -> Beat {
    Beat { num: (u64::from(low) | u64::from(high) << 32) as i64, den }
}

/// The float of these bits; all NaNs count as equal.
fn tempo(bits: u32) -> f32 {
    let bpm = f32::from_bits(bits);
    if bpm.is_nan() { f32::NAN } else { bpm }
}

/// A point's bytes, each part of a map that is whole in the file.
fn points(bytes: &[u8], offset: u32, count: u32, size: usize) -> impl Iterator<Item = &[u8]> {
    bytes.get(offset as usize..).unwrap_or(&[]).chunks_exact(size).take(count as usize)
}

fn tempo_point(point: &[u8]) -> (Beat, u32) {
    (beat(word(point, 0), word(point, 4), word(point, 8)), word(point, 12))
}

/// The rules of the header, the pickup and the layout that the bytes break. Of a file without a whole header nothing
/// else is looked at.
fn broken_layout(bytes: &[u8]) -> Vec<Rule> {
    if bytes.len() < HEADER_BYTES {
        return vec![Rule::Header];
    }
    let header = |k: usize| word(bytes, 4 * k);
    let wide = |k: usize| u64::from(header(k));
    let mut broken = Vec::new();
    let mut hold = |rule: Rule, holds: bool| {
        if !holds {
            broken.push(rule);
        }
    };
    hold(Rule::Edition, header(EDITION) == 1);
    if header(PICKUP_DEN) == 0 {
        hold(Rule::AbsentLow, header(PICKUP_LOW) == 0);
        hold(Rule::AbsentHigh, header(PICKUP_HIGH) == 0);
    } else {
        hold(Rule::PickupLowest, is_beat(beat(header(PICKUP_LOW), header(PICKUP_HIGH), header(PICKUP_DEN))));
    }
    hold(Rule::Meters, header(METERS) <= MOST_METERS);
    hold(Rule::MeterOffset, header(METER_OFFSET) as usize == HEADER_BYTES);
    hold(Rule::Tempos, header(TEMPOS) <= MOST_TEMPOS);
    hold(Rule::TempoOffset, wide(TEMPO_OFFSET) == wide(METER_OFFSET) + METER_BYTES as u64 * wide(METERS));
    hold(Rule::Total, wide(TOTAL) == wide(TEMPO_OFFSET) + TEMPO_BYTES as u64 * wide(TEMPOS));
    hold(Rule::Length, wide(TOTAL) == bytes.len() as u64);
    broken
}

/// The rules of beats that the tempo points break, each once; of a file with a whole header.
fn broken_beats(bytes: &[u8]) -> Vec<Rule> {
    let header = |k: usize| word(bytes, 4 * k);
    let points = points(bytes, header(TEMPO_OFFSET), header(TEMPOS), TEMPO_BYTES);
    let bad: Vec<Beat> = points.map(|point| tempo_point(point).0).filter(|beat| !is_beat(*beat)).collect();
    let mut broken = Vec::new();
    if bad.iter().any(|beat| beat.den == 0) {
        broken.push(Rule::BeatDenominator);
    }
    if bad.iter().any(|beat| beat.den != 0) {
        broken.push(Rule::BeatLowest);
    }
    broken
}

/// Every rule that the bytes break.
pub fn broken(bytes: &[u8]) -> Vec<Rule> {
    let mut broken = broken_layout(bytes);
    if broken != [Rule::Header] {
        broken.extend(broken_beats(bytes));
    }
    broken
}

/// The score of a file; none where it breaks a rule.
pub fn read(bytes: &[u8]) -> Option<Score> {
    if !broken_layout(bytes).is_empty() || !broken_beats(bytes).is_empty() {
        return None;
    }
    let header = |k: usize| word(bytes, 4 * k);
    let meters = points(bytes, header(METER_OFFSET), header(METERS), METER_BYTES).map(|p| MeterPoint {
        bar: word(p, 0),
        numerator: word(p, 4),
        denominator: word(p, 8),
    });
    let tempos = points(bytes, header(TEMPO_OFFSET), header(TEMPOS), TEMPO_BYTES).map(|p| {
        let (at, bits) = tempo_point(p);
        TempoPoint { at, bpm: tempo(bits) }
    });
    let pickup = beat(header(PICKUP_LOW), header(PICKUP_HIGH), header(PICKUP_DEN));
    Some(Score {
        rate: header(RATE),
        beats_per_bar: header(BEATS_PER_BAR),
        bpm: tempo(header(BPM)),
        pickup: (pickup.den != 0).then_some(pickup),
        meters: meters.collect(),
        tempos: tempos.collect(),
    })
}

impl Score {
    /// `bar start frame`, then eight lines: label, start, frame.
    pub fn sheet(&self) -> String {
        let clock = access::transport(
            self.rate,
            self.bpm,
            self.beats_per_bar,
            self.pickup,
            u64::MAX,
            self.meters.clone(),
            self.tempos.clone(),
        );
        let mut text = "bar start frame\n".to_string();
        for bar in 0..BARS {
            let start = beat_at_bar(&self.meters, self.beats_per_bar, self.pickup, bar);
            let over = if start.den == 1 { String::new() } else { format!("/{}", start.den) };
            writeln!(text, "{bar} {}{over} {}", start.num, clock.frame_at_bar(bar)).expect("memory");
        }
        text
    }
}

/// What is printed for a file that breaks a rule.
pub const REFUSED: &str = "refused 13\n";

/// What is printed for a file of these bytes.
pub fn sheet(bytes: &[u8]) -> String {
    read(bytes).map_or(REFUSED.to_string(), |score| score.sheet())
}

/// A score file before it is bytes: its header's words and its points, so that each can be set on its own.
#[derive(Debug, Clone)]
pub struct File {
    pub header: [u32; 12],
    pub meters: Vec<[u32; 3]>,
    pub tempos: Vec<[u32; 4]>,
}

/// The words of a tempo point.
pub fn tempo_words(at: Beat, bpm: u32) -> [u32; 4] {
    [at.num as u32, (at.num >> 32) as u32, at.den, bpm]
}

impl File {
    /// A file whose counts, offsets and total fit its points.
    pub fn new(
        rate: u32,
        beats_per_bar: u32,
        bpm: u32,
        pickup: Option<Beat>,
        meters: Vec<[u32; 3]>,
        tempos: Vec<[u32; 4]>,
    ) -> File {
        let [low, high, den, _] = pickup.map_or([0; 4], |beat| tempo_words(beat, 0));
        let header = [1, rate, beats_per_bar, bpm, den, low, high, 0, 0, 0, 0, 0];
        let mut file = File { header, meters, tempos };
        file.lay_out();
        file
    }

    /// Counts, offsets and total by the points that there are.
    pub fn lay_out(&mut self) {
        let (meters, tempos) = (self.meters.len(), self.tempos.len());
        let behind = HEADER_BYTES + METER_BYTES * meters;
        let total = behind + TEMPO_BYTES * tempos;
        self.header[METERS..].copy_from_slice(&[meters, HEADER_BYTES, tempos, behind, total].map(|n| n as u32));
    }

    pub fn bytes(&self) -> Vec<u8> {
        let points = self.meters.iter().flatten().chain(self.tempos.iter().flatten());
        self.header.iter().chain(points).flat_map(|word| word.to_le_bytes()).collect()
    }
}
