//! Question 70: score files. Kinds of damage take turns by the question's place, and the ways of a kind by its turn, so
//! that a run has every way: each header word off by one, each prefix of a small file, each rule broken alone.

use super::beats::{beat, no_beat};
use super::rng::Rng;
use super::scores;
use super::write::Asked;
use crate::score::{
    BPM, EDITION, File, HEADER_BYTES, METER_BYTES, METER_OFFSET, METERS, PICKUP_DEN, PICKUP_HIGH, PICKUP_LOW,
    TEMPO_BYTES, TEMPO_OFFSET, TEMPOS, TOTAL, tempo_words,
};

/// Kinds of files in a row, the accepted ones first.
const KINDS: u64 = 20;

/// The small files that are cut have 0 to 2 points of each kind.
const FEW: usize = 3;

/// A file of few points, plain or odd.
fn small(r: &mut Rng) -> File {
    let kind = r.pick(&[0, 0, 1, 2, 3, 5, 6, 7]);
    scores::score(kind, 1, r)
}

/// A file of few points, of which one at least is a tempo point.
fn with_tempos(r: &mut Rng) -> File {
    let mut file = small(r);
    if file.tempos.is_empty() {
        let count = r.between(1, 4);
        file.tempos = (0..count).map(|_| tempo_words(beat(r), r.bpm())).collect();
        file.lay_out();
    }
    file
}

/// Adds to words of the header.
fn add(file: &mut File, words: &[usize], more: u32) {
    for word in words {
        file.header[*word] = file.header[*word].wrapping_add(more);
    }
}

fn noise(r: &mut Rng, count: u64) -> Vec<u8> {
    (0..count).map(|_| r.next() as u8).collect()
}

/// Each header word, one more and one less.
fn off_by_one(turn: u64, file: &mut File) {
    add(file, &[(turn % 12) as usize], if turn / 12 % 2 == 0 { 1 } else { u32::MAX });
}

/// Every prefix of every small shape, and any file cut anywhere, its total changed or not.
fn cut(turn: u64, r: &mut Rng) -> Vec<u8> {
    if turn % 2 == 1 {
        let mut file = scores::score(r.below(scores::KINDS), 1, r);
        let count = file.bytes().len() as u64;
        let short = if r.once_in(2) { 1 + r.below(count.min(40)) } else { 1 + r.below(count) };
        if r.once_in(3) {
            add(&mut file, &[TOTAL], (short as u32).wrapping_neg());
        }
        let mut bytes = file.bytes();
        bytes.truncate((count - short) as usize);
        return bytes;
    }
    let shapes = || (0..FEW).flat_map(|m| (0..FEW).map(move |t| (m, t)));
    let length = |(m, t): (usize, usize)| HEADER_BYTES + METER_BYTES * m + TEMPO_BYTES * t;
    let mut at = (turn / 2) as usize % shapes().map(length).sum::<usize>();
    for shape in shapes() {
        if at < length(shape) {
            let mut bytes = scores::of_counts(r, shape.0 as u64, shape.1 as u64).bytes();
            bytes.truncate(at);
            return bytes;
        }
        at -= length(shape);
    }
    unreachable!("a cut is in some shape")
}

/// 1 to 20 bytes behind the file; the total counts them or not.
fn behind(turn: u64, r: &mut Rng) -> Vec<u8> {
    let (mut file, more) = (small(r), 1 + turn % 20);
    if turn / 20 % 2 == 1 {
        add(&mut file, &[TOTAL], more as u32);
    }
    let mut bytes = file.bytes();
    bytes.extend(if turn / 40 % 2 == 0 { vec![0; more as usize] } else { noise(r, more) });
    bytes
}

/// Counts at the limits and past them with all their points, and counts whose points' bytes wrap past 2^32.
fn counts(turn: u64, r: &mut Rng) -> File {
    let (few, some) = (r.below(4), r.below(4));
    let mut file = match turn % 20 {
        k @ 0..=2 => return scores::of_counts(r, 255 + k, some),
        k @ 3..=5 => return scores::of_counts(r, few, 1_020 + k),
        6 => return scores::of_counts(r, 256, 1_024),
        7 => return scores::of_counts(r, 257, 1_025),
        _ => small(r),
    };
    match turn % 20 {
        // 12 * 2^30 and 16 * 2^28 are whole multiples of 2^32
        8 | 9 => add(&mut file, &[METERS], r.between(1, 3) as u32 * (1 << 30)),
        10 | 11 => add(&mut file, &[TEMPOS], r.between(1, 15) as u32 * (1 << 28)),
        12 => {
            add(&mut file, &[METERS], 1 << 30);
            add(&mut file, &[TEMPOS], 1 << 28);
        }
        // 12 * 357,913,942 is 8 more, 12 * 357,913,941 is 4 less
        13 => {
            file.meters.clear();
            file.lay_out();
            file.header[METERS] = 357_913_942;
            add(&mut file, &[TEMPO_OFFSET, TOTAL], 8);
            file.tempos.insert(0, [0, 0, 1, 0]);
        }
        14 => {
            file.header[METERS] = r.pick(&[357_913_941, 357_913_942, 715_827_883]);
            file.header[TEMPO_OFFSET] = 48u32.wrapping_add(file.header[METERS].wrapping_mul(12));
            file.header[TOTAL] = file.header[TEMPO_OFFSET].wrapping_add(16 * file.header[TEMPOS]);
        }
        // the count's word alone
        15 | 16 => file.header[METERS] = r.pick(&[255, 256, 257, 1 << 31, u32::MAX]),
        17 | 18 => file.header[TEMPOS] = r.pick(&[1_023, 1_024, 1_025, 1 << 31, u32::MAX]),
        _ => file.header[if r.once_in(2) { METERS } else { TEMPOS }] = r.u32(),
    }
    file
}

/// A tempo point, often the first or the last, whose beat is none.
fn tempo_beat(turn: u64, file: &mut File, r: &mut Rng) {
    let count = file.tempos.len();
    if count == 0 {
        return;
    }
    let at = [0, count - 1, r.below(count as u64) as usize][(turn % 3) as usize];
    let point = &mut file.tempos[at];
    match turn / 3 % 6 {
        0 => point[2] = 0,
        1 => point[..3].copy_from_slice(&[0, 0, 2 + r.u32() % 7]),
        2 => point[..3].copy_from_slice(&[2, 0, 4]),
        3 => point[..3].copy_from_slice(&[0, 1 << 31, 2]),
        // -3/9, and 2^32 over an even number
        4 => point[..3].copy_from_slice(&r.pick(&[[0xffff_fffd, u32::MAX, 9], [0, 1, 6]])),
        _ => point[..3].copy_from_slice(&tempo_words(no_beat(r), 0)[..3]),
    }
}

/// A pickup that is none: an absent one with a numerator, or one that is not in lowest terms.
fn pickup(turn: u64, file: &mut File, r: &mut Rng) {
    let bad = match turn % 8 {
        0 => [r.u32().max(1), 0, 0],
        1 => [0, r.u32().max(1), 0],
        2 => [u32::MAX, u32::MAX, 0],
        3 => [0, 1 << r.below(32), 0],
        4 => [0, 0, r.u32().max(2)],
        5 => [4, 0, 8],
        6 => [0xffff_fffa, u32::MAX, 3],
        _ => {
            let [low, high, den, _] = tempo_words(no_beat(r), 0);
            [low.max(u32::from(den == 0)), high, den]
        }
    };
    [file.header[PICKUP_LOW], file.header[PICKUP_HIGH], file.header[PICKUP_DEN]] = bad;
}

/// Gaps and overlaps of the parts, by words that fit each other or not.
fn gap(turn: u64, r: &mut Rng) -> Vec<u8> {
    let mut file = with_tempos(r);
    if file.meters.is_empty() {
        file.meters.push([0, 3, 4]);
        file.lay_out();
    }
    let (meters, tempos) = (METER_BYTES * file.meters.len(), TEMPO_BYTES * file.tempos.len());
    let more = r.pick(&[1, 2, 3, 4, 8, 12, 16]);
    let behind_meters = HEADER_BYTES + meters;
    let mut insert = |file: &File, at: usize| {
        let mut bytes = file.bytes();
        bytes.splice(at..at, noise(r, u64::from(more)));
        bytes
    };
    match turn % 9 {
        0 => {
            add(&mut file, &[METER_OFFSET, TEMPO_OFFSET, TOTAL], more);
            insert(&file, HEADER_BYTES)
        }
        1 => {
            add(&mut file, &[TEMPO_OFFSET, TOTAL], more);
            insert(&file, behind_meters)
        }
        2 => {
            add(&mut file, &[TOTAL], more);
            insert(&file, behind_meters + tempos)
        }
        // the words tell of no gap
        3 => insert(&file, HEADER_BYTES),
        4 => insert(&file, behind_meters),
        // the tempo points begin in the last meter point, and are all there
        5 => {
            add(&mut file, &[TEMPO_OFFSET, TOTAL], (METER_BYTES as u32).wrapping_neg());
            let mut bytes = file.bytes();
            bytes.drain(behind_meters - METER_BYTES..behind_meters);
            bytes
        }
        // the meter points begin in the header
        6 => {
            add(&mut file, &[METER_OFFSET, TEMPO_OFFSET, TOTAL], 4u32.wrapping_neg());
            let mut bytes = file.bytes();
            bytes.drain(HEADER_BYTES..HEADER_BYTES + 4);
            bytes
        }
        // the tempo points come first
        7 => {
            file.header[METER_OFFSET] = (HEADER_BYTES + tempos) as u32;
            file.header[TEMPO_OFFSET] = HEADER_BYTES as u32;
            let mut bytes = file.bytes();
            bytes[HEADER_BYTES..].rotate_left(meters);
            bytes
        }
        // the total has no tempo points
        _ => {
            file.header[TOTAL] = behind_meters as u32;
            let mut bytes = file.bytes();
            bytes.truncate(behind_meters);
            bytes
        }
    }
}

/// One word of the layout set to another, at or beside a part's end or any.
fn header_word(turn: u64, file: &mut File, r: &mut Rng) {
    let word = [METERS, METER_OFFSET, TEMPOS, TEMPO_OFFSET, TOTAL][(turn % 5) as usize];
    file.header[word] = match r.below(4) {
        0 => r.u32(),
        1 => r.pick(&[0, 12, 36, 44, 48, 49, 52, 60, 64, 1 << 16, 0x3000_0000]),
        2 => file.header[r.between(METERS as i64, TOTAL as i64) as usize],
        _ => file.header[word].wrapping_add(r.pick(&[4, 8, 12, 16, 1 << 8, 1 << 16, 1 << 24])),
    };
}

fn edition(turn: u64, file: &mut File, r: &mut Rng) {
    file.header[EDITION] = match turn % 6 {
        0 => 0,
        1 => 2,
        // the bytes in the other order
        2 => 1 << 24,
        3 => 0x101,
        4 => u32::MAX,
        _ => r.u32().wrapping_add(2).max(2),
    };
}

/// Some bits or bytes changed, half of them in the header.
fn flipped(r: &mut Rng) -> Vec<u8> {
    let mut bytes = small(r).bytes();
    for _ in 0..=r.below(3) {
        let within = if r.once_in(2) { HEADER_BYTES } else { bytes.len() };
        let at = r.below(within as u64) as usize;
        bytes[at] ^= if r.once_in(2) { 1 << r.below(8) } else { r.next() as u8 };
    }
    bytes
}

/// No file at all: nothing, any bytes, or words of which some look like a header.
fn no_file(turn: u64, r: &mut Rng) -> Vec<u8> {
    match turn % 8 {
        0 => Vec::new(),
        1 => vec![0; r.pick(&[47, 48, 49, 64])],
        2 => vec![0xff; r.pick(&[47, 48, 49, 64])],
        3 => {
            let count = r.below(200);
            noise(r, count)
        }
        4 => noise(r, HEADER_BYTES as u64),
        5 => (0..12).flat_map(|_| r.u32().to_le_bytes()).collect(),
        6 => [1, r.rate(), 4, r.bpm(), r.u32(), r.u32(), r.u32(), 0, 48, 0, 48, 48]
            .into_iter()
            .flat_map(u32::to_le_bytes)
            .collect(),
        // every word in the other order
        _ => small(r).bytes().chunks(4).flat_map(|word| word.iter().rev().copied().collect::<Vec<u8>>()).collect(),
    }
}

/// Two kinds of damage in one file.
fn twice(turn: u64, r: &mut Rng) -> Vec<u8> {
    let mut file = with_tempos(r);
    for k in [turn % 5, turn / 5 % 5] {
        let way = r.below(60);
        match k {
            0 => off_by_one(way, &mut file),
            1 => tempo_beat(way, &mut file, r),
            2 => pickup(way, &mut file, r),
            3 => header_word(way, &mut file, r),
            _ => edition(way, &mut file, r),
        }
    }
    // a tempo that is no number is no damage
    file.header[BPM] = r.bpm();
    file.bytes()
}

pub fn question(place: u64, r: &mut Rng) -> Asked {
    let turn = place / KINDS;
    let spoilt = |mut file: File, r: &mut Rng, spoil: fn(u64, &mut File, &mut Rng)| {
        spoil(turn, &mut file, r);
        file.bytes()
    };
    let bytes = match place % KINDS {
        kind @ 0..scores::KINDS => scores::score(kind, turn, r).bytes(),
        8 => spoilt(small(r), r, |turn, file, _| off_by_one(turn, file)),
        9 => cut(turn, r),
        10 => behind(turn, r),
        11 => counts(turn, r).bytes(),
        12 => spoilt(with_tempos(r), r, tempo_beat),
        13 => spoilt(small(r), r, pickup),
        14 => gap(turn, r),
        15 => spoilt(small(r), r, header_word),
        16 => flipped(r),
        17 => no_file(turn, r),
        18 => twice(turn, r),
        _ => spoilt(small(r), r, edition),
    };
    Asked::default().file(&bytes)
}
