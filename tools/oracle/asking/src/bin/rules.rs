//! Counts the score files among questions by the rules that they break: `rules <QUESTIONS`.
//!
//! For each rule: how many files break it alone, and how many break others beside it. Of the accepted files: what their
//! pickups, counts and maps are like.

use asking::args::Args;
use asking::form;
use asking::question::{Next, Questions};
use asking::score::{self, Rule, Score};
use std::collections::{BTreeMap, BTreeSet};
use std::io::{self, Write};
use tono_core::dsl::bounds::tempo_map_problems;
use tono_core::song::meter_map_problems;
use tono_core::units::Beat;

#[derive(Default)]
struct Counts {
    files: u64,
    accepted: u64,
    others: u64,
    alone: BTreeMap<Rule, u64>,
    beside: BTreeMap<Rule, u64>,
    like: BTreeMap<&'static str, u64>,
    wrapped: u64,
    lengths: BTreeSet<usize>,
}

/// Refused, though the offsets and the length fit the counts at 32 bits.
fn wraps(bytes: &[u8], broken: &[Rule]) -> bool {
    let header: Vec<u32> =
        bytes.chunks_exact(4).take(12).map(|w| u32::from_le_bytes([w[0], w[1], w[2], w[3]])).collect();
    let [.., meters, meter_offset, tempos, tempo_offset, total] = header[..] else { return false };
    broken.iter().any(|rule| matches!(rule, Rule::TempoOffset | Rule::Total))
        && tempo_offset == meter_offset.wrapping_add(meters.wrapping_mul(12))
        && total == tempo_offset.wrapping_add(tempos.wrapping_mul(16))
        && total as usize == bytes.len()
}

/// What an accepted score is like.
fn likes(score: &Score) -> Vec<&'static str> {
    let mut likes = vec![match score.pickup {
        None => "pickup absent",
        Some(Beat { num: 0, .. }) => "pickup zero",
        Some(Beat { num: ..0, .. }) => "pickup negative",
        Some(Beat { num: 1_000_000.., .. }) => "pickup of a million and more",
        Some(Beat { den, .. }) if den % 3 == 0 => "pickup in thirds",
        Some(_) => "pickup another",
    }];
    likes.push(match score.meters.len() {
        0 => "meter points 0",
        1..=12 => "meter points 1 to 12",
        13..=254 => "meter points 13 to 254",
        255 => "meter points 255",
        _ => "meter points 256",
    });
    likes.push(match score.tempos.len() {
        0 => "tempo points 0",
        1..=12 => "tempo points 1 to 12",
        13..=1_022 => "tempo points 13 to 1,022",
        1_023 => "tempo points 1,023",
        _ => "tempo points 1,024",
    });
    let mut when = |holds: bool, name: &'static str| {
        if holds {
            likes.push(name);
        }
    };
    when(!score.meters.is_sorted_by(|a, b| a.bar < b.bar), "bars that do not ascend");
    when(score.meters.iter().any(|p| p.numerator == 0), "a numerator 0");
    when(score.meters.iter().any(|p| p.denominator == 0), "a denominator 0");
    when(score.meters.iter().any(|p| p.denominator == u32::MAX), "a denominator 2^32 - 1");
    when(!meter_map_problems(&score.meters).is_empty(), "a meter map with problems");
    when(!tempo_map_problems(&score.tempos).is_empty(), "a tempo map with problems");
    let tempos = || score.tempos.iter().map(|p| p.bpm).chain([score.bpm]);
    when(tempos().any(f32::is_nan), "a tempo that is a NaN");
    when(tempos().any(f32::is_infinite), "a tempo that is infinite");
    when(tempos().any(|bpm| bpm == 0.0), "a tempo 0");
    when(tempos().any(|bpm| bpm < 0.0), "a tempo below 0");
    when(tempos().any(|bpm| 0.0 < bpm && bpm < f32::MIN_POSITIVE), "a tempo that is subnormal");
    when(score.sheet().contains(" 9223372036854775807 "), "a start that saturated");
    when(score.sheet().contains(" 18446744073709551615\n"), "a frame that saturated");
    likes
}

impl Counts {
    fn count(&mut self, bytes: &[u8]) {
        self.files += 1;
        let broken = score::broken(bytes);
        match &broken[..] {
            [] => self.accepted += 1,
            [rule] => *self.alone.entry(*rule).or_default() += 1,
            several => several.iter().for_each(|rule| *self.beside.entry(*rule).or_default() += 1),
        }
        self.wrapped += u64::from(wraps(bytes, &broken));
        if broken == [Rule::Length] || broken == [Rule::Header] {
            self.lengths.insert(bytes.len());
        }
        for like in score::read(bytes).iter().flat_map(likes) {
            *self.like.entry(like).or_default() += 1;
        }
    }

    fn print(&self, out: &mut impl Write) -> io::Result<()> {
        writeln!(out, "{:>9}  {:>9}  rule", "alone", "beside")?;
        for (rule, name) in Rule::ALL {
            let of = |counts: &BTreeMap<Rule, u64>| counts.get(&rule).copied().unwrap_or(0);
            writeln!(out, "{:>9}  {:>9}  {name}", of(&self.alone), of(&self.beside))?;
        }
        writeln!(out, "{:>9}  {:>9}  counts whose points' bytes fit only past 2^32", "", self.wrapped)?;
        writeln!(out, "\n{:>9}  accepted, of these:", self.accepted)?;
        for (name, count) in &self.like {
            writeln!(out, "{count:>9}  {name}")?;
        }
        let missing: Vec<usize> = (0..score::HEADER_BYTES).filter(|n| !self.lengths.contains(n)).collect();
        writeln!(out, "\nheaders cut to {missing:?} bytes are missing")?;
        writeln!(out, "{} files, {} accepted, {} questions are none of op 70", self.files, self.accepted, self.others)
    }
}

fn main() -> io::Result<()> {
    let mut questions = Questions::new(io::stdin().lock());
    let sheet = form::find(0x70).expect("an op");
    let mut counts = Counts::default();
    loop {
        match questions.next()? {
            Next::Ask(0x70) => match Args::read(sheet, &questions.words) {
                Some(args) => counts.count(args.file(0)),
                None => counts.others += 1,
            },
            Next::Ask(_) | Next::Unknown => counts.others += 1,
            Next::End => break,
        }
    }
    counts.print(&mut io::stdout().lock())
}
