//! The twin of crates/bench_problems, which says what each row is. The original tells a problem by its path and its text,
//! and making them is part of what its calls cost. A turn reads one of them back as the record that document 01 has.

use crate::benching::{Asked, place};
use crate::meter::map as meter_map;
use crate::tempo::map as tempo_map;
use std::hint::black_box;
use tono_core::dsl::TempoPoint;
use tono_core::dsl::bounds::{MapProblem, tempo_map_problems};
use tono_core::song::meter_map_problems;
use tono_core::units::{Beat, MeterPoint};

/// The turns of a row that nobody asked by name.
const FEW: u64 = 1000;

/// The code, index and value of a point's problem. No map here has a problem of its own, as too many points.
fn record(problem: &MapProblem) -> [u32; 3] {
    let (point, field) = problem.path.split_once("].").expect("the problem of a point");
    let index = point.split_once('[').and_then(|(_, text)| text.parse().ok()).expect("an index");
    let last = problem.message.rsplit(' ').next().unwrap_or("");
    match field {
        "numerator" => [3, index, 0],
        "denominator" => [4, index, last.parse().expect("a denominator")],
        "bar" => [5, index, 0],
        "bpm" => [8, index, last.parse::<f32>().expect("a tempo").to_bits()],
        "at" => [9, index, 0],
        _ => panic!("no point has a problem at {}", problem.path),
    }
}

/// The count of the problems, and the word at an index of their records, or 0 behind them.
fn word(problems: &[MapProblem], at: usize) -> u64 {
    let written = problems.get(at / 3).map_or(0, |problem| record(problem)[at % 3]);
    (problems.len() as u64) << 48 ^ u64::from(written) << 16
}

/// The rows of a call, for each size. The inputs of a turn are those of the last: what the turn does is not to be known
/// beforehand.
fn sizes<T>(asked: &Asked, call: &str, sizes: [&str; 3], map: &[T], problems: impl Fn(&[T]) -> Vec<MapProblem>) {
    for size in sizes {
        let map = &map[..size.parse().expect("a number of points")];
        asked.row_or(FEW, call, size, |k, _| {
            let at = place(k);
            word(&problems(black_box(map)), at) ^ at as u64
        });
    }
}

pub fn rows(asked: &Asked) {
    asked.row_or(FEW, "empty", "any", |k, _| place(k) as u64);
    let (meter, tempo) = (["16", "128", "256"], ["64", "512", "1024"]);
    sizes(asked, "meter-sound", meter, &meter_map(), meter_map_problems);
    sizes(asked, "tempo-sound", tempo, &tempo_map(), tempo_map_problems);
    let wrong = vec![MeterPoint { bar: 0, numerator: 0, denominator: 0 }; 256];
    sizes(asked, "meter-wrong", meter, &wrong, meter_map_problems);
    let wrong = vec![TempoPoint { at: Beat::zero(), bpm: -120.0 }; 1024];
    sizes(asked, "tempo-wrong", tempo, &wrong, tempo_map_problems);
}
