//! 14 and 23: the problems of a meter map and of a tempo map. The originals tell a problem by its path and its text;
//! here it becomes a record of a code, an index and a value.

use super::Answer;
use super::maps::{points, tempos, tested_tempo};
use crate::args::Args;
use crate::refusal;
use tono_core::dsl::bounds::{MapProblem, tempo_map_problems};
use tono_core::song::meter_map_problems;

pub fn call(op: u32, args: &Args, lent: &mut [u64]) -> Answer {
    let records: Vec<[u64; 3]> = if op == 0x14 {
        let words = args.words(1);
        refusal::meter_short(words)?;
        meter_map_problems(&points(words)).iter().map(meter_record).collect()
    } else {
        let tempo = tested_tempo(args, 1)?;
        tempo_map_problems(&tempos(tempo)).iter().map(|problem| tempo_record(problem, &tempo.bpms)).collect()
    };
    refusal::room(records.len(), lent.len() / 3)?;
    for (to, record) in lent.chunks_exact_mut(3).zip(&records) {
        to.copy_from_slice(record);
    }
    Ok(vec![records.len() as u64])
}

/// The number in a path's brackets.
fn index(problem: &MapProblem) -> u64 {
    let inside = problem.path.split(['[', ']']).nth(1);
    inside.and_then(|text| text.parse().ok()).unwrap_or_else(|| panic!("no index in {}", problem.path))
}

/// The number at the end of a problem's text.
fn last_number(problem: &MapProblem) -> u64 {
    let last = problem.message.rsplit(' ').next();
    last.and_then(|text| text.parse().ok()).unwrap_or_else(|| panic!("no number ends {:?}", problem.message))
}

/// Whether the problem is that of the first point.
fn is_first(problem: &MapProblem) -> bool {
    problem.message.contains("first point must be")
}

fn meter_record(problem: &MapProblem) -> [u64; 3] {
    let field = problem.path.rsplit('.').next().unwrap_or("");
    match field {
        "meter_map" => [1, 0, last_number(problem)],
        "bar" if is_first(problem) => [2, 0, 0],
        "numerator" => [3, index(problem), 0],
        "denominator" => [4, index(problem), last_number(problem)],
        "bar" => [5, index(problem), 0],
        _ => panic!("no meter problem has the path {}", problem.path),
    }
}

fn tempo_record(problem: &MapProblem, bpms: &[u32]) -> [u64; 3] {
    let field = problem.path.rsplit('.').next().unwrap_or("");
    match field {
        "tempo_map" => [6, 0, last_number(problem)],
        "at" if is_first(problem) => [7, 0, 0],
        "bpm" => [8, index(problem), u64::from(bpms[index(problem) as usize])],
        "at" => [9, index(problem), 0],
        _ => panic!("no tempo problem has the path {}", problem.path),
    }
}
