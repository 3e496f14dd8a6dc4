//! The score file and the sheet: document 01's example, each rule broken alone, and the files of examples/.

mod common;

use asking::examples;
use asking::score::{self, File, Rule, tempo_words};
use common::{ask, ask_words, beat, of};
use std::path::Path;

const SHEET: &str = "bar start frame
0 0 0
1 1 24000
2 5 120000
3 9 216000
4 13 312000
5 17 408000
6 21 504000
7 25 600000
";

fn bytes(words: &[u32]) -> Vec<u8> {
    words.iter().flat_map(|word| word.to_le_bytes()).collect()
}

#[test]
fn a_score_of_twelve_words_has_its_sheet() {
    let file = bytes(&[1, 48_000, 4, 0x42f0_0000, 1, 1, 0, 0, 48, 0, 48, 48]);
    assert_eq!(score::sheet(&file), SHEET);
    let line = SHEET.bytes().fold("0".to_string(), |line, byte| format!("{line} {byte:x}"));
    assert_eq!(ask(0x70, of().file(&file)), line);
    assert_eq!(ask(0x70, of().file(&file[..47])), "d 72 65 66 75 73 65 64 20 31 33 a");
}

/// A file with three points of each kind.
fn some() -> File {
    let meters = vec![[0, 3, 4], [1, 4, 4], [2, 7, 8]];
    let tempos = vec![tempo_words(beat(0, 1), 0), tempo_words(beat(1, 3), 0), tempo_words(beat(-7, 2), 0)];
    File::new(48_000, 4, 0, None, meters, tempos)
}

/// The rules that are broken when words of the header are set.
fn broken_by(words: &[(usize, u32)]) -> Vec<Rule> {
    let mut file = some();
    words.iter().for_each(|(word, value)| file.header[*word] = *value);
    score::broken(&file.bytes())
}

#[test]
fn each_rule_can_be_broken_alone() {
    assert_eq!(score::broken(&some().bytes()), []);
    assert_eq!(score::broken(&some().bytes()[..47]), [Rule::Header]);
    assert_eq!(broken_by(&[(0, 2)]), [Rule::Edition]);
    assert_eq!(broken_by(&[(5, 1)]), [Rule::AbsentLow]);
    assert_eq!(broken_by(&[(6, 1)]), [Rule::AbsentHigh]);
    assert_eq!(broken_by(&[(4, 4), (5, 2)]), [Rule::PickupLowest]);
    assert_eq!(broken_by(&[(4, 4), (5, 3)]), []);
    assert_eq!(score::broken(&some().bytes()[..131]), [Rule::Length]);
    for (at, den, rule) in [(0, 0, Rule::BeatDenominator), (1, 0, Rule::BeatDenominator), (0, 2, Rule::BeatLowest)] {
        let mut file = some();
        file.tempos[at][2] = den;
        assert_eq!(score::broken(&file.bytes()), [rule]);
    }
    let mut gaps = some();
    gaps.header[11] += 1;
    assert_eq!(score::broken(&[gaps.bytes(), vec![0]].concat()), [Rule::Total]);
    gaps.header[10] += 1;
    let with_gap = |at: usize| [&gaps.bytes()[..at], &[0], &gaps.bytes()[at..]].concat();
    assert_eq!(score::broken(&with_gap(84)), [Rule::TempoOffset]);
    gaps.header[8] += 1;
    let with_gap = |at: usize| [&gaps.bytes()[..at], &[0], &gaps.bytes()[at..]].concat();
    assert_eq!(score::broken(&with_gap(48)), [Rule::MeterOffset]);
    let mut many = some();
    many.meters.resize(257, [0, 4, 4]);
    many.lay_out();
    assert_eq!(score::broken(&many.bytes()), [Rule::Meters]);
    let mut many = some();
    many.tempos.resize(1_025, [0, 0, 1, 0]);
    many.lay_out();
    assert_eq!(score::broken(&many.bytes()), [Rule::Tempos]);
}

#[test]
fn a_file_has_its_words_and_its_limit() {
    assert_eq!(ask_words(0x70, &[]), "?");
    assert_eq!(ask_words(0x70, &[5, 0]), "?");
    assert_eq!(ask_words(0x70, &[4, 0, 0]), "?");
    assert_eq!(ask_words(0x70, &[u32::MAX, 0]), "?");
    let refused = "d 72 65 66 75 73 65 64 20 31 33 a";
    assert_eq!(ask_words(0x70, &[0]), refused);
    assert_eq!(ask_words(0x70, &[5, 0, 0]), refused);
    assert_eq!(ask(0x70, of().file(&vec![0; 65_536])), refused);
    assert_eq!(ask(0x70, of().file(&vec![0; 65_537])), "?");
}

#[test]
fn the_examples_are_as_they_are_made() {
    let folder = Path::new(env!("CARGO_MANIFEST_DIR")).join("../../../examples");
    for example in examples::all() {
        let read = |end: &str| std::fs::read(folder.join(format!("{}.{end}", example.name))).expect("an example");
        assert_eq!(read("score"), example.bytes, "{}", example.name);
        assert_eq!(read("sheet"), example.sheet().into_bytes(), "{}", example.name);
    }
}
