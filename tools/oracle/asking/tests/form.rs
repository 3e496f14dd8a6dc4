//! What is no question, the limits of lists, and the order of the refusals.

mod common;

use asking::args::{Tempo, Transport};
use asking::form::{OPS, parse_ops};
use asking::generate;
use asking::question::{Next, Questions};
use common::{ask, ask_words, beat, no_tempo, of, playing};

#[test]
fn words_too_few_or_too_many_are_no_question() {
    assert_eq!(ask_words(0x01, &[1, 0]), "?");
    assert_eq!(ask_words(0x01, &[1, 0, 2, 3]), "?");
    assert_eq!(ask_words(0x01, &[]), "?");
    assert_eq!(ask_words(0x0a, &[1, 0, 2]), "?");
    assert_eq!(ask_words(0x10, &[4, 0, 3, 1, 2]), "?");
    assert_eq!(ask_words(0x10, &[4, 0, u32::MAX, 1, 2]), "?");
}

#[test]
fn states_and_flags_have_their_values() {
    let good = of().transport(&Transport { looped: Some((1, 2)), pickup: Some(beat(1, 1)), ..playing(9) }).0;
    assert_eq!(good.len(), 17);
    assert!(ask_words(0x32, &good).starts_with("0 "));
    for (at, bad) in [(7, 3), (8, 2), (13, 2)] {
        let mut words = good.clone();
        words[at] = bad;
        assert_eq!(ask_words(0x32, &words), "?");
    }
}

#[test]
fn outputs_and_lists_have_their_limits() {
    assert!(ask(0x14, of().u32(65_540).u32(0)).starts_with("0 0 a5000000 "));
    assert_eq!(ask(0x14, of().u32(65_541).u32(0)), "?");
    let lines = |count: u64| ask(0x52, of().u64(0).u64(0).longs((0..count as usize).map(|k| k as u64)));
    assert_eq!(lines(65_536), "0 0");
    assert_eq!(lines(65_537), "4");
    assert_eq!(lines(65_538), "?");
    let meter = |points: usize| ask(0x10, of().u32(0).u32(0).words(&vec![7; 3 * points]));
    assert_eq!(meter(65_536), "0 0 1 4");
    assert_eq!(meter(65_537), "4");
    assert_eq!(meter(65_538), "?");
    let notes = |count: usize| ask(0x67, of().u32(1).u32(1).u32(0).words(&vec![7; 4 * count]));
    assert_eq!(notes(4_096), "8");
    assert_eq!(notes(4_097), "4");
}

/// The lines that a stream of bytes is answered by.
fn lines(bytes: &[u8]) -> Vec<String> {
    let mut questions = Questions::new(bytes);
    let mut lines = Vec::new();
    loop {
        lines.push(match questions.next().expect("bytes") {
            Next::Ask(op) => ask_words(op, &questions.words),
            Next::Unknown => "?".to_string(),
            Next::End => return lines,
        });
    }
}

fn bytes(words: &[u32]) -> Vec<u8> {
    words.iter().flat_map(|word| word.to_le_bytes()).collect()
}

#[test]
fn a_question_that_is_cut_is_answered_once() {
    let whole = bytes(&[0x01, 3, 6, 0, 8, 0x01, 3, 6, 0, 8]);
    assert_eq!(lines(&whole), ["0 3 4", "0 3 4"]);
    for cut in 1..20 {
        assert_eq!(lines(&whole[..40 - cut]), ["0 3 4", "?"]);
    }
    assert_eq!(lines(&whole[..20]), ["0 3 4"]);
    assert!(lines(&[]).is_empty());
}

#[test]
fn a_question_that_is_too_large_is_let_pass() {
    let mut words = vec![0x01, 262_401];
    words.extend(vec![0; 262_401]);
    words.extend([0x01, 3, 6, 0, 8]);
    assert_eq!(lines(&bytes(&words)), ["?", "0 3 4"]);
    assert_eq!(lines(&bytes(&[0x01, u32::MAX, 1, 2, 3])), ["?"]);
}

#[test]
fn refusals_come_in_their_order() {
    let uneven = Tempo { nums: vec![0], dens: vec![0], bpms: vec![] };
    let unsound = Transport { position: 10, ..playing(9) };
    let at = |t: &Transport, tempo: &Tempo| ask(0x45, of().transport(t).tempo(tempo));
    assert_eq!(at(&unsound, &uneven), "c");
    assert_eq!(at(&playing(9), &uneven), "3");
    let no_beat = Tempo { nums: vec![0], dens: vec![0], bpms: vec![0] };
    assert_eq!(at(&playing(9), &no_beat), "1");
    assert_eq!(at(&playing(9), &no_tempo()), "0 0");
    // 1 comes before 5, which a walk alone has
    assert_eq!(ask(0x20, of().u64(0).tempo(&no_tempo())), "5");
    assert_eq!(ask(0x20, of().u64(0).tempo(&no_beat)), "1");
    // a pickup is tested where the call does not look at it, and one that is absent is not
    assert_eq!(ask(0x11, of().u32(4).pickup(Some(beat(2, 2))).u32(7).words(&[])), "1");
    assert_eq!(ask(0x11, of().u32(4).pickup(None).u32(7).words(&[])), "0 4 1");
}

#[test]
fn a_refused_move_hands_the_transport_back() {
    let t = Transport { bpm: 0xff80_0001, looped: Some((5, 5)), ..playing(9) };
    assert_eq!(ask(0x39, of().transport(&t).u64(0).u64(1)), "c bb80 7fc00000 4 9 0 1 1 5 5 0 0 0");
    assert_eq!(ask(0x39, of().transport(&playing(9)).u64(0).u64(10)), "9 bb80 42f00000 4 9 0 1 0 0 0 0 0 0");
    // a constructor has none to hand back
    assert_eq!(ask(0x31, of().u32(1).u32(0).u32(0).u64(9).pickup(Some(beat(0, 2)))), "1");
    assert_eq!(ask(0x31, of().u32(1).u32(0).u32(0).u64(9).pickup(None)), "0 1 0 1 9 0 0 0 0 0 0 0 0");
    assert_eq!(ask(0x30, of().u32(1).u32(0x8000_0000).u32(7)), "0 1 80000000 7 ffffffffffffffff 0 0 0 0 0 0 0 0");
}

#[test]
fn a_next_bar_may_be_out_of_reach() {
    let t = Transport { rate: 1, bpm: 60.0f32.to_bits(), position: 1 << 40, ..playing(u64::MAX) };
    let next = |every: u32| ask(0x44, of().transport(&t).u32(every).words(&[]).tempo(&no_tempo()));
    assert_eq!(next(2), "a");
    assert_eq!(next(1), "0 3fffffffc");
}

#[test]
fn repeated_steps_saturate_past_64_bits() {
    let asked = of().u32(u32::MAX).u32(u32::MAX).u32(3).u32(12).words(&[1, 2, 3, 4]);
    assert_eq!(ask(0x60, asked), "0 3 ffffffff 1 2 3 4 ffffffff 2 3 4 ffffffff 2 3 4");
}

#[test]
fn the_same_seed_gives_the_same_questions() {
    let ops: Vec<_> = OPS.iter().collect();
    let some = |seed: u64| generate::questions(seed, 530, &ops).collect::<Vec<_>>();
    assert_eq!(some(1).len(), 530);
    assert_eq!(some(1), some(1));
    assert_ne!(some(1), some(2));
    // a question does not depend on the ops beside it
    let lone = parse_ops("13").expect("an op");
    let place = OPS.iter().position(|op| op.number == 0x13).expect("an op");
    let alone: Vec<_> = generate::questions(1, 10, &lone).collect();
    assert!((0..10).all(|turn| alone[turn] == some(1)[turn * OPS.len() + place]));
}

#[test]
fn ops_are_listed_in_hexadecimal() {
    let numbers = |list: &str| parse_ops(list).map(|ops| ops.iter().map(|op| op.number).collect::<Vec<_>>());
    assert_eq!(numbers("09-11"), Ok(vec![0x09, 0x10, 0x11]));
    assert_eq!(numbers("13,20-22"), Ok(vec![0x13, 0x20, 0x21, 0x22]));
    assert!(numbers("0a").is_err());
    assert!(numbers("x").is_err());
}

#[test]
fn no_question_makes_the_original_panic() {
    let ops: Vec<_> = OPS.iter().collect();
    for question in generate::questions(7, 5_300, &ops) {
        assert_ne!(ask_words(question[0], &question[2..]), "panic", "{question:?}");
    }
}
