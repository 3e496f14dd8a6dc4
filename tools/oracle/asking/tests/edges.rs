//! The worked examples of the rules, both sides of each edge, asked as questions.

mod common;

use asking::args::Transport;
use common::{ask, beat, no_tempo, of, playing};
use tono_core::units::Beat;

#[test]
fn beats_are_reduced() {
    assert_eq!(ask(0x01, of().i64(6).u32(8)), "0 3 4");
    assert_eq!(ask(0x01, of().i64(0).u32(7)), "0 0 1");
    assert_eq!(ask(0x01, of().i64(5).u32(0)), "0 5 1");
    assert_eq!(ask(0x01, of().i64(i64::MIN).u32(1 << 31)), "0 ffffffff00000000 1");
}

#[test]
fn a_sum_is_tested_before_it_is_reduced() {
    assert_eq!(ask(0x02, of().beat(beat(1, 65_536)).beat(beat(1, 65_536))), "2");
    // 131071/4294901760
    assert_eq!(ask(0x02, of().beat(beat(1, 65_535)).beat(beat(1, 65_536))), "0 1ffff ffff0000");
    assert_eq!(ask(0x03, of().beat(beat(1, 2)).beat(beat(2, 3))), "0 ffffffffffffffff 6");
    assert_eq!(ask(0x05, of().beat(beat(i64::MIN, 1)).i64(-1)), "2");
    assert_eq!(ask(0x04, of().beat(beat(3, 4)).i64(8).u32(0)), "0 18 1");
}

#[test]
fn order_is_signed() {
    assert_eq!(ask(0x06, of().beat(beat(-1, 2)).beat(beat(-1, 3))), "0 0");
    assert_eq!(ask(0x06, of().beat(beat(-1, 3)).beat(beat(-1, 2))), "0 2");
    assert_eq!(ask(0x06, of().beat(beat(2, 3)).beat(beat(2, 3))), "0 1");
}

#[test]
fn numbers_that_are_no_beat_are_refused() {
    for bad in [beat(1, 0), beat(2, 4), beat(0, 3), beat(0, 0), beat(i64::MIN, 2)] {
        assert_eq!(ask(0x02, of().beat(bad).beat(beat(1, 1))), "1");
        assert_eq!(ask(0x03, of().beat(beat(1, 1)).beat(bad)), "1");
        assert_eq!(ask(0x04, of().beat(bad).i64(1).u32(1)), "1");
        assert_eq!(ask(0x07, of().beat(bad)), "1");
        assert_eq!(ask(0x08, of().beat(bad).u32(0x4270_0000).u32(1)), "1");
        assert_eq!(ask(0x09, of().beat(bad).u32(4)), "1");
    }
    // the factor is no beat, and need not be in lowest terms
    assert_eq!(ask(0x04, of().beat(beat(1, 3)).i64(2).u32(4)), "0 1 6");
}

#[test]
fn frames_round_half_away_from_zero() {
    let sixty = 60.0f32.to_bits();
    let frames = |at: Beat, rate: u32| ask(0x08, of().beat(at).u32(sixty).u32(rate));
    assert_eq!(frames(beat(1, 2), 1), "0 1");
    assert_eq!(frames(beat(5, 2), 1), "0 3");
    assert_eq!(frames(beat(-5, 2), 1), "0 0");
    // 1/98 times 49 is 0.49999999999999994
    assert_eq!(frames(beat(1, 98), 49), "0 0");
    assert_eq!(frames(beat(i64::MAX, 1), u32::MAX), "0 ffffffffffffffff");
    // a NaN tempo, quiet or not, counts as 1
    for nan in [0x7fc0_0000, 0x7f80_0001, 0xffff_ffff] {
        assert_eq!(ask(0x08, of().beat(beat(1, 1)).u32(nan).u32(1)), "0 3c");
    }
}

#[test]
fn steps_stand_on_the_grid() {
    assert_eq!(ask(0x09, of().beat(beat(3, 4)).u32(4)), "0 3");
    assert_eq!(ask(0x09, of().beat(beat(1, 3)).u32(4)), "7 3 0 0");
    assert_eq!(ask(0x09, of().beat(beat(-3, 1)).u32(4)), "0 0");
    assert_eq!(ask(0x09, of().beat(beat(1 << 32, 1)).u32(0)), "0 ffffffff");
    assert_eq!(ask(0x09, of().beat(beat(i64::MAX, 1)).u32(u32::MAX)), "0 ffffffff");
}

/// The count at a beat, four in a bar and no meter points.
fn count(pickup: Option<Beat>, at: Beat) -> String {
    ask(0x13, of().u32(4).pickup(pickup).beat(at).words(&[]))
}

#[test]
fn bars_are_counted() {
    let one = Some(beat(1, 1));
    assert_eq!(count(one, beat(0, 1)), "0 0");
    assert_eq!(count(one, beat(1, 1)), "0 1");
    assert_eq!(count(one, beat(9, 1)), "0 3");
    assert_eq!(count(one, beat(28, 3)), "0 4");
    assert_eq!(count(Some(beat(0, 1)), beat(1, 2)), "0 2");
    assert_eq!(count(None, beat(8_589_934_592, 1)), "0 80000000");
    assert_eq!(count(None, beat(8_589_934_593, 1)), "0 ffffffff");
}

#[test]
fn the_example_of_the_form() {
    let words = [4, 1, 1, 0, 1, 0x1c, 0, 3, 0];
    assert_eq!(common::ask_words(0x13, &words), "0 4");
}

#[test]
fn a_walk_that_does_not_fit_saturates() {
    let start = |bar: u32| ask(0x12, of().u32(4).pickup(Some(beat(1, 1 << 30))).u32(bar).words(&[0, 5, 64]));
    assert_eq!(start(2), "0 7fffffffffffffff 1");
    // 5 + 1/2^30
    assert_eq!(start(17), "0 140000001 40000000");
}

#[test]
fn meter_problems() {
    let at = |denominator: u32| ask(0x14, of().u32(3).u32(1).u32(0).u32(4).u32(denominator));
    assert_eq!(at(1), "0 0 a5000000 a5000001 a5000002");
    assert_eq!(at(64), "0 0 a5000000 a5000001 a5000002");
    assert_eq!(at(128), "0 1 4 0 80");
    assert_eq!(at(0), "0 1 4 0 0");
    let all = of().u32(20).u32(2).u32(3).u32(0).u32(4).u32(3).u32(0).u32(3);
    let line = "0 5 2 0 0 3 0 0 3 1 0 4 1 3 5 1 0 a500000f a5000010 a5000011 a5000012 a5000013";
    assert_eq!(ask(0x14, all), line);
    let short = of().u32(2).u32(1).u32(0).u32(4).u32(3);
    assert_eq!(ask(0x14, short), "8 a5000000 a5000001");
}

/// Loop 100..300 in a length of 1000.
fn looped(position: u64) -> Transport {
    Transport { position, looped: Some((100, 300)), ..playing(1000) }
}

#[test]
fn a_loop_wraps_also_at_no_frames() {
    let line = "0 bb80 42f00000 4 3e8 96 1 1 64 12c 0 0 0 1 0";
    assert_eq!(ask(0x3b, of().transport(&looped(350)).u64(0)), line);
    assert_eq!(ask(0x3c, of().transport(&looped(350)).u64(0)), line);
    let end = Transport { position: 900, ..playing(1000) };
    assert_eq!(ask(0x3b, of().transport(&end).u64(100)), "0 bb80 42f00000 4 3e8 3e8 0 0 0 0 0 0 0 0 1");
}

#[test]
fn cues_sound_at_each_line() {
    let lines = [0, 100, 200, 300];
    let asked = of().transport(&looped(250)).u64(300).u32(7).longs(lines.into_iter());
    // (50, 1) (150, 2) (250, 1), at 150
    assert_eq!(ask(0x50, asked), "0 bb80 42f00000 4 3e8 96 1 1 64 12c 0 0 0 1 0 3 32 1 96 2 fa 1 a5000006");
    let short = of().transport(&looped(250)).u64(300).u32(5).longs(lines.into_iter());
    let back = "8 bb80 42f00000 4 3e8 fa 1 1 64 12c 0 0 0 a5000000 a5000001 a5000002 a5000003 a5000004";
    assert_eq!(ask(0x50, short), back);
    let descends = of().transport(&looped(250)).u64(300).u32(0).longs([2, 1].into_iter());
    assert_eq!(ask(0x50, descends), "b bb80 42f00000 4 3e8 fa 1 1 64 12c 0 0 0");
    let far = of().transport(&looped(250)).u64(u64::MAX - 249).u32(0).longs([].into_iter());
    assert_eq!(ask(0x50, far), "a bb80 42f00000 4 3e8 fa 1 1 64 12c 0 0 0");
    let still = Transport { state: 2, ..looped(250) };
    let paused = of().transport(&still).u64(u64::MAX).u32(0).longs([].into_iter());
    assert_eq!(ask(0x50, paused), "0 bb80 42f00000 4 3e8 fa 2 1 64 12c 0 0 0 0 0 0");
}

#[test]
fn lines_are_filled_and_cut_out() {
    let t = Transport { pickup: Some(beat(1, 1)), ..playing(u64::MAX) };
    let asked = of().transport(&t).u32(4).words(&[]).tempo(&no_tempo());
    assert_eq!(ask(0x51, asked), "0 0 5dc0 1d4c0 34bc0");
    let range = |start: u64, end: u64| ask(0x52, of().u64(start).u64(end).longs([1, 3, 3, 7].into_iter()));
    assert_eq!(range(3, 7), "0 2 3 3");
    assert_eq!(range(7, 3), "0 0");
    assert_eq!(ask(0x52, of().u64(7).u64(3).longs([2, 1].into_iter())), "b");
}

/// A note of gain 1.
fn note(step: u32, len: u32, tag: u32) -> [u32; 4] {
    [step, len, 0x3f80_0000, tag]
}

#[test]
fn rhythms() {
    let three = of().u32(3).u32(8).u32(9).u32(0).u32(16).u32(12);
    assert_eq!(ask(0x6a, three), "0 3 1 0 1 3f800000 9 3 1 3f800000 9 6 1 3f800000 9");
    assert_eq!(ask(0x6a, of().u32(0).u32(8).u32(9).u32(1).u32(16).u32(0)), "0 0 1");
    assert_eq!(ask(0x6a, of().u32(9).u32(8).u32(9).u32(1).u32(16).u32(0)), "6");
    let triplet = of().u32(3).u32(4).u32(9).u32(2).u32(12);
    assert_eq!(ask(0x6b, triplet), "0 3 1 0 2 3f800000 9 1 2 3f800000 9 3 2 3f800000 9");
}

#[test]
fn a_bar_turned_and_mirrored() {
    let turned = of().u32(1).i64(-1).u32(16).u32(4).words(&note(0, 4, 7));
    assert_eq!(ask(0x65, turned), "0 1 1 f 4 3f800000 7");
    let mirrored = of().u32(1).u32(16).u32(4).words(&note(14, 4, 7));
    assert_eq!(ask(0x66, mirrored), "0 1 1 0 4 3f800000 7");
}

#[test]
fn a_gate_rounds_half_away_from_zero() {
    let notes = [note(0, 1, 0), note(0, 3, 1), note(0, 5, 2)].concat();
    let line = ask(0x69, of().u32(1).u32(0.5f32.to_bits()).u32(12).words(&notes));
    assert_eq!(line, "0 3 1 0 1 3f800000 0 0 2 3f800000 1 0 3 3f800000 2");
}

#[test]
fn a_stretch_tells_what_is_off_the_grid() {
    let stretch = |bars: u32, notes: &[u32]| ask(0x64, of().u32(bars).u32(1).u32(2).u32(16).u32(0).words(notes));
    assert_eq!(stretch(3, &[]), "7 0 0 3");
    assert_eq!(stretch(2, &[note(2, 2, 0xffff_ffff), note(5, 2, 1)].concat()), "7 1 1 5");
    assert_eq!(stretch(2, &[note(2, 7, 0x22)].concat()), "7 2 0 7");
    assert_eq!(ask(0x64, of().u32(3).u32(0).u32(2).u32(16).u32(1).words(&[])), "6 a5000000");
}
