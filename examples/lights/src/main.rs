//! Bar lights of a looped cue, played in blocks of 64 and of 512 frames and as one run: the same
//! lights on the same frames, the same clock at the end, and the same report. `tools/link` builds
//! and runs it.

use std::process::ExitCode;

/// A clock's words, as `include/pulleybale.h` has them.
#[repr(C)]
#[derive(Clone, Copy, Default, PartialEq)]
struct Clock {
    rate: u64,
    bpm: u64,
    beats: u64,
    length: u64,
    position: u64,
    state: u64,
    looping: u64,
    loop_start: u64,
    loop_end: u64,
    pickup_num: i64,
    pickup_den: u64,
}

const PLAYING: u64 = 1;

unsafe extern "C" {
    fn pulleybale_fill_lines(
        clock: &Clock,
        meter: *const u32,
        meter_len: usize,
        nums: *const i64,
        nums_len: usize,
        dens: *const u32,
        dens_len: usize,
        tempos: *const u32,
        tempos_len: usize,
        lines: *mut u64,
        lines_len: usize,
    ) -> u32;

    fn pulleybale_cues(
        clock: &mut Clock,
        lines: *const u64,
        lines_len: usize,
        frames: u64,
        cues: *mut u64,
        cues_len: usize,
        count: &mut u64,
        report: &mut u32,
    ) -> u32;
}

/// The refusal's number, where a call refuses.
fn answer(number: u32) -> Result<(), u32> {
    if number == 0 { Ok(()) } else { Err(number) }
}

/// The lines of a clock whose own meter and tempo are in force: both maps are empty.
fn fill_lines(clock: &Clock, lines: &mut [u64]) -> Result<(), u32> {
    let (words, nums): ([u32; 0], [i64; 0]) = ([], []);
    // SAFETY: each pointer comes with its list's own length, and only `lines` is written.
    answer(unsafe {
        pulleybale_fill_lines(
            clock,
            words.as_ptr(),
            0,
            nums.as_ptr(),
            0,
            words.as_ptr(),
            0,
            words.as_ptr(),
            0,
            lines.as_mut_ptr(),
            lines.len(),
        )
    })
}

/// How many cues a block has, and what it reports; the cues are written to `cues`.
fn cue(clock: &mut Clock, lines: &[u64], frames: u64, cues: &mut [u64]) -> Result<(usize, u32), u32> {
    let (mut count, mut report) = (0, 0);
    // SAFETY: each pointer comes with its list's own length, and what is written is borrowed alone.
    answer(unsafe {
        pulleybale_cues(
            clock,
            lines.as_ptr(),
            lines.len(),
            frames,
            cues.as_mut_ptr(),
            cues.len(),
            &mut count,
            &mut report,
        )
    })?;
    Ok((count as usize, report))
}

/// A run that was played: its lights, each a frame and a bar, the clock at the end, and what some
/// block reported.
struct Played {
    lights: Vec<(u64, u64)>,
    end: (Clock, u32),
}

/// So many frames, `block` at a time, from the clock's position on.
fn play(mut clock: Clock, lines: &[u64], run: u64, block: u64) -> Result<Played, u32> {
    let mut lights = Vec::new();
    let mut cues = [0; 128];
    let (mut gone, mut reports) = (0, 0);
    while gone < run {
        let frames = block.min(run - gone);
        let (count, report) = cue(&mut clock, lines, frames, &mut cues)?;
        lights.extend(cues.chunks(2).take(count).map(|cue| (gone + cue[0], cue[1])));
        reports |= report;
        gone += frames;
    }
    Ok(Played { lights, end: (clock, reports) })
}

/// Whether all blocks have the lights, the clock and the report of the whole run.
fn show() -> Result<bool, u32> {
    let mut clock = Clock {
        rate: 48_000,
        bpm: 120.0_f32.to_bits().into(),
        beats: 4,
        length: 696_000,
        pickup_num: 1,
        pickup_den: 1,
        ..Clock::default()
    };
    let mut lines = [0; 8];
    fill_lines(&clock, &mut lines)?;

    // from bar 2 on, three bars over and over
    clock.state = PLAYING;
    clock.looping = 1;
    clock.loop_start = lines[2];
    clock.loop_end = lines[5];

    let run = 768_000;
    let whole = play(clock, &lines, run, run)?;
    println!("frame bar");
    for (frame, bar) in &whole.lights {
        println!("{frame} {bar}");
    }
    let mut alike = true;
    for block in [64, 512] {
        let cut = play(clock, &lines, run, block)?;
        let (lights, end) = (cut.lights == whole.lights, cut.end == whole.end);
        println!(
            "blocks of {block}: {}, {}",
            if lights { "the same lights" } else { "OTHER LIGHTS" },
            if end { "the same clock and report" } else { "ANOTHER CLOCK OR REPORT" }
        );
        alike &= lights && end;
    }
    Ok(alike)
}

fn main() -> ExitCode {
    match show() {
        Ok(true) => ExitCode::SUCCESS,
        Ok(false) => ExitCode::FAILURE,
        Err(number) => {
            eprintln!("refused {number}");
            ExitCode::FAILURE
        }
    }
}
