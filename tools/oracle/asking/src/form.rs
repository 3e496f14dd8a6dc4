//! The table of ops: number, name, what is asked, and whether the call hands a transport back when it is refused.

use Kind::*;

/// The most words behind a question's op and count.
pub const MOST_WORDS: usize = 262_400;
/// The most elements of a list. An element of a meter map is a point, of every other list a number.
pub const MOST_LIST: usize = 65_537;
/// The most elements of a lent output.
pub const MOST_ROOM: usize = 65_540;
/// The most bytes of a file.
pub const MOST_FILE: usize = 65_536;
/// What element 0 of a lent output is before the call; element k is this and k.
pub const MARK: u64 = 0xA500_0000;

/// How an argument is written.
#[derive(Debug, Clone, Copy, PartialEq, Eq)]
pub enum Kind {
    U32,
    U64,
    I64,
    F32,
    F64,
    Beat,
    Pickup,
    /// The elements that the lent output has.
    Room,
    /// The flat words of a meter map.
    Meter,
    /// A count of meter points, and the points.
    Points,
    /// The flat words of a list of notes.
    Notes,
    /// Bar lines, in frames.
    Lines,
    /// A tempo map, as three lists.
    Tempo,
    Transport,
    /// A count of bytes, and the bytes, four a word.
    File,
}

#[derive(Debug)]
pub struct Op {
    pub number: u32,
    pub name: &'static str,
    pub asked: &'static [(&'static str, Kind)],
    pub hands_back: bool,
}

const fn op(number: u32, name: &'static str, asked: &'static [(&'static str, Kind)]) -> Op {
    Op { number, name, asked, hands_back: false }
}

const fn moves(number: u32, name: &'static str, asked: &'static [(&'static str, Kind)]) -> Op {
    Op { number, name, asked, hands_back: true }
}

/// Every op, in the order of the numbers.
pub const OPS: &[Op] = &[
    op(0x01, "Beat::new", &[("num", I64), ("den", U32)]),
    op(0x02, "checked_add", &[("a", Beat), ("b", Beat)]),
    op(0x03, "checked_sub", &[("a", Beat), ("b", Beat)]),
    op(0x04, "mul_rational", &[("a", Beat), ("num", I64), ("den", U32)]),
    op(0x05, "scale", &[("a", Beat), ("factor", I64)]),
    op(0x06, "cmp", &[("a", Beat), ("b", Beat)]),
    op(0x07, "to_f64", &[("a", Beat)]),
    op(0x08, "beat_to_frames", &[("beat", Beat), ("bpm", F32), ("rate", U32)]),
    op(0x09, "beat_to_step", &[("beat", Beat), ("steps_per_beat", U32)]),
    op(0x10, "meter_at", &[("default", U32), ("bar", U32), ("meter", Meter)]),
    op(0x11, "bar_len", &[("default", U32), ("pickup", Pickup), ("bar", U32), ("meter", Meter)]),
    op(0x12, "beat_at_bar", &[("default", U32), ("pickup", Pickup), ("bar", U32), ("meter", Meter)]),
    op(0x13, "bar_count_at_beat", &[("default", U32), ("pickup", Pickup), ("beat", Beat), ("meter", Meter)]),
    op(0x14, "meter_map_problems", &[("room", Room), ("points", Points)]),
    op(0x20, "tempo_map_seconds_at", &[("beat", F64), ("tempo", Tempo)]),
    op(0x21, "tempo_map_bpm_at", &[("beat", F64), ("tempo", Tempo)]),
    op(0x22, "tempo_map_beat_at_seconds", &[("seconds", F64), ("tempo", Tempo)]),
    op(0x23, "tempo_map_problems", &[("room", Room), ("tempo", Tempo)]),
    op(0x30, "constant", &[("rate", U32), ("bpm", F32), ("beats_per_bar", U32)]),
    op(
        0x31,
        "with_length",
        &[("rate", U32), ("bpm", F32), ("beats_per_bar", U32), ("length", U64), ("pickup", Pickup)],
    ),
    moves(0x32, "play", &[("transport", Transport)]),
    moves(0x33, "pause", &[("transport", Transport)]),
    moves(0x34, "stop", &[("transport", Transport)]),
    moves(0x35, "clear_loop", &[("transport", Transport)]),
    moves(0x36, "seek_frame", &[("transport", Transport), ("frame", U64)]),
    moves(0x37, "seek_beat", &[("transport", Transport), ("beat", F64), ("tempo", Tempo)]),
    moves(0x38, "seek_bar", &[("transport", Transport), ("bar", U32), ("meter", Meter), ("tempo", Tempo)]),
    moves(0x39, "set_loop_frames", &[("transport", Transport), ("start", U64), ("end", U64)]),
    moves(
        0x3a,
        "set_loop_bars",
        &[("transport", Transport), ("start", U32), ("end", U32), ("meter", Meter), ("tempo", Tempo)],
    ),
    moves(0x3b, "advance", &[("transport", Transport), ("frames", U64)]),
    moves(0x3c, "advance in place", &[("transport", Transport), ("frames", U64)]),
    op(0x40, "frame_at_beat", &[("transport", Transport), ("beat", F64), ("tempo", Tempo)]),
    op(0x41, "beat_at_frame", &[("transport", Transport), ("frame", U64), ("tempo", Tempo)]),
    op(0x42, "frame_at_bar", &[("transport", Transport), ("bar", U32), ("meter", Meter), ("tempo", Tempo)]),
    op(0x43, "next_beat", &[("transport", Transport), ("tempo", Tempo)]),
    op(0x44, "next_bar", &[("transport", Transport), ("every", U32), ("meter", Meter), ("tempo", Tempo)]),
    op(0x45, "position_beats", &[("transport", Transport), ("tempo", Tempo)]),
    op(0x46, "position_bars", &[("transport", Transport), ("meter", Meter), ("tempo", Tempo)]),
    moves(0x50, "cues", &[("transport", Transport), ("frames", U64), ("room", Room), ("lines", Lines)]),
    op(0x51, "fill_lines", &[("transport", Transport), ("room", Room), ("meter", Meter), ("tempo", Tempo)]),
    op(0x52, "lines_between", &[("start", U64), ("end", U64), ("lines", Lines)]),
    op(0x60, "repeat", &[("bars", U32), ("steps_per_bar", U32), ("times", U32), ("room", Room), ("notes", Notes)]),
    op(
        0x61,
        "concat",
        &[("bars_a", U32), ("bars_b", U32), ("steps_per_bar", U32), ("room", Room), ("a", Notes), ("b", Notes)],
    ),
    op(0x62, "layer", &[("bars_a", U32), ("bars_b", U32), ("room", Room), ("a", Notes), ("b", Notes)]),
    op(
        0x63,
        "slice",
        &[("bars", U32), ("start", U32), ("len", U32), ("steps_per_bar", U32), ("room", Room), ("notes", Notes)],
    ),
    op(
        0x64,
        "stretch",
        &[("bars", U32), ("num", U32), ("den", U32), ("steps_per_bar", U32), ("room", Room), ("notes", Notes)],
    ),
    op(0x65, "rotate", &[("bars", U32), ("shift", I64), ("steps_per_bar", U32), ("room", Room), ("notes", Notes)]),
    op(0x66, "reverse", &[("bars", U32), ("steps_per_bar", U32), ("room", Room), ("notes", Notes)]),
    op(0x67, "quantize", &[("bars", U32), ("grid", U32), ("room", Room), ("notes", Notes)]),
    op(0x68, "vel", &[("bars", U32), ("scale", F32), ("room", Room), ("notes", Notes)]),
    op(0x69, "gate", &[("bars", U32), ("factor", F32), ("room", Room), ("notes", Notes)]),
    op(
        0x6a,
        "euclidean",
        &[("pulses", U32), ("steps", U32), ("tag", U32), ("len", U32), ("steps_per_bar", U32), ("room", Room)],
    ),
    op(0x6b, "tuplet", &[("count", U32), ("in_steps", U32), ("tag", U32), ("len", U32), ("room", Room)]),
    op(0x70, "sheet", &[("file", File)]),
];

pub fn find(number: u32) -> Option<&'static Op> {
    OPS.iter().find(|op| op.number == number)
}

/// The ops of a list like `01-09` or `13,20-23`, in hexadecimal. A range passes over numbers that are no op; a number
/// that stands alone must be one.
pub fn parse_ops(list: &str) -> Result<Vec<&'static Op>, String> {
    let number = |text: &str| u32::from_str_radix(text, 16).map_err(|_| format!("{text:?} is no hexadecimal number"));
    let mut chosen = Vec::new();
    for part in list.split(',') {
        match part.split_once('-') {
            Some((low, high)) => {
                let (low, high) = (number(low)?, number(high)?);
                let before = chosen.len();
                chosen.extend(OPS.iter().filter(|op| low <= op.number && op.number <= high));
                if chosen.len() == before {
                    return Err(format!("no op is in {part}"));
                }
            }
            None => chosen.push(find(number(part)?).ok_or_else(|| format!("{part} is no op"))?),
        }
    }
    Ok(chosen)
}
