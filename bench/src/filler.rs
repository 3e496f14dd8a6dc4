//! The twin of crates/bench_filler, which says what each row is. The original has no line filler: the twin asks its
//! transport for the frame of each bar.

use crate::benching::{Asked, mixed};
use crate::meter::map as meter_map;
use crate::tempo::map as tempo_map;
use crate::transport::clock;
use std::hint::black_box;

pub fn rows(asked: &Asked) {
    let (meter, tempo) = (meter_map(), tempo_map());
    asked.row_or(5000, "empty", "any", |k, _| k as u64);

    for (call, points, sizes) in [
        ("fill-256", 64, [("8", 1000), ("4096", 5), ("32768", 1), ("65536", 1)]),
        ("fill-1024", 256, [("8", 1000), ("4096", 1), ("32768", 0), ("65536", 0)]),
    ] {
        let t = clock(None, &meter[..points], &tempo[..4 * points]);
        for (size, few) in sizes {
            let mut lines = vec![0; size.parse().expect("a number of lines")];
            asked.row_or(few, call, size, |_, _| {
                // the inputs of a turn are those of the last: what the turn does is not to be known beforehand
                let t = black_box(&t);
                for (line, bar) in lines.iter_mut().zip(0..) {
                    *line = t.frame_at_bar(bar);
                }
                lines.iter().fold(0, |sum, line| mixed(sum, *line))
            });
        }
    }
}
