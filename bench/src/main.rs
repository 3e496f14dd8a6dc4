//! The original's side of the bench: `twin LAYER [CALL SIZE TURNS]` is the twin of the program `bench_LAYER`, row by row.
//! A layer is a module with the same rows, over the same inputs.

mod benching;
mod cues;
mod filler;
mod meter;
mod pattern;
mod problems;
mod tempo;
mod transport;
mod units;

use benching::Asked;

fn main() {
    let words: Vec<String> = std::env::args().skip(1).collect();
    let Some((layer, rest)) = words.split_first() else {
        eprintln!("usage: twin LAYER [CALL SIZE TURNS]");
        std::process::exit(2);
    };
    let asked = Asked::of(rest);
    match layer.as_str() {
        "units" => units::rows(&asked),
        "meter" => meter::rows(&asked),
        "tempo" => tempo::rows(&asked),
        "problems" => problems::rows(&asked),
        "transport" => transport::rows(&asked),
        "pattern" => pattern::rows(&asked),
        "cues" => cues::rows(&asked),
        "filler" => filler::rows(&asked),
        _ => {
            eprintln!("twin: no layer {layer}");
            std::process::exit(2);
        }
    }
}
