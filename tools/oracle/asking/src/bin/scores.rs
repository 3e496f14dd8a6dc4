//! The score files of examples/ and their sheets: `scores FOLDER` writes them there, NAME.score and NAME.sheet.
//!
//! `scores --questions [NAME [TIMES]]` writes them, or one of them so many times, as questions to standard output.
//! With `--refused` behind TIMES the file is the same but of edition 2, so that reading it is all there is to do.

use asking::examples::{self, Example};
use std::io::{self, BufWriter, Write};
use std::path::Path;
use std::process::ExitCode;

fn write_files(folder: &Path) -> io::Result<()> {
    for example in examples::all() {
        std::fs::write(folder.join(format!("{}.score", example.name)), &example.bytes)?;
        std::fs::write(folder.join(format!("{}.sheet", example.name)), example.sheet())?;
    }
    Ok(())
}

fn write_questions(list: &[Example], times: u64) -> io::Result<()> {
    let mut out = BufWriter::with_capacity(1 << 18, io::stdout().lock());
    for _ in 0..times {
        for example in list {
            for word in example.question() {
                out.write_all(&word.to_le_bytes())?;
            }
        }
    }
    out.flush()
}

/// The example of a name, or with another edition.
fn named(name: &str, refused: bool) -> Result<Example, String> {
    let mut list = examples::all().into_iter();
    let mut example = list.find(|example| example.name == name).ok_or(format!("{name} is no example"))?;
    if refused {
        *example.bytes.first_mut().ok_or(format!("{name} has no edition"))? = 2;
    }
    Ok(example)
}

fn run(words: &[&str]) -> Result<(), String> {
    let number = |text: &str| text.parse::<u64>().map_err(|_| format!("{text:?} is no number"));
    match words {
        ["--questions"] => write_questions(&examples::all(), 1),
        ["--questions", name] => write_questions(&[named(name, false)?], 1),
        ["--questions", name, times] => write_questions(&[named(name, false)?], number(times)?),
        ["--questions", name, times, "--refused"] => write_questions(&[named(name, true)?], number(times)?),
        [folder] if !folder.starts_with("--") => write_files(Path::new(folder)),
        _ => return Err("usage: scores FOLDER | scores --questions [NAME [TIMES [--refused]]]".into()),
    }
    .map_err(|e| e.to_string())
}

fn main() -> ExitCode {
    let words: Vec<String> = std::env::args().skip(1).collect();
    match run(&words.iter().map(String::as_str).collect::<Vec<_>>()) {
        Ok(()) => ExitCode::SUCCESS,
        Err(message) => {
            eprintln!("scores: {message}");
            ExitCode::from(2)
        }
    }
}
