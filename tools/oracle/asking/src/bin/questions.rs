//! Writes seeded questions to standard output: `questions SEED COUNT [OPS] [--cut]`.
//!
//! OPS is a list like `01-09` or `13,20-23`, in hexadecimal; without it, every op. The same words give the same bytes.
//! With `--cut` one more question follows that is cut by one to eleven bytes, as the seed has it.

use asking::form::{OPS, Op, parse_ops};
use asking::generate;
use std::io::{self, BufWriter, Write};
use std::process::ExitCode;

fn parse(words: &[String]) -> Result<(u64, u64, Vec<&'static Op>), String> {
    let usage = || "usage: questions SEED COUNT [OPS] [--cut]".to_string();
    let number = |text: &String| text.parse::<u64>().map_err(|_| format!("{text:?} is no number"));
    match words {
        [seed, count] => Ok((number(seed)?, number(count)?, OPS.iter().collect())),
        [seed, count, ops] => Ok((number(seed)?, number(count)?, parse_ops(ops)?)),
        _ => Err(usage()),
    }
}

fn write(seed: u64, count: u64, ops: &[&'static Op], cut: bool) -> io::Result<()> {
    let mut out = BufWriter::with_capacity(1 << 18, io::stdout().lock());
    for question in generate::questions(seed, count, ops) {
        for word in question {
            out.write_all(&word.to_le_bytes())?;
        }
    }
    if cut {
        let last = generate::question(seed, ops[0], 0);
        let bytes: Vec<u8> = last.iter().flat_map(|word| word.to_le_bytes()).collect();
        out.write_all(&bytes[..bytes.len() - 1 - (seed % 11) as usize])?;
    }
    out.flush()
}

fn main() -> ExitCode {
    let (flags, words): (Vec<String>, Vec<String>) = std::env::args().skip(1).partition(|word| word.starts_with("--"));
    if let Some(flag) = flags.iter().find(|flag| *flag != "--cut") {
        eprintln!("questions: {flag} is no flag");
        return ExitCode::from(2);
    }
    match parse(&words) {
        Err(message) => {
            eprintln!("questions: {message}");
            ExitCode::from(2)
        }
        Ok((seed, count, ops)) => match write(seed, count, &ops, !flags.is_empty()) {
            Ok(()) => ExitCode::SUCCESS,
            Err(e) if e.kind() == io::ErrorKind::BrokenPipe => ExitCode::SUCCESS,
            Err(e) => {
                eprintln!("questions: {e}");
                ExitCode::from(2)
            }
        },
    }
}
