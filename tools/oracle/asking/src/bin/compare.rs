//! Compares two answers to the same questions, line by line: `compare QUESTIONS ANSWERS_A ANSWERS_B`.
//!
//! It prints the first difference with its question in words, then a table: for each op the number of questions, and
//! how often each refusal was the answer in A (0 accepted, ? no question). Its status is 0 only where every line agreed
//! and both files have a line for each question and no more.

use asking::form;
use asking::question::{Next, Questions};
use asking::words;
use std::collections::BTreeMap;
use std::fs::File;
use std::io::{self, BufRead, BufReader, Write};
use std::process::ExitCode;

/// As much of a line is shown.
const SHOWN: usize = 600;

struct Lines(BufReader<File>);

impl Lines {
    fn open(path: &str) -> io::Result<Lines> {
        Ok(Lines(BufReader::with_capacity(1 << 18, open(path)?)))
    }

    /// The next line without its end; none at the end of the file.
    fn next(&mut self, line: &mut Vec<u8>) -> io::Result<bool> {
        line.clear();
        let some = self.0.read_until(b'\n', line)? > 0;
        if line.last() == Some(&b'\n') {
            line.pop();
        }
        Ok(some)
    }
}

fn open(path: &str) -> io::Result<File> {
    File::open(path).map_err(|e| io::Error::new(e.kind(), format!("{path}: {e}")))
}

fn shown(line: &[u8], is: bool) -> String {
    if !is {
        return "(no line)".to_string();
    }
    let text = String::from_utf8_lossy(&line[..line.len().min(SHOWN)]);
    if line.len() > SHOWN { format!("{text} .. ({} bytes)", line.len()) } else { text.into_owned() }
}

/// For each op how often each first number was answered; questions that are cut or too large stand under none.
type Table = BTreeMap<Option<u32>, BTreeMap<String, u64>>;

fn print_table(table: &Table, out: &mut impl Write) -> io::Result<()> {
    let mut columns: Vec<String> = table.values().flat_map(|row| row.keys().cloned()).collect();
    columns.sort_by_key(|name| (u64::from_str_radix(name, 16).unwrap_or(u64::MAX), name.clone()));
    columns.dedup();
    // refusals are numbered in the rules as decimals, and answered in hexadecimal
    let heads: Vec<String> = columns
        .iter()
        .map(|name| u64::from_str_radix(name, 16).map_or(name.clone(), |number| number.to_string()))
        .collect();
    let mut print = |first: &str, call: &str, all: &str, counts: &[String]| {
        let cells: String = counts.iter().map(|count| format!(" {count:>8}")).collect();
        writeln!(out, "{first:>4}  {call:<26} {all:>9} {cells}")
    };
    print("op", "call", "questions", &heads)?;
    for (number, row) in table {
        let name = number.and_then(form::find).map_or("(none)", |op| op.name);
        let first = number.map_or("-".to_string(), |number| format!("{number:02x}"));
        let counts: Vec<String> =
            columns.iter().map(|column| row.get(column).map_or(".".to_string(), u64::to_string)).collect();
        print(&first, name, &row.values().sum::<u64>().to_string(), &counts)?;
    }
    Ok(())
}

fn compare(questions: &str, first: &str, second: &str) -> io::Result<bool> {
    let mut out = io::stdout().lock();
    let mut questions = Questions::new(open(questions)?);
    let (mut a, mut b) = (Lines::open(first)?, Lines::open(second)?);
    let (mut line_a, mut line_b) = (Vec::new(), Vec::new());
    let (mut asked, mut differ) = (0u64, 0u64);
    let mut table = Table::new();
    loop {
        let op = match questions.next()? {
            Next::Ask(op) => Some(op),
            Next::Unknown => None,
            Next::End => break,
        };
        asked += 1;
        let (is_a, is_b) = (a.next(&mut line_a)?, b.next(&mut line_b)?);
        if !is_a || !is_b || line_a != line_b {
            differ += 1;
            if differ == 1 {
                writeln!(out, "question {asked} (the first is 1) is answered in two ways:")?;
                let told =
                    op.map_or("a question that is cut or too large".into(), |op| words::tell(op, &questions.words));
                writeln!(out, "  {told}")?;
                writeln!(out, "  A: {}", shown(&line_a, is_a))?;
                writeln!(out, "  B: {}", shown(&line_b, is_b))?;
            }
        }
        let number = String::from_utf8_lossy(line_a.split(|c| *c == b' ').next().unwrap_or(b"")).into_owned();
        let row = table.entry(op.filter(|op| form::find(*op).is_some())).or_default();
        *row.entry(if is_a { number } else { "none".to_string() }).or_default() += 1;
    }
    let (more_a, more_b) = (a.next(&mut line_a)?, b.next(&mut line_b)?);
    for (more, name) in [(more_a, "A"), (more_b, "B")] {
        if more {
            writeln!(out, "{name} has more lines than there are questions")?;
        }
    }
    print_table(&table, &mut out)?;
    writeln!(out, "{asked} questions, {differ} answered in two ways")?;
    Ok(differ == 0 && !more_a && !more_b)
}

fn main() -> ExitCode {
    let words: Vec<String> = std::env::args().skip(1).collect();
    let [questions, a, b] = &words[..] else {
        eprintln!("usage: compare QUESTIONS ANSWERS_A ANSWERS_B");
        return ExitCode::from(2);
    };
    match compare(questions, a, b) {
        Ok(true) => ExitCode::SUCCESS,
        Ok(false) => ExitCode::FAILURE,
        Err(e) => {
            eprintln!("compare: {e}");
            ExitCode::from(2)
        }
    }
}
