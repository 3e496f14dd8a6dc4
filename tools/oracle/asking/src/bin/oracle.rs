//! Answers questions from the original Rust. It reads questions from standard input to its end and writes a line for
//! each.
//!
//! `?` answers a question that is cut (the input then ends), one of an op that is not known, one with words too few or
//! too many for its op, one in which a state is above 2 or a flag above 1, and one that is larger than the form's
//! limits: more than 262,400 words behind its count, a list of more than 65,537 elements (of a meter map, points), or
//! an output of more than 65,540. The words of a question that is too large are read and let pass, and it is answered
//! once; if the input ends among them it is answered once too. These tests come before every refusal. `panic` answers a
//! call in which the original panicked; no question is known for which it does.

use asking::answer::answer;
use asking::question::{Next, Questions};
use std::io::{self, Write};

fn main() -> io::Result<()> {
    std::panic::set_hook(Box::new(|_| {}));
    let mut questions = Questions::new(io::stdin().lock());
    let mut output = io::stdout().lock();
    let mut lines = Vec::with_capacity(1 << 17);
    loop {
        match questions.next()? {
            Next::Ask(op) => answer(op, &questions.words, &mut lines),
            Next::Unknown => lines.extend_from_slice(b"?\n"),
            Next::End => break,
        }
        if lines.len() >= 1 << 16 {
            output.write_all(&lines)?;
            lines.clear();
        }
    }
    output.write_all(&lines)?;
    output.flush()
}
