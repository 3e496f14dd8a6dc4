//! 70: the sheet of a score file, which the original does not have.

use super::Answer;
use crate::args::Args;
use crate::refusal;
use crate::score::{self, Score};

/// What is printed stands in the output, of a file that is refused too.
pub fn sheet(args: &Args, printed: &mut Vec<u64>) -> Answer {
    let score = score::read(args.file(0));
    let text = score.as_ref().map_or(score::REFUSED.to_string(), Score::sheet);
    printed.extend(text.bytes().map(u64::from));
    if score.is_some() { Ok(Vec::new()) } else { refusal::by(13) }
}
