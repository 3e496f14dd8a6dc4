//! The question form: how every call can be asked in words of 32 bits, and how it is answered in a line of hexadecimal
//! numbers. `form` has the table of ops, `question` reads questions, `args` takes one apart, `answer` answers it from
//! the originals, `score` reads score files, `generate` makes questions, and `words` tells one in words.

pub mod answer;
pub mod args;
pub mod examples;
pub mod form;
pub mod generate;
pub mod question;
pub mod refusal;
pub mod score;
pub mod words;
