// The modules of the crate. Those in docs/src are the originals; the others are stand-ins.
pub mod access;
pub mod catalog;
mod det;
pub mod diag;
pub mod dsl;
pub mod dsp;
pub mod music;
pub mod program;
pub mod runtime;
pub mod song;
pub mod units;
