//! The names of schemars that the originals use, with nothing behind them.

pub use schemars_derive::JsonSchema;

pub trait JsonSchema {}
