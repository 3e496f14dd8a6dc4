//! The part of the runtime that stands in docs/src.

pub mod transport;
