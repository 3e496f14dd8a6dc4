//! The names of serde that the originals use. Nothing is ever read or written through them.

pub use serde_derive::{Deserialize, Serialize};

pub trait Serialize {}

pub trait Deserializer<'de>: Sized {
    type Error;
}

pub trait Deserialize<'de>: Sized {
    fn deserialize<D>(deserializer: D) -> Result<Self, D::Error>
    where
        D: Deserializer<'de>;
}
