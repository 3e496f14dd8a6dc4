//! The originals of docs/src as a library: beats, the meter walk, the tempo walks, the map problems, the transport and
//! the patterns. `access` is a door to what an original keeps to its own crate.

// The originals hold more than is used here, and they are not to be edited.
#![allow(dead_code, unused_imports)]

include!(concat!(env!("OUT_DIR"), "/tono-core/root.rs"));
