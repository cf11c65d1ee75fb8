//! The given DCUtR crate, compiled from its own file.

include!(concat!(env!("OUT_DIR"), "/modules.rs"));

pub use given::*;
