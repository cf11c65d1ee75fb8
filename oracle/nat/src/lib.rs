//! The given NAT files, compiled from where they stand, and the drivers that
//! run them.

extern crate alloc;

include!(concat!(env!("OUT_DIR"), "/modules.rs"));

pub(crate) use types::Path;

mod agent;
mod bursts;
mod circuit;
pub mod compare;
pub mod generate;
pub mod journal;
pub mod lines;
mod text;
