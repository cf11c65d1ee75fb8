//! Names the given `dcutr/src/lib.rs` as this crate's module.

#[path = "../../given.rs"]
mod given;

fn main() {
    given::modules("crates/dcutr/src", &["lib"], &[("lib", "given")]);
}
