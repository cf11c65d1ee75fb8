//! Names the given files of the NAT crate as modules of this one.

#[path = "../given.rs"]
mod given;

fn main() {
    given::modules(
        "crates/nat/src",
        &[
            "budget", "config", "events", "inbound", "ledger", "swarm", "types",
        ],
        &[],
    );
}
