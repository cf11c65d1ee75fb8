//! Stand-in for `minip2p_core`, by docs/RULES.md. What each part
//! follows stands in docs/DIFFERENCES.md, "Comparison with the Rust".

mod address;
mod frame;
mod peer;
mod protobuf;

pub use address::{Multiaddr, MultiaddrError, Protocol, select_direct_addrs};
pub use frame::{FrameDecode, FrameExchange, FrameFault, decode_frame, encode_frame};
pub use peer::{Bytes, ConnectId, Path, PeerAddr, PeerId};
pub use protobuf::{
    WIRE_LEN, WIRE_VARINT, WireError, encode_bytes_field, encode_varint, encode_varint_field,
    read_len_delimited, read_tag, read_varint_value, skip_field, uvarint_len,
};

pub mod platform {
    /// The host's clock readings; only the monotonic one is used.
    #[derive(Clone, Copy, Debug)]
    pub struct Now {
        pub monotonic_ms: u64,
    }
}
