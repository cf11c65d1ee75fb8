//! Frames: the message's length as a varint of one or two bytes, then the
//! message. A second length byte that is 0, that asks for a third, or that
//! takes the length over the maximum, breaks the frame at once.

use crate::protobuf::{WireError, encode_varint};

#[derive(Debug, Eq, PartialEq)]
pub enum FrameDecode<'a> {
    Incomplete,
    Complete { payload: &'a [u8], consumed: usize },
    TooLarge { len: u64 },
    Malformed(WireError),
}

pub fn encode_frame(payload: &[u8]) -> Vec<u8> {
    let mut out = Vec::new();
    encode_varint(&mut out, payload.len() as u64);
    out.extend_from_slice(payload);
    out
}

pub fn decode_frame(input: &[u8], max: usize) -> FrameDecode<'_> {
    let Some(&first) = input.first() else {
        return FrameDecode::Incomplete;
    };
    let (len, start) = if first < 0x80 {
        (usize::from(first), 1)
    } else {
        let Some(&second) = input.get(1) else {
            return FrameDecode::Incomplete;
        };
        if second >= 0x80 || second == 0 {
            return FrameDecode::Malformed(WireError);
        }
        (usize::from(first & 0x7f) + 128 * usize::from(second), 2)
    };
    if len > max {
        return FrameDecode::TooLarge { len: len as u64 };
    }
    match input.get(start..start + len) {
        Some(payload) => FrameDecode::Complete {
            payload,
            consumed: start + len,
        },
        None => FrameDecode::Incomplete,
    }
}

#[derive(Clone, Debug, Eq, PartialEq)]
pub enum FrameFault {
    TooLarge { len: u64, max: usize },
    Overflow { len: usize, max: usize },
    Wire(WireError),
}

/// One stream's frames in both directions. Bytes behind a whole frame are
/// kept, and the drivers never read them.
pub struct FrameExchange {
    max: usize,
    buffered: Vec<u8>,
    outbound: Vec<u8>,
}

impl FrameExchange {
    pub fn with_trailing(max: usize, _trailing: usize) -> Self {
        Self {
            max,
            buffered: Vec::new(),
            outbound: Vec::new(),
        }
    }

    pub fn push(&mut self, data: &[u8]) -> Result<(), FrameFault> {
        self.buffered.extend_from_slice(data);
        Ok(())
    }

    pub fn next_frame<T, E: From<FrameFault>>(
        &mut self,
        decode: impl FnOnce(&[u8]) -> Result<T, E>,
    ) -> Result<Option<T>, E> {
        match decode_frame(&self.buffered, self.max) {
            FrameDecode::Incomplete => Ok(None),
            FrameDecode::Complete { payload, consumed } => {
                let message = decode(payload)?;
                self.buffered.drain(..consumed);
                Ok(Some(message))
            }
            FrameDecode::TooLarge { len } => {
                Err(FrameFault::TooLarge { len, max: self.max }.into())
            }
            FrameDecode::Malformed(error) => Err(FrameFault::Wire(error).into()),
        }
    }

    pub fn take_buffered(&mut self) -> Vec<u8> {
        std::mem::take(&mut self.buffered)
    }

    pub fn queue(&mut self, payload: &[u8]) -> Result<(), FrameFault> {
        if payload.len() > self.max {
            return Err(FrameFault::TooLarge {
                len: payload.len() as u64,
                max: self.max,
            });
        }
        self.outbound.extend(encode_frame(payload));
        Ok(())
    }

    pub fn has_outbound(&self) -> bool {
        !self.outbound.is_empty()
    }

    pub fn take_outbound(&mut self) -> Vec<u8> {
        std::mem::take(&mut self.outbound)
    }
}
