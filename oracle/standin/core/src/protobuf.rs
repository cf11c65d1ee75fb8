//! Protobuf fields: varints of up to ten bytes that fit 64 bits, not always
//! the shortest; fields numbered from 1 up to 536,870,911. Groups (wire types
//! 3 and 4), 6 and 7 are malformed.

pub const WIRE_VARINT: u8 = 0;
const WIRE_FIXED64: u8 = 1;
pub const WIRE_LEN: u8 = 2;
const WIRE_FIXED32: u8 = 5;

const MAX_FIELD_NUMBER: u64 = 536_870_911;

/// The bytes are no sequence of protobuf fields.
#[derive(Clone, Copy, Debug, Eq, PartialEq)]
pub struct WireError;

/// Bytes of the shortest form of `value`.
pub fn uvarint_len(value: u64) -> usize {
    let bits = 64 - (value | 1).leading_zeros() as usize;
    bits.div_ceil(7)
}

pub fn encode_varint(out: &mut Vec<u8>, mut value: u64) {
    while value >= 0x80 {
        out.push(value as u8 | 0x80);
        value >>= 7;
    }
    out.push(value as u8);
}

pub fn encode_varint_field(out: &mut Vec<u8>, field: u64, value: u64) {
    encode_varint(out, field << 3 | u64::from(WIRE_VARINT));
    encode_varint(out, value);
}

pub fn encode_bytes_field(out: &mut Vec<u8>, field: u64, bytes: &[u8]) {
    encode_varint(out, field << 3 | u64::from(WIRE_LEN));
    encode_varint(out, bytes.len() as u64);
    out.extend_from_slice(bytes);
}

pub fn read_varint_value(input: &[u8], at: &mut usize) -> Result<u64, WireError> {
    let mut value = 0;
    for group in 0..10 {
        let byte = *input.get(*at).ok_or(WireError)?;
        *at += 1;
        if group == 9 && byte > 1 {
            return Err(WireError);
        }
        value |= u64::from(byte & 0x7f) << (7 * group);
        if byte < 0x80 {
            return Ok(value);
        }
    }
    Err(WireError)
}

/// The next field's number and wire type; `None` at the end.
pub fn read_tag(input: &[u8], at: &mut usize) -> Result<Option<(u64, u8)>, WireError> {
    if *at == input.len() {
        return Ok(None);
    }
    let tag = read_varint_value(input, at)?;
    let (field, wire) = (tag >> 3, (tag & 7) as u8);
    let known = matches!(wire, WIRE_VARINT | WIRE_FIXED64 | WIRE_LEN | WIRE_FIXED32);
    if known && (1..=MAX_FIELD_NUMBER).contains(&field) {
        Ok(Some((field, wire)))
    } else {
        Err(WireError)
    }
}

pub fn read_len_delimited<'a>(input: &'a [u8], at: &mut usize) -> Result<&'a [u8], WireError> {
    let len = read_varint_value(input, at)?;
    let len = usize::try_from(len).map_err(|_| WireError)?;
    take(input, at, len)
}

pub fn skip_field(input: &[u8], at: &mut usize, wire: u8) -> Result<(), WireError> {
    match wire {
        WIRE_VARINT => read_varint_value(input, at).map(drop),
        WIRE_FIXED64 => take(input, at, 8).map(drop),
        WIRE_LEN => read_len_delimited(input, at).map(drop),
        WIRE_FIXED32 => take(input, at, 4).map(drop),
        _ => Err(WireError),
    }
}

fn take<'a>(input: &'a [u8], at: &mut usize, len: usize) -> Result<&'a [u8], WireError> {
    let end = at.checked_add(len).ok_or(WireError)?;
    let taken = input.get(*at..end).ok_or(WireError)?;
    *at = end;
    Ok(taken)
}
