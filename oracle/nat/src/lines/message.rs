//! Messages: the given `HolePunch` on its own, between lists and buffers.

use minip2p_core::{encode_varint, read_varint_value};
use minip2p_dcutr::{
    DcutrMessageError, FrameDecode, HolePunch, HolePunchType, MAX_MESSAGE_SIZE, decode_frame,
};

use crate::text::{Words, entries, hex, list};

const MAX_ROOM: u64 = 8_192;
const FILL: u8 = 0xee;

pub(super) fn answer(line: &[u8]) -> Option<String> {
    let mut words = Words::new(line);
    match words.word("do")? {
        b"varint" => {
            let input = words.bytes("in")?;
            words.end(varint(&input))
        }
        b"encode" => {
            let value = words.number("value")?;
            let mut out = Vec::new();
            encode_varint(&mut out, value);
            words.end(format!("out={}", hex(&out)))
        }
        b"frame" => {
            let input = words.bytes("in")?;
            let count = usize::try_from(words.number("count")?).ok()?;
            words.end(frame(&input[..count.min(input.len())]))
        }
        b"list" => {
            let input = words.bytes("in")?;
            words.end(match entries(&input) {
                None => "broken".to_string(),
                Some(found) => format!("count={}", found.len()),
            })
        }
        b"read" => {
            let input = words.bytes("in")?;
            let room = room(&mut words)?;
            words.end(read(&input, room))
        }
        b"write" => {
            let kind = match words.word("kind")? {
                b"connect" => HolePunchType::Connect,
                b"sync" => HolePunchType::Sync,
                _ => return None,
            };
            let list = words.bytes("list")?;
            let room = room(&mut words)?;
            words.end(match written(kind, &list, room.len()) {
                Ok(message) => size_and_out("", &message, room),
                Err(why) => refused(why, &room),
            })
        }
        _ => None,
    }
}

fn room(words: &mut Words<'_>) -> Option<Vec<u8>> {
    let room = words.number("room")?;
    (room <= MAX_ROOM).then(|| vec![FILL; room as usize])
}

fn varint(input: &[u8]) -> String {
    let mut next = 0;
    match read_varint_value(input, &mut next) {
        Ok(value) => format!("value={value} next={next}"),
        Err(_) => "malformed".to_string(),
    }
}

fn frame(stored: &[u8]) -> String {
    match decode_frame(stored) {
        FrameDecode::Incomplete => "more".to_string(),
        FrameDecode::Complete { payload, consumed } => {
            let len = payload.len();
            format!("whole start={} len={len}", consumed - len)
        }
        FrameDecode::TooLarge { .. } | FrameDecode::Malformed(_) => "broken".to_string(),
    }
}

fn read(input: &[u8], room: Vec<u8>) -> String {
    if input.len() > MAX_MESSAGE_SIZE {
        return refused(6, &room);
    }
    let message = match HolePunch::decode(input) {
        Ok(message) => message,
        Err(DcutrMessageError::Wire(_)) => return refused(8, &room),
        Err(DcutrMessageError::InvalidType { .. }) => return refused(10, &room),
        Err(DcutrMessageError::MissingType) => return refused(9, &room),
    };
    let addresses = list(message.obs_addrs.iter().map(Vec::as_slice));
    if addresses.len() > room.len() {
        return refused(7, &room);
    }
    let kind = match message.kind {
        HolePunchType::Connect => "kind=connect ",
        HolePunchType::Sync => "kind=sync ",
    };
    size_and_out(kind, &addresses, room)
}

fn written(kind: HolePunchType, list: &[u8], room: usize) -> Result<Vec<u8>, u8> {
    let addresses = entries(list).ok_or(5)?;
    let message = HolePunch {
        kind,
        obs_addrs: addresses.into_iter().map(<[u8]>::to_vec).collect(),
    }
    .encode();
    if message.len() > MAX_MESSAGE_SIZE {
        return Err(6);
    }
    if message.len() > room {
        return Err(7);
    }
    Ok(message)
}

fn size_and_out(before: &str, bytes: &[u8], mut room: Vec<u8>) -> String {
    room[..bytes.len()].copy_from_slice(bytes);
    format!("{before}size={} out={}", bytes.len(), hex(&room))
}

fn refused(why: u8, room: &[u8]) -> String {
    format!("refused why={why} out={}", hex(room))
}
