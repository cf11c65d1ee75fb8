//! Messages, their fields, frames and lists.

use minip2p_core::{encode_bytes_field, encode_varint, encode_varint_field};

use super::addresses;
use super::rng::Rng;
use crate::text::{hex, list};

const VALUES: &[u64] = &[
    0,
    1,
    2,
    100,
    127,
    128,
    129,
    150,
    255,
    256,
    300,
    16_383,
    16_384,
    2_097_151,
    2_097_152,
    268_435_455,
    268_435_456,
    4_294_967_295,
    4_294_967_296,
    34_359_738_367,
    34_359_738_368,
    9_223_372_036_854_775_807,
    9_223_372_036_854_775_808,
    18_446_744_073_709_551_615,
];

fn varint(value: u64) -> Vec<u8> {
    let mut out = Vec::new();
    encode_varint(&mut out, value);
    out
}

/// `value` in a form `extra` bytes longer than the shortest.
fn long_varint(value: u64, extra: usize) -> Vec<u8> {
    let mut out = varint(value);
    for _ in 0..extra {
        *out.last_mut().expect("a varint has a byte") |= 0x80;
        out.push(0);
    }
    out
}

pub(super) fn named() -> Vec<String> {
    let mut out = Vec::new();
    named_varints(&mut out);
    named_frames(&mut out);
    named_lists(&mut out);
    named_reads(&mut out);
    named_writes(&mut out);
    named_bad(&mut out);
    out
}

fn named_varints(out: &mut Vec<String>) {
    for &value in VALUES {
        out.push(format!("do=encode value={value}"));
        let short = varint(value);
        out.push(format!("do=varint in={}", hex(&short)));
        out.push(format!("do=varint in={}", hex(&short[..short.len() - 1])));
        out.push(format!("do=varint in={}ff", hex(&short)));
    }
    for extra in 1..=10 {
        out.push(format!("do=varint in={}", hex(&long_varint(150, extra))));
    }
    for tenth in [0x00, 0x01, 0x02, 0x7f, 0x80, 0x81, 0xff] {
        for ninth in [0x80, 0xff] {
            let mut bytes = vec![ninth; 9];
            bytes.push(tenth);
            out.push(format!("do=varint in={}", hex(&bytes)));
            bytes.push(0);
            out.push(format!("do=varint in={}", hex(&bytes)));
        }
    }
}

fn named_frames(out: &mut Vec<String>) {
    for head in [
        "00", "01", "7f", "8001", "8101", "ff01", "801f", "ff1f", "8020", "8120", "ff20", "8021",
        "ff7f", "8000", "8100", "ff00", "8080", "8081", "ffff", "80", "81", "ff",
    ] {
        let len = head.len() / 2;
        for count in 0..=len {
            out.push(format!("do=frame in={head} count={count}"));
        }
        out.push(format!("do=frame in={head}ee count={}", len + 1));
    }
    for (head, len) in [("02", 2), ("7f", 127), ("8001", 128), ("8020", 4096)] {
        let start = head.len() / 2;
        let whole = format!("{head}{}", "0a".repeat(len + 2));
        for count in [start + len - 1, start + len, start + len + 1] {
            out.push(format!("do=frame in={whole} count={count}"));
        }
    }
}

fn named_lists(out: &mut Vec<String>) {
    for text in [
        "-", "00", "0000", "0001", "0001aa", "0001aa00", "0001aabb", "00000000", "000000",
    ] {
        out.push(format!("do=list in={text}"));
    }
    for len in [127, 128, 255, 256, 4096, 16_360] {
        let one = list([&vec![0xaa; len][..]]);
        out.push(format!("do=list in={}", hex(&one)));
        out.push(format!("do=list in={}", hex(&one[..one.len() - 1])));
        if len <= 4096 {
            out.push(format!("do=list in={}00", hex(&one)));
        }
    }
}

fn named_reads(out: &mut Vec<String>) {
    let read = |text: &str, room: usize| format!("do=read in={text} room={room}");
    for text in [
        // The protobuf documentation's own encodings.
        "089601",
        "120774657374696e67",
        "1a03089601",
        "2206038e029ea705",
        // The DCUtR types, alone, twice and wrong.
        "-",
        "0864",
        "08ac02",
        "086408ac02",
        "08ac020864",
        "0863",
        "0800",
        "08ab02",
        "08e480808010",
        "08e4808080808080808001",
        "08e4808080808080808002",
        "08ffffffffffffffffff01",
        "08630864",
        "08640863",
        "08640863ff",
        "0864ff0863",
        "08",
        "08e4",
        "08e400",
        "08e48000",
        "08ac8200",
        "880064",
        "8880808080808080800064",
        "888080808080808080800064",
        // Other wire types for fields 1 and 2, and unknown fields.
        "0900000000000000640864",
        "09000000000000000864",
        "0a01640864",
        "0a0164",
        "0d000000640864",
        "0d0000000864",
        "10640864",
        "1100000000000000000864",
        "15000000000864",
        "1864086412021234",
        "1a0008641200",
        "0864920002abcd",
        "0864128200abcd",
        "08641282000abcd0",
        "12021234",
        "12030864",
        "120308641205",
        "0864120b04c000000991020fa1cd03",
        "120b04c000000991020fa1cd030864",
        "08ac02120b04c000000991020fa1cd0312021234",
        // Field numbers and wire types at their ends.
        "0064",
        "0200",
        "f8ffffff0f640864",
        "80808080100864",
        "8080808010640864",
        "f8ffffffffffffffff01640864",
        "0b0864",
        "0c0864",
        "0e0864",
        "0f0864",
        "130864",
        "140864",
        "160864",
        "170864",
        "086413",
        "086412ffffffffffffffffff01",
        "086412ffffffff0f",
        "086412808080808010",
        "08641180",
    ] {
        out.push(read(text, 24));
    }
    for byte in 0..=255u8 {
        out.push(read(&hex(&[byte]), 2));
    }
    for first in [
        0x00, 0x07, 0x08, 0x09, 0x0a, 0x0d, 0x10, 0x12, 0x1a, 0x22, 0x80, 0xff,
    ] {
        for second in [0x00, 0x01, 0x02, 0x63, 0x64, 0x7f, 0x80, 0xe4] {
            out.push(read(&hex(&[first, second]), 3));
        }
    }
    // Rooms one short, exact and one more; messages of 4,096 and 4,097.
    for len in [0, 1, 11, 127, 128, 129] {
        let mut message = varint_field(100);
        encode_bytes_field(&mut message, 2, &vec![0xaa; len]);
        for room in [len + 1, len + 2, len + 3] {
            out.push(read(&hex(&message), room));
        }
    }
    for total in [4095, 4096, 4097] {
        let mut message = varint_field(100);
        encode_bytes_field(&mut message, 2, &vec![0xaa; total - 5]);
        assert_eq!(message.len(), total);
        for room in [total - 4, total - 3] {
            out.push(read(&hex(&message), room));
        }
    }
    let mut wrong = varint_field(99);
    encode_bytes_field(&mut wrong, 2, &vec![0xaa; 4092]);
    out.push(read(&hex(&wrong), 0));
    let many: Vec<u8> = [0x08, 0x64]
        .into_iter()
        .chain([0x12, 0x00].repeat(2047))
        .collect();
    for room in [4093, 4094] {
        out.push(read(&hex(&many), room));
    }
}

fn varint_field(value: u64) -> Vec<u8> {
    let mut out = Vec::new();
    encode_varint_field(&mut out, 1, value);
    out
}

fn named_writes(out: &mut Vec<String>) {
    for (kind, size) in [("connect", 2), ("sync", 3)] {
        for room in [0, size - 1, size, size + 1] {
            out.push(format!("do=write kind={kind} list=- room={room}"));
        }
        for text in [
            "00",
            "0001",
            "0000",
            "00000001aa",
            "000b04c000000991020fa1cd03",
            "0003aabb",
        ] {
            out.push(format!("do=write kind={kind} list={text} room=20"));
        }
    }
    for len in [0, 1, 126, 127, 128, 129] {
        let one = list([&vec![0xaa; len][..]]);
        let size = 4 + len + usize::from(len > 127);
        for room in [size - 1, size, size + 1] {
            out.push(format!(
                "do=write kind=connect list={} room={room}",
                hex(&one)
            ));
        }
    }
    for (kind, most) in [("connect", 4091), ("sync", 4090)] {
        for len in [most - 1, most, most + 1] {
            let one = list([&vec![0xaa; len][..]]);
            for room in [4095, 4096] {
                out.push(format!(
                    "do=write kind={kind} list={} room={room}",
                    hex(&one)
                ));
            }
        }
    }
    let long = list([&vec![0xaa; 16_300][..]]);
    out.push(format!("do=write kind=connect list={} room=1", hex(&long)));
    out.push(format!(
        "do=write kind=connect list={}00 room=1",
        hex(&long)
    ));
}

fn named_bad(out: &mut Vec<String>) {
    for line in [
        "",
        "do=",
        "do=read",
        "do=read in=0864",
        "do=read in=0864 room=",
        "do=read in=0864 room=01",
        "do=read in=0864 room=8193",
        "do=read in=0864 room=8 ",
        "do=read  in=0864 room=8",
        "do=read in=086 room=8",
        "do=read in=08AC02 room=8",
        "do=read in= room=8",
        "do=read room=8 in=0864",
        "do=write kind=punch list=- room=8",
        "do=write kind=sync list=- room=8 more=1",
        "do=encode value=18446744073709551616",
        "do=encode value=-1",
        "do=encode value=",
        "do=encode value=00",
        "do=varint in=--",
        "do=frame in=00 count=1\r",
        "do=frame in=00 count=2",
        "do=frame in=64 count=2",
        "do=frame in=- count=18446744073709551615",
    ] {
        out.push(line.to_string());
    }
    // The longest line that is read, and one of a byte more.
    let fits = "a".repeat(32_768 - 1 - "do=list in=".len());
    out.push(format!("do=list in=0{}", &fits[1..]));
    out.push(format!("do=list in=0{fits}"));
}

pub(super) fn random(rng: &mut Rng) -> Vec<String> {
    let line = match rng.below(8) {
        0 => format!("do=encode value={}", rng.number()),
        1 => {
            let value = rng.number();
            let mut bytes = long_varint(value, 0);
            if rng.one_in(3) {
                let extra = rng.index(4);
                bytes = long_varint(value, extra);
            }
            if rng.one_in(3) {
                addresses::damage(rng, &mut bytes);
            }
            format!("do=varint in={}", hex(&bytes))
        }
        2 => {
            let mut bytes = framed(&body(rng));
            if rng.one_in(3) {
                let at = rng.index(bytes.len().min(3));
                bytes[at] = rng.draw() as u8;
            }
            let count = rng.index(bytes.len() + 1);
            let count = rng.pick(&[bytes.len(), count]);
            format!("do=frame in={} count={count}", hex(&bytes))
        }
        3 => {
            let mut bytes = addresses::list(rng, 5);
            if rng.one_in(2) {
                addresses::damage(rng, &mut bytes);
            }
            format!("do=list in={}", hex(&bytes))
        }
        4 | 5 => {
            let mut bytes = body(rng);
            for _ in 0..rng.pick(&[0, 0, 0, 1, 1, 2, 5]) {
                addresses::damage(rng, &mut bytes);
            }
            let room = rng.near(bytes.len() as u64).min(8192);
            let room = rng.pick(&[room, room, 300, 300, 300, 0]);
            format!("do=read in={} room={room}", hex(&bytes))
        }
        _ => {
            let kind = rng.pick(&["connect", "sync"]);
            let mut bytes = addresses::list(rng, 6);
            if rng.one_in(5) {
                addresses::damage(rng, &mut bytes);
            }
            let room = rng.near(bytes.len() as u64 + 2);
            let room = rng.pick(&[room, room, 300, 300, 300, 0]);
            format!("do=write kind={kind} list={} room={room}", hex(&bytes))
        }
    };
    vec![line]
}

fn framed(message: &[u8]) -> Vec<u8> {
    minip2p_core::encode_frame(message)
}

/// A message of random fields: half of them whole messages, half with wrong
/// types, wire types and field numbers among them.
pub(crate) fn body(rng: &mut Rng) -> Vec<u8> {
    let mut out = Vec::new();
    if rng.one_in(2) {
        let addresses = rng.below(10);
        let place = rng.below(addresses + 1);
        for n in 0..=addresses {
            if n == place {
                encode_varint_field(&mut out, 1, rng.pick(&[100, 100, 100, 300]));
            } else if rng.one_in(10) {
                let field = rng.pick(&[3, 15, 16, 2047, 536_870_911]);
                let wire = rng.pick(&[0, 1, 2, 5]);
                other_field(rng, &mut out, field, wire);
            } else {
                encode_bytes_field(&mut out, 2, &addresses::any(rng));
            }
        }
        return out;
    }
    for _ in 0..rng.below(7) {
        match rng.below(12) {
            0..4 => {
                let value = rng.pick(&[100, 100, 100, 300, 99, 0, (1 << 32) + 100]);
                out.push(0x08);
                let extra = if rng.one_in(6) { rng.index(10) } else { 0 };
                out.extend(long_varint(value, extra));
            }
            4..9 => encode_bytes_field(&mut out, 2, &addresses::any(rng)),
            9 => {
                // A known field with another wire type.
                let field = 1 + rng.below(2);
                let wire = rng.pick(&[0, 1, 2, 5]);
                other_field(rng, &mut out, field, wire);
            }
            10 => {
                let field = rng.pick(&[3, 15, 16, 2047, 536_870_911, 536_870_912, 0]);
                let wire = rng.pick(&[0, 1, 2, 5, 3, 4, 6, 7]);
                other_field(rng, &mut out, field, wire);
            }
            _ => out.push(rng.draw() as u8 & 0x1f),
        }
    }
    out
}

fn other_field(rng: &mut Rng, out: &mut Vec<u8>, field: u64, wire: u64) {
    let tag = field << 3 | wire;
    let extra = if rng.one_in(4) { rng.index(3) } else { 0 };
    out.extend(long_varint(tag, extra));
    match wire {
        0 => out.extend(varint(rng.number())),
        1 => out.extend(rng.bytes(8)),
        2 => {
            let len = rng.index(20);
            out.extend(varint(len as u64));
            out.extend(rng.bytes(len));
        }
        _ => out.extend(rng.bytes(4)),
    }
}
