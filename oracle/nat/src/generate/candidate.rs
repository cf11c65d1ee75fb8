//! Candidates: every edge of every range, and lists that meet each limit.

use super::addresses::{self, named as with_name, v4, v4_edges, v6, v6_edges};
use super::rng::Rng;
use crate::text::{hex, list};

pub(super) fn named() -> Vec<String> {
    let mut out = Vec::new();
    for private in [0, 1] {
        let mut eligible = |address: Vec<u8>| {
            out.push(format!(
                "do=eligible private={private} address={}",
                hex(&address)
            ));
        };
        for ip in v4_edges() {
            eligible(v4(ip, 4001));
        }
        for ip in v6_edges() {
            eligible(v6(ip, 4001));
        }
        eligible(v4(0x0808_0808, 0));
        for form in forms() {
            eligible(form);
        }
        for named in limits() {
            let given = list(named.iter().map(Vec::as_slice));
            out.push(format!("do=select private={private} list={}", hex(&given)));
            out.push(format!("do=own list={}", hex(&given)));
        }
    }
    for text in ["00", "000b", "000b04c0", "0000", "000000"] {
        out.push(format!("do=select private=0 list={text}"));
        out.push(format!("do=own list={text}"));
        out.push(format!("do=bound list={text}"));
    }
    for named in limits() {
        let given = list(named.iter().map(Vec::as_slice));
        out.push(format!("do=bound list={}", hex(&given)));
    }
    for line in [
        "do=eligible private=2 address=-",
        "do=own",
        "do=select list=-",
        "do=own list=0",
    ] {
        out.push(line.to_string());
    }
    out
}

/// Bytes that are nearly an address.
fn forms() -> Vec<Vec<u8>> {
    let good = v4(0x0808_0808, 4001);
    let long = v6(0x2600 << 112, 4001);
    let mut out = vec![Vec::new(), vec![0x04], vec![0x29]];
    for address in [&good, &long] {
        let end = address.len();
        out.push(address[..end - 1].to_vec());
        out.push([&address[..], &[0]].concat());
        for (at, byte) in [
            (0, 0x05),
            (end - 6, 0x90),
            (end - 5, 0x03),
            (end - 2, 0xcc),
            (end - 1, 0x04),
        ] {
            let mut changed = address.clone();
            changed[at] = byte;
            out.push(changed);
        }
        out.extend(names(address));
    }
    out
}

/// An address with a peer name, whole, cut at every byte that matters, of
/// every length around a limit, and with bytes behind it.
fn names(address: &[u8]) -> Vec<Vec<u8>> {
    let ends: &[&[u8]] = &[
        &[0xa5],
        &[0xa5, 0x03],
        &[0xa5, 0x03, 0x00],
        &[0xa5, 0x03, 0x01],
        &[0xa5, 0x03, 0x02, 0x07],
        &[0xa5, 0x03, 0x81, 0x00, 0x07],
        &[0xa5, 0x03, 0x01, 0x07, 0x07],
        &[0xa5, 0x03, 0x01, 0x07, 0xa5, 0x03, 0x01, 0x07],
        &[0xa4, 0x03, 0x01, 0x07],
        &[0xa5, 0x02, 0x01, 0x07],
        &[0xa5, 0x83, 0x00, 0x01, 0x07],
        &[0x01, 0x07],
    ];
    let mut out: Vec<Vec<u8>> = (ends.iter())
        .map(|end| [address, end].concat())
        .collect();
    for len in [1, 2, 126, 127, 128, 255] {
        let whole = with_name(address.to_vec(), &vec![0x5a; len]);
        out.push(whole[..whole.len() - 1].to_vec());
        out.push([&whole[..], &[0]].concat());
        out.push(whole);
    }
    out
}

/// Lists that meet the limits of 8, of 4 for a family, of 2 for an IP, and
/// of the port.
fn limits() -> Vec<Vec<Vec<u8>>> {
    let four = |host: u32, port: u16| v4(0x0808_0800 + host, port);
    let six = |host: u128, port: u16| v6((0x2600 << 112) + host, port);
    let mapped =
        |host: u32, port: u16| v6(0xffff_0000_0000 | (0x0808_0800 + u128::from(host)), port);
    vec![
        vec![],
        vec![four(1, 1023), four(1, 1024), four(1, 0), four(1, 65535)],
        (0..4).map(|n| four(1, 4001 + n)).collect(),
        vec![four(1, 4001); 4],
        (0..6).map(|n| four(n, 4001)).collect(),
        (0..6).map(|n| six(n, 4001)).collect(),
        (0..6)
            .flat_map(|n| [four(n, 4001), six(n.into(), 4001)])
            .collect(),
        (0..5).flat_map(|n| vec![four(n, 4001); 3]).collect(),
        (0..5)
            .flat_map(|n| [six(n, 4001), six(n, 4002), six(n, 4003)])
            .collect(),
        (0..3)
            .flat_map(|n| [mapped(n, 4001), four(n, 4001), six(n.into(), 4001)])
            .collect(),
        vec![
            four(1, 4001),
            mapped(1, 4001),
            four(1, 4001),
            mapped(1, 4001),
            four(1, 4002),
            mapped(1, 4002),
        ],
        vec![
            v4(0x0a00_0001, 4001),
            four(1, 4001),
            v4(0x7f00_0001, 4001),
            v4(0xffff_ffff, 4001),
        ],
        vec![vec![], four(1, 4001), vec![0xff; 40], six(1, 4001)],
        (0..3).map(|n| with_name(four(1, 4001), &[n])).collect(),
        vec![
            with_name(four(1, 4001), &[7]),
            four(1, 4001),
            with_name(four(1, 4001), &[7]),
            with_name(four(1, 4001), &[8]),
            with_name(four(1, 4002), &[7]),
        ],
        (0..6)
            .flat_map(|n| [four(n, 4001), six(n.into(), 4001)])
            .map(|address| with_name(address, &[0x5a; 127]))
            .collect(),
        (0..3)
            .flat_map(|n| [six(1, 4001 + n), with_name(six(1, 4001 + n), &[n as u8])])
            .collect(),
        (0..9)
            .map(|n| four(n, 1023))
            .chain((0..9).map(|n| four(n, 1024)))
            .collect(),
    ]
}

pub(super) fn random(rng: &mut Rng) -> Vec<String> {
    let private = rng.below(2);
    vec![match rng.below(3) {
        0 => format!(
            "do=eligible private={private} address={}",
            hex(&addresses::any(rng))
        ),
        which => {
            let most = rng.pick(&[3, 12, 12, 40]);
            let mut given = addresses::list(rng, most);
            if rng.one_in(12) {
                addresses::damage(rng, &mut given);
            }
            match which {
                1 => format!("do=select private={private} list={}", hex(&given)),
                _ => format!("do=own list={}", hex(&given)),
            }
        }
    }]
}
