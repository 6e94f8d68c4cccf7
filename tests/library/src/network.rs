//! `parse_network`: ES-IS and IDRP PDUs whole, cut and damaged, CLNP and compressed ones, every first octet, long inputs.
use crate::check::{Check, Rust};
use crate::ours;
use oracle::atn;
use oracle::inputs::{each, Input, Rng};

fn rust(b: &[u8]) -> Option<Rust> {
    let record = atn::parse_network(b)?;
    Some(Rust {
        json: serde_json::to_string(&record).expect("JSON"),
        part: Vec::new(),
    })
}

fn one(check: &mut Check, b: &[u8], rooms: bool) {
    let said = if b.len() > 65_535 { None } else { rust(b) };
    check.input(b, said, rooms)
}

/// Each of these is as often wrong as not: a length or count, or what it should be.
fn count(rng: &mut Rng, right: usize) -> usize {
    match rng.below(12) {
        0 => rng.octet() as usize,
        1 => right + 1,
        2 => right.saturating_sub(1),
        _ => right,
    }
}

/// Cut anywhere, or one octet changed, or as it is.
fn damaged(rng: &mut Rng, mut b: Vec<u8>) -> Vec<u8> {
    match rng.below(4) {
        0 => b.truncate(rng.below(b.len() + 1)),
        1 if !b.is_empty() => {
            let at = rng.below(b.len());
            b[at] = rng.octet();
        }
        _ => {}
    }
    b
}

fn esis(rng: &mut Rng) -> Vec<u8> {
    let kind = rng.pick(&[2, 2, 2, 4, 4, 6, 0, 31]) | rng.octet() & rng.pick(&[0, 0xE0]);
    let mut b = vec![0x82, 0, 1, 0, kind];
    b.extend(rng.octets(4));
    let addresses = if kind & 0x1F == 2 { rng.below(5) } else { 1 };
    if kind & 0x1F == 2 {
        b.push(count(rng, addresses) as u8);
    }
    for _ in 0..addresses {
        let n = rng.pick(&[0, 1, 3, 8, 19, 20, 20, 21]);
        b.push(count(rng, n) as u8);
        b.extend(rng.octets(n));
    }
    for _ in 0..rng.below(4) {
        let value = rng.few(6);
        b.extend([
            rng.pick(&[0x81, 0x88, 0xCF, 0xC5, 0x77]),
            count(rng, value.len()) as u8,
        ]);
        b.extend(value);
    }
    b
}

fn attributes(rng: &mut Rng) -> Vec<u8> {
    let mut all = Vec::new();
    for _ in 0..rng.below(4) {
        let n = rng.pick(&[0, 1, 1, 1, 2, 5]);
        let t = if rng.once_in(6) {
            rng.octet()
        } else {
            rng.below(18) as u8
        };
        all.extend([rng.octet(), t, 0, count(rng, n) as u8]);
        all.extend(rng.octets(n));
    }
    all
}

fn nlri(rng: &mut Rng) -> Vec<u8> {
    let mut prefixes = Vec::new();
    for _ in 0..rng.below(4) {
        let bits = rng.pick(&[0, 1, 7, 8, 9, 16, 56, 160, 255]);
        prefixes.push(bits);
        prefixes.extend(rng.octets((bits as usize).div_ceil(8)));
    }
    if rng.once_in(6) {
        prefixes.truncate(rng.below(prefixes.len() + 1));
    }
    let id = match rng.below(4) {
        0 => rng.few(4),
        _ => vec![0x81],
    };
    let mut b = vec![rng.pick(&[1, 1, 1, 0, 2, 255]), count(rng, id.len()) as u8];
    b.extend(id);
    b.extend((count(rng, prefixes.len()) as u16).to_be_bytes());
    b.extend(prefixes);
    b
}

fn update(rng: &mut Rng) -> Vec<u8> {
    let routes = rng.pick(&[0, 0, 0, 1, 2, 5]);
    let mut b = (count(rng, routes) as u16).to_be_bytes().to_vec();
    b.extend(rng.octets(4 * routes));
    let all = attributes(rng);
    b.extend((count(rng, all.len()) as u16).to_be_bytes());
    b.extend(all);
    for _ in 0..rng.below(4) {
        b.extend(nlri(rng));
    }
    b
}

fn open(rng: &mut Rng) -> Vec<u8> {
    let rdi = rng.few(24);
    let mut b = rng.octets(5);
    b.push(count(rng, rdi.len()) as u8);
    b.extend(rdi);
    b.extend(rng.few(6));
    b
}

fn idrp(rng: &mut Rng) -> Vec<u8> {
    let kind = rng.pick(&[1, 2, 2, 2, 2, 3, 4, 5, 6, 0, 7]);
    let mut b = vec![0x83];
    b.extend(rng.octets(2));
    b.push(kind);
    b.extend(rng.octets(26));
    b.extend(match kind {
        1 => open(rng),
        2 => update(rng),
        3 => vec![rng.below(7) as u8, rng.below(16) as u8],
        _ => rng.few(8),
    });
    b
}

/// Every first octet, and every type of ES-IS and IDRP, at every length up to 48.
fn lengths(check: &mut Check, rng: &mut Rng) {
    for first in 0..=255u8 {
        for size in 0..=48 {
            let mut b = vec![first];
            b.extend(rng.octets(48));
            if first == 0x82 || first == 0x83 {
                for kind in 0..=255u8 {
                    b[if first == 0x82 { 4 } else { 3 }] = kind;
                    b[9] = rng.below(22) as u8;
                    one(check, &b[..size], kind < 8);
                }
            }
            one(check, &b[..size], true);
        }
    }
}

/// Counts of routes, and lengths of attributes, values and NLRI, all small values at every length.
fn updates(check: &mut Check, rng: &mut Rng) {
    for routes in 0..3u8 {
        for len in 0..12u8 {
            for value in 0..6u8 {
                for size in 0..24 {
                    let mut b = vec![0x83, 0, 0, 2];
                    b.extend(rng.octets(26));
                    b.extend([0, routes]);
                    b.extend(rng.octets(4 * routes as usize));
                    b.extend([0, len, 0x40, rng.below(17) as u8, 0, value]);
                    b.extend([1, 1, 0x81, 0, 2, 8, 0x47, 1, 1, 0x81, 0, 0, 0, 0]);
                    b.truncate(30 + size);
                    one(check, &b, size % 5 == 0);
                }
            }
        }
    }
}

fn long(check: &mut Check, rng: &mut Rng) {
    for size in [65_534, 65_535, 65_536, 65_537] {
        for head in [
            &[0x82, 0, 1, 0, 2, 0, 9, 0, 0, 255][..],
            &[0x82, 0, 1, 0, 4, 0, 9, 0, 0, 20],
            &[0x83, 0, 0, 2],
            &[0x83, 0, 0, 1],
            &[0x81, 19, 1, 2, 0x1C],
            &[0x00],
        ] {
            for zeros in [true, false] {
                let mut b = head.to_vec();
                let rest = size - b.len();
                b.extend(if zeros { vec![0; rest] } else { rng.octets(rest) });
                one(check, &b, true);
            }
        }
    }
}

pub fn run(seed: u64, count: usize) {
    let mut check = Check::new("parse_network", ours::parse_network);
    let mut rng = Rng::new(seed);
    lengths(&mut check, &mut rng);
    updates(&mut check, &mut rng);
    for _ in 0..4 * count {
        let whole = if rng.once_in(3) {
            esis(&mut rng)
        } else {
            idrp(&mut rng)
        };
        let b = damaged(&mut rng, whole);
        one(&mut check, &b, rng.once_in(4));
    }
    long(&mut check, &mut rng);
    each(seed, count, &mut |input| match input {
        Input::Call("parse_network" | "parse_esis" | "parse_idrp", b) => one(&mut check, &b, true),
        Input::Call("parse_idrp_update", b) => {
            let mut whole = vec![0x83, 0, 0, 2];
            whole.extend([0; 26]);
            whole.extend(b);
            one(&mut check, &whole, true)
        }
        Input::Call("parse_idrp_open", b) => {
            let mut whole = vec![0x83, 0, 0, 1];
            whole.extend([0; 26]);
            whole.extend(b);
            one(&mut check, &whole, true)
        }
        Input::Call(_, b) => one(&mut check, &b, false),
        _ => {}
    });
    println!(
        "parse_network: {} inputs, {} records, none apart",
        check.inputs, check.records
    );
}
