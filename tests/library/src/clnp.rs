//! `parse_clnp`, `clnp_segment`, `clnp_addresses` and `clnp_cotp_tpdu`: headers with addresses, segmentation, options, labels and TPDUs, whole, cut and damaged.
use crate::check::{Check, Rust};
use crate::ours;
use oracle::atn;
use oracle::inputs::{each, Input, Rng};

fn rust(b: &[u8]) -> Option<Rust> {
    let record = atn::reach::parse_clnp(b)?;
    Some(Rust {
        json: serde_json::to_string(&record).expect("JSON"),
        part: Vec::new(),
    })
}

/// Two answers that must be the same.
fn same<T: PartialEq + std::fmt::Debug>(name: &str, b: &[u8], ours: T, rust: T) {
    if ours != rust {
        let hex: String = b.iter().take(64).map(|x| format!("{x:02x}")).collect();
        eprintln!(
            "{name} {hex} ({} octets): {ours:?}, and the Rust {rust:?}",
            b.len()
        );
        std::process::exit(1);
    }
}

fn parts(b: &[u8]) {
    let tpdu = match atn::clnp_cotp_tpdu(b) {
        _ if b.len() > 65_535 => (3, b.len()),
        None => (15, b.len()),
        Some(part) => (0, b.len() - part.len()),
    };
    same("clnp_cotp_tpdu", b, ours::clnp_cotp_tpdu(b), tpdu);
    let segment = atn::clnp_segment(b).map(|s| {
        [
            s.pdu_id as u64,
            s.offset as u64,
            s.total_len as u64,
            s.more as u64,
            s.hdr_len as u64,
        ]
    });
    same("clnp_segment", b, ours::clnp_segment(b), segment);
    let addresses = atn::reach::clnp_addresses(b);
    let ours = ours::clnp_addresses(b).map(|(dst, src)| (dst.to_vec(), src.to_vec()));
    same("clnp_addresses", b, ours, addresses);
}

fn one(check: &mut Check, b: &[u8], rooms: bool) {
    parts(b);
    let said = if b.len() > 65_535 { None } else { rust(b) };
    check.input(b, said, rooms)
}

/// A tag set of a security label: those that the Rust names, and others.
fn tag(rng: &mut Rng) -> Vec<u8> {
    let name = rng.pick(&[3, 5, 6, 7, 15, 15, 1, 200]);
    let n = rng.pick(&[0, 1, 1, 1, 2, 2, 3]);
    let mut value = rng.octets(n);
    if n > 0 && rng.once_in(2) {
        value[0] = rng.pick(&[0, 1, 2, 3, 4, 5, 6, 0x30, 0x20, 0x60, 0xFF]);
    }
    let size = if rng.once_in(12) {
        n as u8 + 1
    } else {
        n as u8
    };
    [
        &[if rng.once_in(12) { 2 } else { 1 }, name, size][..],
        &value,
    ]
    .concat()
}

fn label(rng: &mut Rng) -> Vec<u8> {
    let id = rng.few(6);
    let mut b = vec![if rng.once_in(10) {
        rng.octet()
    } else {
        id.len() as u8
    }];
    b.extend(id);
    if !rng.once_in(5) {
        let mut tags = Vec::new();
        for _ in 0..rng.below(4) {
            tags.extend(tag(rng));
        }
        b.push(if rng.once_in(8) {
            rng.octet()
        } else {
            tags.len() as u8
        });
        b.extend(tags);
    }
    b
}

fn options(rng: &mut Rng) -> Vec<u8> {
    let mut all = Vec::new();
    for _ in 0..rng.below(4) {
        let t = rng.pick(&[
            0x05, 0xC1, 0xC3, 0xC5, 0xC5, 0xC5, 0xC8, 0xCB, 0xCC, 0xCD, 0x77,
        ]);
        let value = match t {
            0xC5 if !rng.once_in(4) => [&[0xC0][..], &label(rng)].concat(),
            _ => rng.few(4),
        };
        all.extend([
            t,
            if rng.once_in(12) {
                rng.octet()
            } else {
                value.len() as u8
            },
        ]);
        all.extend(value);
    }
    all
}

fn pdus(check: &mut Check, rng: &mut Rng, count: usize) {
    for _ in 0..count {
        let flags = rng.pick(&[0x1C, 0x1C, 0x1C, 0x1E, 0x1F, 0x01, 0x07]) | rng.octet() & 0xE0;
        let mut b = vec![0x81, 0, 1, rng.octet(), flags];
        b.extend(rng.octets(4));
        for _ in 0..2 {
            let n = rng.pick(&[0, 1, 2, 8, 20, 20, 21]);
            b.push(n as u8);
            b.extend(rng.octets(n));
        }
        if flags & 0x80 != 0 && !rng.once_in(8) {
            b.extend(rng.octets(2));
            let offset = if rng.once_in(2) {
                vec![0, 0]
            } else {
                rng.octets(2)
            };
            b.extend(offset);
            b.extend(rng.octets(2));
        }
        b.extend(options(rng));
        b[1] = match rng.below(10) {
            0 => rng.octet(),
            1 => b.len() as u8 + 1,
            _ => b.len() as u8,
        };
        let li = rng.pick(&[4u8, 6, 7, 9, 5]);
        b.extend([
            li,
            rng.pick(&[0xF0, 0xF1, 0x10, 0xE0, 0x70, 0x60, 0x80, 0x33]),
        ]);
        b.extend(rng.octets(li as usize - 1));
        b.extend(rng.few(20));
        if rng.once_in(3) {
            b.truncate(rng.below(b.len() + 1));
        }
        if rng.once_in(6) && !b.is_empty() {
            let at = rng.below(b.len());
            b[at] = rng.octet();
        }
        one(check, &b, rng.once_in(4));
    }
}

/// Every flags octet and header length at every length up to 24.
fn lengths(check: &mut Check, rng: &mut Rng) {
    for flags in 0..=255u8 {
        for size in 0..=24usize {
            for header in [8, 9, 10, 11, 12, 17, 18, 20, 24, 25] {
                let mut b = vec![0x81, header, 1, 2, flags, 0, 9, 0, 0, rng.below(3) as u8];
                b.extend(rng.octets(15));
                b[11] = rng.below(4) as u8;
                b.truncate(size);
                one(check, &b, flags & 0x1F == 0x1C);
            }
        }
    }
}

fn long(check: &mut Check, rng: &mut Rng) {
    for size in [65_534, 65_535, 65_536, 65_537] {
        for flags in [0x1C, 0x9C, 0xDC, 0x81] {
            let mut b = vec![
                0x81, 19, 1, 2, flags, 0, 9, 0, 0, 1, 5, 1, 6, 0, 1, 0, 0, 0, 30, 4, 0xF0,
            ];
            b.extend(rng.octets(size - b.len()));
            one(check, &b, true);
        }
    }
}

pub fn run(seed: u64, count: usize) {
    let mut check = Check::new("parse_clnp", ours::parse_clnp);
    let mut rng = Rng::new(seed);
    lengths(&mut check, &mut rng);
    pdus(&mut check, &mut rng, 4 * count);
    long(&mut check, &mut rng);
    each(seed, count, &mut |input| match input {
        Input::Call("parse_clnp" | "parse_network" | "clnp_cotp_tpdu", b) => {
            one(&mut check, &b, true)
        }
        Input::Call(_, b) => one(&mut check, &b, false),
        _ => {}
    });
    println!("parse_clnp, clnp_segment, clnp_addresses, clnp_cotp_tpdu: {} inputs, {} records, none apart", check.inputs, check.records);
}
