//! `parse_x25`: short inputs without exception, every second and third octet at every length up to 12, and random calls.
use crate::check::{Check, Rust};
use crate::ours;
use oracle::atn;
use oracle::inputs::{each, Input, Rng};

fn rust(b: &[u8]) -> Option<Rust> {
    let packet = atn::parse_x25(b)?;
    Some(Rust {
        json: serde_json::to_string(&packet).expect("JSON"),
        part: packet.payload,
    })
}

fn one(check: &mut Check, b: &[u8], rooms: bool) {
    let said = if b.len() > 65_535 { None } else { rust(b) };
    check.input(b, said, rooms)
}

fn short(check: &mut Check) {
    one(check, &[], true);
    for n in 0..1u32 << 24 {
        let b = [(n >> 16) as u8, (n >> 8) as u8, n as u8];
        if n < 1 << 8 {
            one(check, &b[2..], true);
        }
        if n < 1 << 16 {
            one(check, &b[1..], true);
        }
        one(check, &b, n & 0xF00F == 0x1001);
    }
}

fn lengths(check: &mut Check, rng: &mut Rng) {
    for first in [0x10, 0x5F, 0x21] {
        for n in 0..1u32 << 16 {
            for size in 3..=12 {
                let mut b = vec![first, (n >> 8) as u8, n as u8];
                b.extend(rng.octets(size - 3));
                if rng.once_in(3) && size > 3 {
                    b[3] = rng.pick(&[0, 1, 0x10, 0x11, 0x22]);
                }
                one(check, &b, n & 0xFF0 == 0);
            }
        }
    }
}

/// Calls with facilities of every class up to a length of 255, SNDCF fields and user data, whole and cut anywhere.
fn calls(check: &mut Check, rng: &mut Rng, count: usize) {
    for _ in 0..count {
        let mut b = vec![
            0x10 | rng.octet() & 0xCF,
            rng.octet(),
            rng.pick(&[0x0B, 0x0F]),
        ];
        let digits = rng.octet();
        b.push(digits);
        b.extend(rng.octets(((digits & 15) + (digits >> 4)).div_ceil(2) as usize));
        let mut facilities = Vec::new();
        let most = rng.pick(&[0, 1, 3, 20, 200]);
        while facilities.len() < most {
            let code = rng.octet();
            facilities.push(code);
            let n = if code >> 6 == 3 {
                rng.below(9)
            } else {
                (code >> 6) as usize + 1
            };
            if code >> 6 == 3 {
                facilities.push(n as u8);
            }
            facilities.extend(rng.octets(n));
        }
        facilities.truncate(255);
        let length = facilities.len() as u8;
        b.push(if rng.once_in(8) { rng.octet() } else { length });
        b.extend(facilities);
        if rng.once_in(2) {
            b.extend([
                0xC1,
                4 + rng.below(3) as u8,
                rng.pick(&[1, 1, 1, 2]),
                rng.octet(),
                rng.octet(),
                rng.octet(),
            ]);
        }
        b.extend(rng.few(12));
        if rng.once_in(3) {
            b.truncate(rng.below(b.len() + 1));
        }
        one(check, &b, rng.once_in(4));
    }
}

fn long(check: &mut Check, rng: &mut Rng) {
    for size in [65_534, 65_535, 65_536, 65_537, 100_000] {
        for third in [0x00, 0x10, 0x0B, 0x0F, 0x13, 0xF1, 0x01, 0x33] {
            let mut b = vec![0x10, 7, third, 0x11, 0x22, 200];
            b.extend(rng.octets(size - 6));
            one(check, &b, true);
        }
    }
}

pub fn run(seed: u64, count: usize) {
    let mut check = Check::new("parse_x25", ours::parse_x25);
    let mut rng = Rng::new(seed);
    short(&mut check);
    lengths(&mut check, &mut rng);
    calls(&mut check, &mut rng, count);
    long(&mut check, &mut rng);
    each(seed, count, &mut |input| match input {
        Input::Call("parse_x25" | "x25_payload", b) => one(&mut check, &b, true),
        Input::Call(_, b) => one(&mut check, &b, false),
        _ => {}
    });
    println!(
        "parse_x25: {} inputs, {} records, none apart",
        check.inputs, check.records
    );
}
