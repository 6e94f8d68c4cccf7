//! `parse_cotp` and `cotp_dt_segment`: every LI and code at every length up to 12, parameters whole and cut, long inputs.
use crate::check::{Check, Rust};
use crate::ours;
use oracle::atn;
use oracle::inputs::{each, Input, Rng};

fn rust(b: &[u8]) -> Option<Rust> {
    let record = atn::reach::parse_cotp(b)?;
    Some(Rust {
        json: serde_json::to_string(&record).expect("JSON"),
        part: Vec::new(),
    })
}

fn segment(b: &[u8]) {
    let rust = atn::cotp_dt_segment(b).map(|(dst, eot, number, user)| {
        [
            dst as u64,
            eot as u64,
            number as u64,
            (b.len() - user.len()) as u64,
        ]
    });
    let ours = ours::cotp_dt_segment(b);
    if ours != rust {
        let hex: String = b.iter().take(64).map(|x| format!("{x:02x}")).collect();
        eprintln!(
            "cotp_dt_segment {hex} ({} octets): {ours:?}, and the Rust {rust:?}",
            b.len()
        );
        std::process::exit(1);
    }
}

fn one(check: &mut Check, b: &[u8], rooms: bool) {
    segment(b);
    let said = if b.len() > 65_535 { None } else { rust(b) };
    check.input(b, said, rooms)
}

fn lengths(check: &mut Check, rng: &mut Rng) {
    for n in 0..1u32 << 16 {
        for size in 0..=12 {
            let mut b = vec![(n >> 8) as u8, n as u8];
            b.extend(rng.octets(12));
            b.truncate(size);
            one(check, &b, n & 0xF0F == 0x404);
        }
    }
}

const CODES: [u8; 20] = [
    8, 0x85, 0x86, 0x87, 0x88, 0x89, 0x8A, 0x8B, 0x8C, 0x8F, 0xC0, 0xC1, 0xC2, 0xC3, 0xC4, 0xC5,
    0xC6, 0xE0, 0xF0, 0xF2,
];

/// TPDUs of every type and format with parameters of every code, whole, with a wrong LI, and cut anywhere.
fn tpdus(check: &mut Check, rng: &mut Rng, count: usize) {
    for _ in 0..count {
        let code = rng.pick(&[
            0xE0, 0xD0, 0x80, 0xC0, 0xF0, 0x10, 0x60, 0x20, 0x50, 0x70, 0x30,
        ]) | rng.octet() & rng.pick(&[0, 1, 15]);
        let fixed = rng.pick(&[3, 4, 5, 6, 7, 9]);
        let mut b = vec![0, code];
        b.extend(rng.octets(fixed - 1));
        for _ in 0..rng.below(6) {
            let value = if rng.once_in(2) {
                rng.below(5)
            } else {
                rng.below(40)
            };
            let t = if rng.once_in(6) {
                rng.octet()
            } else {
                rng.pick(&CODES)
            };
            b.extend([t, value as u8]);
            let mut octets = rng.octets(value);
            if t == 0xC0 && value == 1 {
                octets[0] = rng.below(16) as u8;
            }
            b.extend(octets);
        }
        let li = b.len() - 1;
        b[0] = match rng.below(8) {
            0 => rng.octet(),
            1 => (li + 1) as u8,
            _ => li as u8,
        };
        b.extend(rng.few(30));
        if rng.once_in(4) {
            b.truncate(rng.below(b.len() + 1));
        }
        one(check, &b, rng.once_in(4));
    }
}

fn long(check: &mut Check, rng: &mut Rng) {
    for size in [65_534, 65_535, 65_536, 65_537] {
        for head in [
            [4, 0xF0],
            [7, 0xF0],
            [250, 0xE0],
            [254, 0x70],
            [255, 0xF0],
            [4, 0x10],
        ] {
            let mut b = head.to_vec();
            b.extend(rng.octets(size - 2));
            one(check, &b, true);
        }
    }
}

pub fn run(seed: u64, count: usize) {
    let mut check = Check::new("parse_cotp", ours::parse_cotp);
    let mut rng = Rng::new(seed);
    lengths(&mut check, &mut rng);
    tpdus(&mut check, &mut rng, 4 * count);
    long(&mut check, &mut rng);
    each(seed, count, &mut |input| match input {
        Input::Call("parse_cotp" | "cotp_dt_segment", b) => one(&mut check, &b, true),
        Input::Call(_, b) => one(&mut check, &b, false),
        _ => {}
    });
    println!(
        "parse_cotp, cotp_dt_segment: {} inputs, {} records, none apart",
        check.inputs, check.records
    );
}
