//! lines SEED COUNT [EVERY]: lines for replay: packets of every kind as P and N, whole and damaged, orders, and lines that are
//! just bad; with EVERY only each so manieth packet.

use oracle::inputs::{each, Input, Rng};
use oracle::line::hex;
use std::io::{self, BufWriter, Write};

/// Good and bad at every rule of the grammar.
fn fixed() -> Vec<Vec<u8>> {
    let mut lines: Vec<Vec<u8>> = [
        "",
        " ",
        "P",
        "P ",
        "P -",
        "N -",
        "P  -",
        "P - ",
        " P -",
        "P --",
        "P 1",
        "P 10",
        "P 100",
        "p 10020043",
        "P 10020043",
        "P 1002004G",
        "P 1002004g",
        "P 10 02",
        "P 10020043\r",
        "P\t10020043",
        "N 81",
        "N 8",
        "N 00",
        "n 00",
        "M 00",
        "PP 00",
        "P 1000FB85",
        "P 1000fb85",
        "P 1000Fb85",
        "P 1000",
        "P 100002",
        "N 820000000400000000",
        "N 83000004",
        "N ff",
        "X 0 0 1002104142",
        "X 0 0 -",
        "X 0 0 ",
        "X 0 0",
        "X  0 0 -",
        "X 0  0 -",
        "X 0 0  -",
        "X 00000000000 0 -",
        "X 4294967295 4294967295 -",
        "X 4294967296 0 -",
        "X 0 4294967296 -",
        "X 9999999999 0 -",
        "X -1 0 -",
        "X +1 0 -",
        "X 0x1 0 -",
        "X 1.0 0 -",
        "C 0 0 81",
        "T 0 0 04F0000180",
        "T 0 0 04F000018",
        "E 0 0",
        "E 0",
        "E 0 0 ",
        "E 0 0 0",
        "E 10000000000 0",
        "E 0000000001 0000000002",
        "Q 0",
        "Q",
        "Q ",
        "Q 0 ",
        "Q 00000000001",
        "Q 4294967295",
        "Q 4294967296",
        "Z 0",
        "PN 00",
        "P00",
        "P:00",
        "-",
        "P -0",
        "P 0-",
    ]
    .iter()
    .map(|line| line.as_bytes().to_vec())
    .collect();
    for octets in [2047, 2048, 2049, 4000] {
        for letter in ["P", "N", "X 0 0", "T 4294967295 4294967295"] {
            lines.push(format!("{letter} {}", "10".repeat(octets)).into_bytes());
        }
        for head in [
            "82000000020000000001",
            "820000000400000000",
            "8300000200000000",
        ] {
            lines.push(format!("N {head}{}", "0".repeat(2 * octets - head.len())).into_bytes());
        }
    }
    for digits in [
        4093, 4094, 4095, 4096, 4097, 4118, 4119, 4120, 4121, 4127, 4128, 4129, 8192, 65_534,
        70_000,
    ] {
        lines.push([b"P ".to_vec(), vec![b'0'; digits]].concat());
    }
    lines.push(vec![0, 255, 128, 13, 9]);
    lines
}

/// Hex of either case, digit by digit.
fn mixed(rng: &mut Rng, octets: &[u8]) -> String {
    let all = hex(octets);
    all.chars()
        .map(|c| {
            if rng.once_in(4) {
                c.to_ascii_uppercase()
            } else {
                c
            }
        })
        .collect()
}

/// One octet of a line changed, left out or put in.
fn spoilt(rng: &mut Rng, mut line: Vec<u8>) -> Vec<u8> {
    let at = rng.below(line.len());
    let octet = rng.pick(&[b' ', b'0', b'-', b'f', b'G', b'\r', b'X', 0, 255]);
    match rng.below(3) {
        0 => line[at] = octet,
        1 => line.insert(at, octet),
        _ => {
            line.remove(at);
        }
    }
    line
}

fn main() -> io::Result<()> {
    let numbers: Vec<u64> = std::env::args()
        .skip(1)
        .map(|n| n.parse().expect("a number"))
        .collect();
    let (seed, count, every) = match numbers[..] {
        [seed, count] => (seed, count, 1),
        [seed, count, every] => (seed, count, every as usize),
        _ => panic!("lines SEED COUNT [EVERY]"),
    };
    let mut rng = Rng::new(seed);
    let mut out = BufWriter::new(io::stdout());
    for line in fixed() {
        out.write_all(&line)?;
        out.write_all(b"\n")?;
    }
    let mut lines: Vec<Vec<u8>> = Vec::new();
    let mut met = 0;
    each(seed, count as usize, &mut |input| {
        met += 1;
        if met % every != 0 {
            return;
        }
        let text = match input {
            Input::Call(name, b) if b.len() <= 2100 => {
                let letter = if name.contains("x25") != rng.once_in(8) {
                    'P'
                } else {
                    'N'
                };
                format!("{letter} {}", mixed(&mut rng, &b))
            }
            Input::Push {
                kind, link, octets, ..
            } if octets.len() <= 2100 => {
                format!(
                    "{} {} {link} {}",
                    kind.letter(),
                    rng.next() as u32,
                    mixed(&mut rng, &octets)
                )
            }
            _ => return,
        };
        let line = text.into_bytes();
        lines.push(if rng.once_in(20) {
            spoilt(&mut rng, line)
        } else {
            line
        });
    });
    // the last line lacks its line feed
    out.write_all(&lines.join(&b'\n'))?;
    out.flush()
}
