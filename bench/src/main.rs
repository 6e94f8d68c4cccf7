//! bench: the pool's operations, and pushes made of them, beside the Rust's own, in one run.
//! Each figure is the least of many short turns, so that other work on the machine counts little; where two are compared, their
//! turns alternate.
mod store;

use oracle::atn::{parse_x25, ClnpReassembler, CotpReassembler, X25Reassembler};
use std::hint::black_box;
use std::time::Instant;
use store::Store;

/// The time of one call of f, in ns, over so many.
fn turn(calls: usize, f: &mut impl FnMut()) -> f64 {
    let began = Instant::now();
    for _ in 0..calls {
        f();
    }
    began.elapsed().as_nanos() as f64 / calls as f64
}

/// The least time of one call of f: `turns` turns of `calls` calls.
fn least(turns: usize, calls: usize, mut f: impl FnMut()) -> f64 {
    (0..turns)
        .map(|_| turn(calls, &mut f))
        .fold(f64::INFINITY, f64::min)
}

/// The same of two, turn by turn.
fn both(turns: usize, calls: usize, mut f: impl FnMut(), mut g: impl FnMut()) -> (f64, f64) {
    (0..turns).fold((f64::INFINITY, f64::INFINITY), |(x, y), _| {
        (x.min(turn(calls, &mut f)), y.min(turn(calls, &mut g)))
    })
}

fn key(n: u64) -> [u64; 6] {
    [n, 0, 0, 0, 0, 0]
}

/// A store of four links with so many pending units of 200 octets each, spread over the links.
fn filled(blocks: u64, units: u64) -> Store {
    let mut s = Store::new(4, blocks, blocks / 8, blocks / 2);
    for u in 0..units {
        let link = (u % 4) as usize;
        s.add(link, &key(1000 + u), 0, 0.0);
        let j = s.units(link) - 1;
        s.append(link, j, 0, &[u as u8; 200]);
    }
    assert!(s.test(), "the store is sound");
    s
}

fn single() {
    println!("store test, ns\n");
    for (blocks, units) in [
        (128, 1),
        (128, 6),
        (128, 24),
        (1024, 1),
        (1024, 6),
        (1024, 24),
    ] {
        let mut s = filled(blocks, units);
        println!(
            "| b = {blocks}, {units} units | {:.0} |",
            least(200, 2000, || assert!(black_box(&mut s).test()))
        );
    }
    println!("\none operation at b = 128 and 6 units, ns\n");
    let mut s = filled(128, 6);
    let k = key(1004);
    println!(
        "| find | {:.0} |",
        least(200, 2000, || assert_eq!(black_box(&mut s).find(0, &k), 1))
    );
    println!(
        "| room | {:.0} |",
        least(200, 2000, || assert_eq!(
            black_box(&mut s).room(0, 0, 4, 5),
            2
        ))
    );
    for n in [20usize, 128, 1000] {
        let src = vec![5u8; n];
        println!(
            "| append of {n}, and cut again | {:.0} |",
            least(200, 2000, || {
                s.append(0, 0, 0, &src);
                s.splice(0, 0, 0, 200, &[]);
            })
        );
    }
    println!(
        "| cut alone (to the length it has) | {:.0} |",
        least(200, 2000, || black_box(&mut s).splice(0, 0, 0, 200, &[]))
    );
    let mut out = vec![0u8; 8192];
    println!(
        "| copy out, 200 octets | {:.0} |",
        least(200, 2000, || assert_eq!(s.read(0, 0, 0, &mut out, 0), 200))
    );
    let kept = s.clone();
    println!(
        "| add, and remove the last | {:.0} |",
        least(200, 2000, || {
            s.add(0, &key(7), 0, 0.0);
            let j = s.units(0) - 1;
            s.remove(0, j);
        })
    );
    drop(kept);
}

// ---- pushes, in document 01's order: test, expiry, find, room, and then the change. Those of X.25 and COTP are one call each.

fn blocks(d: usize) -> u64 {
    d.div_ceil(64) as u64
}

/// A piece of CLNP: the header where its offset is 0, the count of octets as the note.
#[allow(clippy::too_many_arguments)]
fn clnp(
    s: &mut Store,
    link: usize,
    key: &[u64; 6],
    total: usize,
    offset: usize,
    header: &[u8],
    piece: &[u8],
    out: &mut [u8],
    now: f64,
    note: u64,
) -> usize {
    let (new, j) = match s.begin(link, key, now) {
        8 => (true, s.units(link)),
        j => (false, j),
    };
    let (have, head) = if new {
        (0, 0)
    } else {
        (blocks(total), blocks(s.len(link, j, 1)))
    };
    let top = if offset == 0 {
        blocks(header.len())
    } else {
        head
    };
    let filled = note as usize + piece.len();
    if filled == total {
        let h = s.read(link, j, 1, out, 0);
        let n = s.read(link, j, 0, out, h);
        out[h + offset..h + offset + piece.len()].copy_from_slice(piece);
        s.remove(link, j);
        return h + n;
    }
    assert_eq!(
        s.room(link, new as u64, have + head, blocks(total) + top),
        2
    );
    if new {
        s.add(link, key, 0, now);
        s.zeros(link, j, 0, 0, total);
    }
    s.write(link, j, 0, offset, piece);
    if offset == 0 {
        s.splice(link, j, 1, 0, header);
    }
    s.mark(link, j, filled as u64, now);
    0
}

// ---- like traffic for both

fn row(name: &str, pushes: usize, rust: f64, ours: f64) {
    println!(
        "| {name} | {:.0} | {:.0} | {:.2} |",
        rust / pushes as f64,
        ours / pushes as f64,
        rust / ours
    );
}

/// Pushes of packets that are parsed already, or of their octets: then both parse first.
fn x25(n: usize, parsed: bool) {
    let octets = |lcn: u8, more: bool, n: usize| {
        let mut b = vec![0x10, lcn, if more { 0x10 } else { 0 }];
        b.extend(vec![0x55; n]);
        b
    };
    let (marked, last) = (octets(9, true, n), octets(9, false, n));
    let read = |b: &[u8]| parse_x25(black_box(b)).expect("a data packet");
    let ready = [&marked, &marked, &marked, &last].map(|b| read(b));
    let mut r = X25Reassembler::new();
    for u in 0..6 {
        r.push(&read(&octets(100 + u, true, 200)), 0.0);
    }
    let rust = || {
        for (i, p) in ready.iter().enumerate() {
            let got = if parsed {
                r.push(p, 0.0)
            } else {
                r.push(&read(if i == 3 { &last } else { &marked }), 0.0)
            };
            assert_eq!(black_box(got).is_some(), i == 3);
        }
    };
    let mut s = filled(128, 6);
    let mut out = vec![0u8; 8192];
    let mut cells = vec![0u64; 4 * 300 + 64];
    let k = key(9);
    let ours = || {
        for i in 0..4 {
            let b = if i == 3 { &last } else { &marked };
            if !parsed {
                assert_eq!(store::parse_x25(black_box(b), &mut cells), 0);
            }
            let answer = if i == 3 {
                s.finish(0, &k, 0.0, &b[3..], &mut out)
            } else {
                s.hold(0, &k, 0, 0.0, &b[3..])
            };
            assert_eq!(answer, if i == 3 { 0 } else { 2 });
        }
    };
    let (rust, ours) = both(200, 500, rust, ours);
    let what = if parsed { "" } else { " with the parse" };
    row(&format!("X.25{what}, four pieces of {n}"), 4, rust, ours);
}

fn cotp(n: usize) {
    let piece = |seq: u8, eot: u8| {
        let mut b = vec![4, 0xF0, 0, 9, seq | eot];
        b.extend(vec![0x55; n]);
        b
    };
    let pieces = [piece(0, 0), piece(1, 0), piece(2, 0), piece(3, 0x80)];
    let mut r = CotpReassembler::new();
    for u in 0..6 {
        let mut b = vec![4, 0xF0, 1, u, 0];
        b.extend(vec![0x44; 200]);
        r.push(&b, 0.0);
    }
    let rust = || {
        for (i, p) in pieces.iter().enumerate() {
            assert_eq!(black_box(r.push(p, 0.0)).is_some(), i == 3);
        }
    };
    let mut s = filled(128, 6);
    let mut out = vec![0u8; 8192];
    let k = key(9);
    let ours = || {
        for (i, p) in pieces[..3].iter().enumerate() {
            assert_eq!(s.hold(0, &k, i as u64 + 1, 0.0, &p[5..]), 2);
        }
        assert_eq!(s.finish(0, &k, 0.0, &pieces[3][5..], &mut out), 0);
    };
    let (rust, ours) = both(200, 500, rust, ours);
    row(&format!("COTP, four pieces of {n}"), 4, rust, ours);
}

/// The pieces of a data unit of so many octets, n in each, as CLNP.
fn clnp_pieces(total: usize, n: usize, id: u8) -> Vec<Vec<u8>> {
    let mut all = Vec::new();
    let mut at = 0;
    while at < total {
        let len = n.min(total - at);
        let more = at + len < total;
        let mut b = vec![0x81, 51, 1, 16, if more { 0xDC } else { 0x9C }, 0, 0, 0, 0];
        b.push(16);
        b.extend([1; 16]);
        b.push(16);
        b.extend([2; 16]);
        b.extend([
            0,
            id,
            (at >> 8) as u8,
            at as u8,
            ((total + 51) >> 8) as u8,
            (total + 51) as u8,
        ]);
        b.resize(51, 0);
        b.extend(vec![0x55; len]);
        all.push(b);
        at += len;
    }
    all
}

fn clnp_row(name: &str, blocks: u64, total: usize, n: usize, turns: usize, calls: usize) {
    let pieces = clnp_pieces(total, n, 9);
    let mut r = ClnpReassembler::new();
    let mut s = if total < 10000 {
        filled(blocks, 6)
    } else {
        Store::new(4, blocks, 16, 960)
    };
    if total < 10000 {
        for u in 0..6 {
            r.push(&clnp_pieces(200, 100, 100 + u)[0], 0.0);
        }
    }
    let rust = || {
        for (i, p) in pieces.iter().enumerate() {
            assert_eq!(black_box(r.push(p, 0.0)).is_some(), i + 1 == pieces.len());
        }
    };
    let mut out = vec![0u8; 65536];
    let k = [
        9,
        0x0101010101010101,
        0x0101010101010101,
        0x0202020202020202,
        0x0202020202020202,
        0,
    ];
    let ours = || {
        let mut at = 0;
        let mut got = 0;
        for p in &pieces {
            got = clnp(
                &mut s,
                0,
                &k,
                total,
                at,
                &p[..51],
                &p[51..],
                &mut out,
                0.0,
                at as u64,
            );
            at += p.len() - 51;
        }
        assert_eq!(got, total + 51);
    };
    let (rust, ours) = both(turns, calls, rust, ours);
    row(name, pieces.len(), rust, ours);
}

/// The packets that are parsed: data of several sizes, RR, a clear, and a call with twenty facilities.
fn packets() -> Vec<(String, Vec<u8>)> {
    let data = |n: usize| [&[0x10, 9, 0x22][..], &vec![0x55; n][..]].concat();
    let mut call = vec![0x10, 9, 0x0B, 0x22, 0x12, 0x34, 40];
    call.extend([0x02, 0x55].repeat(20));
    call.extend([0xC1, 4, 1, 0, 0, 0x63, 0xAA, 0xBB]);
    let mut all: Vec<_> = [20, 64, 128, 240]
        .map(|n| (format!("data of {n}"), data(n)))
        .into();
    all.push(("RR".into(), vec![0x10, 9, 0x21]));
    all.push(("clear".into(), vec![0x10, 9, 0x13, 0x05, 0x42]));
    all.push(("call with 20 facilities".into(), call));
    all
}

fn parsing() {
    println!("\nparse_x25, ns; the last column is how many times the Rust's speed\n");
    println!("| Packet | Rust | port | ratio |\n|---|---|---|---|");
    let mut cells = vec![0u64; 4 * 300 + 64];
    for (name, b) in packets() {
        let (rust, ours) = both(
            200,
            2000,
            || assert!(black_box(parse_x25(black_box(&b))).is_some()),
            || assert_eq!(store::parse_x25(black_box(&b), &mut cells), 0),
        );
        row(&name, 1, rust, ours);
    }
}

fn main() {
    parsing();
    println!();
    single();
    println!("\npushes, ns each, b = 128 and 6 other units pending; the last column is how many times the Rust's speed\n");
    println!("| Traffic | Rust | pool | ratio |\n|---|---|---|---|");
    for parsed in [true, false] {
        for n in [20, 128, 240] {
            x25(n, parsed);
        }
    }
    for n in [20, 128, 240] {
        cotp(n);
    }
    for n in [20, 128, 240] {
        clnp_row(
            &format!("CLNP, four pieces of {n}"),
            128,
            4 * n,
            n,
            200,
            500,
        );
    }
    println!("\nb = 1,024, one unit of 60,000 octets, completion included\n");
    println!("| Traffic | Rust | pool | ratio |\n|---|---|---|---|");
    for n in [200, 1000] {
        clnp_row(&format!("CLNP, pieces of {n}"), 1024, 60000, n, 100, 2);
    }
}
