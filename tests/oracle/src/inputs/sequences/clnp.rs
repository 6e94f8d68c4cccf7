use super::{disturb, linked, merge, pushes, timed, Rng};
use crate::inputs::{Input, Kind};

#[derive(Clone)]
struct Unit<'a> {
    dst: &'a [u8],
    src: &'a [u8],
    id: u16,
    /// Octets of the header after the segmentation part.
    options: &'a [u8],
}

const UNIT: Unit = Unit {
    dst: &[0x0A],
    src: &[0x0B],
    id: 7,
    options: &[],
};

impl Unit<'_> {
    fn header_len(&self) -> usize {
        9 + 1 + self.dst.len() + 1 + self.src.len() + 6 + self.options.len()
    }

    /// A piece whose total length is that of `data_len` octets of data.
    fn piece(&self, offset: u16, data_len: usize, more: bool, data: &[u8]) -> Vec<u8> {
        self.total(offset, self.header_len() + data_len, more, data)
    }

    fn total(&self, offset: u16, total: usize, more: bool, data: &[u8]) -> Vec<u8> {
        let header = self.header_len();
        let flags = if more { 0xDC } else { 0x9C };
        let seg = (header + data.len()) as u16;
        let mut b = vec![0x81, header as u8, 1, 0x10, flags];
        b.extend_from_slice(&seg.to_be_bytes());
        b.extend_from_slice(&[0, 0, self.dst.len() as u8]);
        b.extend_from_slice(self.dst);
        b.push(self.src.len() as u8);
        b.extend_from_slice(self.src);
        for field in [self.id, offset, total as u16] {
            b.extend_from_slice(&field.to_be_bytes());
        }
        [&b, self.options, data].concat()
    }
}

pub fn fixed() -> Vec<Vec<Input>> {
    let (a, b, c) = three();
    let other = Unit { id: 8, ..UNIT }.piece(1, 3, true, b"z");
    let through = UNIT.piece(0, 3, false, b"whole");
    let over = Unit {
        dst: &[1; 21],
        ..UNIT
    }
    .piece(1, 9, true, b"q");
    let below = UNIT.total(0, 18, true, b"w");
    let mut lists = Vec::new();
    for none in [&through, &over, &below] {
        lists.extend(timed(Kind::Clnp, &a, &b, &c, &other, none));
    }
    lists.extend(orders(&a, &b, &c));
    lists.extend(fits());
    lists.extend(totals());
    lists.extend(keys());
    lists.extend(headers());
    lists.extend(addresses());
    lists.extend(cuts());
    lists
}

fn three() -> (Vec<u8>, Vec<u8>, Vec<u8>) {
    let first = UNIT.piece(0, 6, true, b"AB");
    let second = UNIT.piece(2, 6, true, b"CDE");
    (first, second, UNIT.piece(5, 6, false, b"F"))
}

/// Every row of four out of three pieces.
fn orders(a: &[u8], b: &[u8], c: &[u8]) -> Vec<Vec<Input>> {
    let all = [a, b, c];
    (0..81)
        .map(|n| {
            let row: Vec<_> = [1, 3, 9, 27]
                .iter()
                .map(|d| (0.0, all[n / d % 3]))
                .collect();
            pushes(Kind::Clnp, &row)
        })
        .collect()
}

/// Pieces at every offset and of every length near the end of the unit.
fn fits() -> Vec<Vec<Input>> {
    let mut lists = Vec::new();
    for data_len in 0..5usize {
        for offset in 0..7u16 {
            for count in 0..7 {
                for more in [true, false] {
                    let piece = UNIT.piece(offset, data_len, more, &b"abcdefg"[..count]);
                    let start = UNIT.piece(0, data_len, true, b"XY");
                    let tail = UNIT.piece(1, data_len, true, b"Z");
                    let row = [
                        (0.0, &piece[..]),
                        (0.0, &start),
                        (0.0, &tail),
                        (0.0, &start),
                    ];
                    lists.push(pushes(Kind::Clnp, &row));
                }
            }
        }
    }
    let far = UNIT.total(65_535, 65_535, true, b"far");
    let start = UNIT.total(0, 65_535, true, b"near");
    let rest = UNIT.total(4, 65_535, false, &[0x55; 65_512]);
    lists.push(pushes(
        Kind::Clnp,
        &[(0.0, &far), (0.0, &start), (0.0, &rest)],
    ));
    lists
}

/// Total lengths around the header length, and ones that change.
fn totals() -> Vec<Vec<Input>> {
    let mut lists = Vec::new();
    for total in 17..=23 {
        let first = UNIT.total(0, total, true, b"AB");
        let alone = UNIT.total(0, total, true, b"");
        let late = UNIT.total(2, total, false, b"C");
        for row in [
            [&first, &late, &first],
            [&alone, &late, &first],
            [&late, &alone, &first],
        ] {
            let row: Vec<_> = row.iter().map(|piece| (0.0, &piece[..])).collect();
            lists.push(pushes(Kind::Clnp, &row));
        }
        for next in 17..=23 {
            let late = UNIT.total(2, next, false, b"D");
            lists.push(pushes(
                Kind::Clnp,
                &[(0.0, &first), (0.0, &late), (0.0, &first)],
            ));
            lists.push(pushes(
                Kind::Clnp,
                &[(0.0, &late), (0.0, &first), (0.0, &late)],
            ));
        }
    }
    lists
}

/// Keys that share a part with that of `UNIT`.
const OTHER_KEYS: [(&[u8], &[u8], u16); 9] = [
    (&[0x0A], &[0x0B], 8),
    (&[0x0A], &[0x0B], 0x107),
    (&[0x0C], &[0x0B], 7),
    (&[0x0A], &[0x0C], 7),
    (&[0x0B], &[0x0A], 7),
    (&[0x0B], &[0x0B], 7),
    (&[], &[0x0A, 0x0B], 7),
    (&[0x0A, 0x0B], &[], 7),
    (&[0x0A], &[0x0B], 7),
];

/// Two units, their pieces in turn, on one link and on two.
fn keys() -> Vec<Vec<Input>> {
    let one = UNIT.piece(0, 3, true, b"AB");
    let end = UNIT.piece(2, 3, false, b"C");
    let mut lists = Vec::new();
    for (dst, src, id) in OTHER_KEYS {
        let other = Unit {
            dst,
            src,
            id,
            ..UNIT
        };
        let two = other.piece(0, 3, true, b"ab");
        let tail = other.piece(2, 3, false, b"c");
        let rows = [
            [(0, &one), (0, &two), (0, &tail), (0, &end)],
            [(0, &one), (0, &tail), (0, &end), (0, &two)],
            [(0, &one), (1, &tail), (1, &two), (0, &end)],
        ];
        for row in rows {
            lists.push(linked(
                Kind::Clnp,
                &row.map(|(link, b)| (0.0, link, &b[..])),
            ));
        }
    }
    lists
}

/// Headers that differ within one unit: the last at offset 0 is kept.
fn headers() -> Vec<Vec<Input>> {
    let longer = Unit {
        options: &[0xCD, 1, 5],
        ..UNIT
    };
    let first = UNIT.piece(0, 4, true, b"AB");
    let mut marked = first.clone();
    marked[3] = 0x77;
    marked[4] = 0xFF;
    let rest = longer.piece(2, 4, false, b"CD");
    let again = longer.piece(0, 9, true, b"too long");
    let replaced = longer.piece(0, 4, true, b"EF");
    let rows: [&[&[u8]]; 6] = [
        &[&first, &rest],
        &[&marked, &rest],
        &[&first, &marked, &rest],
        &[&first, &again, &rest],
        &[&again, &first, &rest],
        &[&first, &replaced, &rest, &rest],
    ];
    let row = |row: &&[&[u8]]| {
        let row: Vec<_> = row.iter().map(|piece| (0.0, *piece)).collect();
        pushes(Kind::Clnp, &row)
    };
    rows.iter().map(row).collect()
}

/// Address lengths around 20 for both addresses.
fn addresses() -> Vec<Vec<Input>> {
    const LONG: [u8; 22] = [9; 22];
    let mut lists = Vec::new();
    for (d, s) in [
        (0, 0),
        (19, 20),
        (20, 19),
        (20, 20),
        (21, 1),
        (1, 21),
        (22, 22),
        (0, 21),
    ] {
        let unit = Unit {
            dst: &LONG[..d],
            src: &LONG[..s],
            ..UNIT
        };
        let (one, two) = (unit.piece(0, 3, true, b"AB"), unit.piece(2, 3, false, b"C"));
        lists.push(pushes(Kind::Clnp, &[(0.0, &one), (0.0, &two)]));
        lists.push(pushes(Kind::Clnp, &[(0.0, &two), (0.0, &one), (0.0, &two)]));
    }
    lists
}

/// A first piece cut at every octet, and with every flags octet.
fn cuts() -> Vec<Vec<Input>> {
    let (one, two) = (UNIT.piece(0, 3, true, b"AB"), UNIT.piece(2, 3, false, b"C"));
    let mut lists = Vec::new();
    for at in 0..=one.len() {
        let mut short = one.clone();
        short.truncate(at);
        lists.push(pushes(
            Kind::Clnp,
            &[(0.0, &short), (0.0, &two), (0.0, &one)],
        ));
        if at > 9 {
            short[1] = 9;
            lists.push(pushes(
                Kind::Clnp,
                &[(0.0, &short), (0.0, &two), (0.0, &one)],
            ));
        }
    }
    for flags in 0..=255 {
        let mut other = one.clone();
        other[4] = flags;
        lists.push(pushes(
            Kind::Clnp,
            &[(0.0, &other), (0.0, &two), (0.0, &one)],
        ));
    }
    lists
}

pub fn random(rng: &mut Rng) -> Vec<Vec<u8>> {
    let mut lists = Vec::new();
    for _ in 0..1 + rng.below(3) {
        let size = rng.pick(&[0, 1, 3, 8, 20, 21]);
        let octets = [rng.pick(&[1u8, 2]); 21];
        let unit = Unit {
            dst: &octets[..size],
            src: &octets[..rng.pick(&[1, 2])],
            id: rng.pick(&[7, 8, 0x700]),
            options: rng.pick(&[&[][..], &[0xCD, 1, 2]]),
        };
        let mut pieces = split(rng, &unit);
        disturb(rng, &mut pieces);
        if rng.once_in(3) {
            disturb(rng, &mut pieces);
        }
        lists.push(pieces);
    }
    merge(rng, lists)
}

/// A data unit in pieces, some of them wrong.
fn split(rng: &mut Rng, unit: &Unit) -> Vec<Vec<u8>> {
    let data = rng.few(20);
    let mut pieces = Vec::new();
    let mut at = 0;
    while at < data.len() || at == 0 {
        let count = 1 + rng.below(8);
        let end = (at + count).min(data.len());
        let more = end < data.len();
        let off = if rng.once_in(12) { rng.below(3) } else { 0 };
        let total = unit.header_len() + data.len() + off;
        let total = if rng.once_in(20) {
            rng.below(40)
        } else {
            total
        };
        pieces.push(unit.total((at + off) as u16, total, more, &data[at..end]));
        at = end.max(1);
    }
    pieces
}
