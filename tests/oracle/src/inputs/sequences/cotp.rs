use super::{disturb, merge, pushes, timed, Rng};
use crate::inputs::{Input, Kind};

/// A DT in the short format.
fn short(dst_ref: u16, eot: bool, number: u8, user: &[u8]) -> Vec<u8> {
    let [high, low] = dst_ref.to_be_bytes();
    let last = number & 0x7F | if eot { 0x80 } else { 0 };
    [&[4, 0xF0, high, low, last], user].concat()
}

/// A DT in the long format.
fn long(dst_ref: u16, eot: bool, number: u32, user: &[u8]) -> Vec<u8> {
    let [high, low] = dst_ref.to_be_bytes();
    let number = number & 0x7FFF_FFFF | if eot { 0x8000_0000 } else { 0 };
    [&[7, 0xF0, high, low], &number.to_be_bytes()[..], user].concat()
}

pub fn fixed() -> Vec<Vec<Input>> {
    let (a, b, c) = (
        short(9, false, 0, b"AB"),
        short(9, false, 1, b"C"),
        short(9, true, 2, b"DE"),
    );
    let other = short(10, true, 0, b"F");
    let ak = [4, 0x60, 0, 9, 1];
    let wrong = short(9, false, 5, b"G");
    let lost = short(11, false, 1, b"H");
    let mut lists = Vec::new();
    for none in [&ak[..], &wrong, &lost] {
        lists.extend(timed(Kind::Cotp, &a, &b, &c, &other, none));
    }
    let (a4, b4, c4) = (
        long(9, false, 0, b"AB"),
        long(9, false, 1, b"C"),
        long(9, true, 2, b"D"),
    );
    lists.extend(timed(Kind::Cotp, &a4, &b4, &c4, &other, &ak));
    lists.extend(orders());
    lists.extend(references());
    lists.extend(heads(&a, &c));
    lists.push(past_seven_bits(false));
    lists.push(past_seven_bits(true));
    lists
}

/// Every row of four out of six pieces.
fn orders() -> Vec<Vec<Input>> {
    let pieces = [
        short(9, false, 0, b"A"),
        short(9, true, 0, b"B"),
        short(9, false, 1, b"C"),
        long(9, true, 1, b"D"),
        short(9, true, 2, b"E"),
        long(9, false, 2, b""),
    ];
    (0..6usize.pow(4))
        .map(|n| {
            let row: Vec<_> = [1, 6, 36, 216]
                .iter()
                .map(|d| (0.0, &pieces[n / d % 6][..]))
                .collect();
            pushes(Kind::Cotp, &row)
        })
        .collect()
}

/// References that share an octet.
fn references() -> Vec<Vec<Input>> {
    let row = |other: &u16| {
        let (a, b) = (short(9, false, 0, b"A"), short(*other, false, 0, b"B"));
        let (c, d) = (short(9, true, 1, b"C"), short(*other, true, 1, b"D"));
        pushes(Kind::Cotp, &[(0.0, &a), (0.0, &b), (0.0, &d), (0.0, &c)])
    };
    [9, 8, 10, 0x109, 0x900, 0xFF09].iter().map(row).collect()
}

/// Every code octet and length indicator between a first and a last piece.
fn heads(first: &[u8], last: &[u8]) -> Vec<Vec<Input>> {
    let mut lists = Vec::new();
    for code in 0..=255 {
        let piece = [4, code, 0, 9, 1, 0x55];
        lists.push(pushes(
            Kind::Cotp,
            &[(0.0, first), (0.0, &piece), (0.0, last)],
        ));
    }
    for li in 0..=255u8 {
        for count in [9, 40, 260] {
            let mut piece = vec![li, 0xF0, 0, 9, 1, 0, 0, 1];
            piece.resize(count, 0x66);
            lists.push(pushes(
                Kind::Cotp,
                &[(0.0, first), (0.0, &piece), (0.0, last)],
            ));
        }
    }
    lists
}

/// The number after 127: the expected one is not reduced.
fn past_seven_bits(wide: bool) -> Vec<Input> {
    let mut list = vec![Input::New];
    let mut push = |octets: Vec<u8>| {
        list.push(Input::Push {
            kind: Kind::Cotp,
            time: 0.0,
            link: 0,
            octets,
        })
    };
    for number in 0..=127 {
        push(short(9, false, number, &[number]));
    }
    if wide {
        push(long(9, false, 128, b"on"));
        push(long(9, true, 129, b"end"));
    }
    push(short(9, true, 0x80, b"new"));
    push(short(9, true, 1, b"one"));
    list
}

/// Lengthens the header by a parameter without a value.
fn add_param(piece: &mut Vec<u8>) {
    let end = piece[0] as usize + 1;
    piece.splice(end..end, [0x08, 0]);
    piece[0] += 2;
}

pub fn random(rng: &mut Rng) -> Vec<Vec<u8>> {
    let mut lists = Vec::new();
    for _ in 0..1 + rng.below(4) {
        let dst_ref = rng.pick(&[9, 10, 0x109]);
        let count = 1 + rng.below(5) as u32;
        let mut pieces = Vec::new();
        for number in 0..count {
            let (last, user) = (number + 1 == count, rng.few(6));
            pieces.push(match rng.below(2) {
                0 => short(dst_ref, last, number as u8, &user),
                _ => long(dst_ref, last, number, &user),
            });
        }
        let at = rng.below(pieces.len());
        match rng.below(8) {
            0 => pieces[at][0] = rng.octet() & 15,
            1 => pieces[at][1] |= rng.octet() & 15,
            2 | 3 => add_param(&mut pieces[at]),
            _ => {}
        }
        disturb(rng, &mut pieces);
        lists.push(pieces);
    }
    merge(rng, lists)
}
