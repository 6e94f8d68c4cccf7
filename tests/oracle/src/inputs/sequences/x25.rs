use super::{disturb, linked, merge, pushes, timed, Rng};
use crate::inputs::{Input, Kind};

fn data(lcn: u16, more: bool, octets: &[u8]) -> Vec<u8> {
    let kind = if more { 0x10 } else { 0x00 };
    [&[0x10 | (lcn >> 8) as u8, lcn as u8, kind], octets].concat()
}

pub fn fixed() -> Vec<Vec<Input>> {
    let (first, middle) = (data(2, true, b"AB"), data(2, true, b"C"));
    let (last, other) = (data(2, false, b"DE"), data(3, false, b"F"));
    let rr = [0x10, 0x02, 0x01];
    let mut lists = timed(Kind::X25, &first, &middle, &last, &other, &rr);
    let refused = [0x20, 0x02, 0x10, 0x41];
    lists.extend(timed(Kind::X25, &first, &middle, &last, &other, &refused));
    for other in [0x002, 0x102, 0x003, 0xF02, 0x012] {
        let (begin, tail) = (data(other, true, b"ab"), data(other, false, b"c"));
        let steps = [(0.0, &first[..]), (0.0, &begin), (1.0, &tail), (1.0, &last)];
        lists.push(pushes(Kind::X25, &steps));
        let steps = [
            (0.0, 0, &first[..]),
            (0.0, 1, &begin),
            (1.0, 0, &tail),
            (1.0, 1, &last),
        ];
        lists.push(linked(Kind::X25, &steps));
    }
    lists.extend(empty_pieces());
    lists.extend(every_type(&first, &last));
    lists
}

fn empty_pieces() -> Vec<Vec<Input>> {
    let (mark, end) = (data(5, true, b""), data(5, false, b""));
    let last = data(5, false, b"x");
    vec![
        pushes(
            Kind::X25,
            &[(0.0, &end), (0.0, &mark), (0.0, &end), (0.0, &last)],
        ),
        pushes(
            Kind::X25,
            &[(0.0, &mark), (0.0, &mark), (0.0, &last), (0.0, &end)],
        ),
        pushes(
            Kind::X25,
            &[(0.0, &[]), (0.0, &[0x10]), (0.0, &[0x10, 5]), (0.0, &end)],
        ),
    ]
}

/// Every type octet between two pieces.
fn every_type(first: &[u8], last: &[u8]) -> Vec<Vec<Input>> {
    let between = |kind: u8| [0x10, 2, kind, 0x61, 0, 0x62];
    (0..=255)
        .map(|kind| {
            pushes(
                Kind::X25,
                &[(0.0, first), (1.0, &between(kind)), (2.0, last)],
            )
        })
        .collect()
}

pub fn random(rng: &mut Rng) -> Vec<Vec<u8>> {
    let mut lists = Vec::new();
    for _ in 0..1 + rng.below(4) {
        let lcn = rng.pick(&[2, 3, 0x102, 0xF02]);
        let mut pieces = Vec::new();
        for _ in 0..rng.below(5) {
            pieces.push(data(lcn, true, &rng.few(6)));
        }
        pieces.push(data(lcn, false, &rng.few(6)));
        for piece in &mut pieces {
            piece[0] |= rng.pick(&[0, 0, 0x40, 0x80]);
            piece[2] |= rng.octet() & 0xEE;
        }
        if rng.once_in(3) {
            pieces.insert(0, vec![0x10, lcn as u8, rng.octet() | 1, rng.octet()]);
        }
        disturb(rng, &mut pieces);
        lists.push(pieces);
    }
    merge(rng, lists)
}
