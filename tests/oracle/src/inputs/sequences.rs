//! Pushes to reassemblers: sequences that each start with `new`.

mod clnp;
mod cotp;
mod x25;

use super::rng::Rng;
use super::{Input, Kind};

/// The sequences of the fixed part.
pub fn fixed() -> Vec<Vec<Input>> {
    [x25::fixed(), clnp::fixed(), cotp::fixed()].concat()
}

/// One random sequence, now and then of all three kinds.
pub fn random(rng: &mut Rng) -> Vec<Input> {
    let mut pieces = match rng.below(4) {
        0 => of_kind(Kind::X25, x25::random(rng)),
        1 => of_kind(Kind::Clnp, clnp::random(rng)),
        2 => of_kind(Kind::Cotp, cotp::random(rng)),
        _ => mixed(rng),
    };
    let mut clock = rng.pick(&[0.0, 1000.0, -30.5, 1.7e9, 4_503_599_627_370_495.0]);
    let links = 1 + rng.below(3);
    let mut list = vec![Input::New];
    for (kind, octets) in pieces.drain(..) {
        list.push(Input::Push {
            kind,
            time: tick(rng, &mut clock),
            link: rng.below(links * 3).saturating_sub(links * 2) as u64,
            octets,
        });
    }
    list
}

fn of_kind(kind: Kind, pieces: Vec<Vec<u8>>) -> Vec<(Kind, Vec<u8>)> {
    pieces.into_iter().map(|octets| (kind, octets)).collect()
}

fn mixed(rng: &mut Rng) -> Vec<(Kind, Vec<u8>)> {
    let lists = vec![
        of_kind(Kind::X25, x25::random(rng)),
        of_kind(Kind::Clnp, clnp::random(rng)),
        of_kind(Kind::Cotp, cotp::random(rng)),
    ];
    merge(rng, lists)
}

/// Moves the clock and tells the time of the next push, which may be one that
/// no clock shows.
fn tick(rng: &mut Rng, clock: &mut f64) -> f64 {
    let steps = [
        0.0, 0.0, 0.25, 0.001, 1.0, 7.3, 30.0, 59.0, 59.999999, 60.0, 60.5, -5.0,
    ];
    let odd = [
        f64::NAN,
        f64::INFINITY,
        f64::NEG_INFINITY,
        -0.0,
        1e300,
        -1e300,
        5e-324,
    ];
    if rng.once_in(60) {
        return rng.pick(&odd);
    }
    let step = if rng.below(3) > 0 {
        rng.pick(&steps[..6])
    } else {
        rng.pick(&steps)
    };
    *clock += step;
    *clock
}

/// Repeats, drops or moves some of the pieces.
fn disturb(rng: &mut Rng, pieces: &mut Vec<Vec<u8>>) {
    if pieces.is_empty() {
        return;
    }
    let at = rng.below(pieces.len());
    match rng.below(6) {
        0 => rng.shuffle(pieces),
        1 => pieces.insert(at, pieces[at].clone()),
        2 => drop(pieces.remove(at)),
        3 => {
            let last = pieces.len() - 1;
            pieces.swap(at, last);
        }
        _ => {}
    }
}

/// The lists merged, each keeping its order.
fn merge<T>(rng: &mut Rng, mut lists: Vec<Vec<T>>) -> Vec<T> {
    let mut merged = Vec::new();
    lists.iter_mut().for_each(|list| list.reverse());
    while lists.iter().any(|list| !list.is_empty()) {
        let at = rng.below(lists.len());
        merged.extend(lists[at].pop());
    }
    merged
}

/// A sequence of pushes at link 0 unless told otherwise.
fn pushes(kind: Kind, steps: &[(f64, &[u8])]) -> Vec<Input> {
    let steps: Vec<_> = steps
        .iter()
        .map(|(time, octets)| (*time, 0, *octets))
        .collect();
    linked(kind, &steps)
}

fn linked(kind: Kind, steps: &[(f64, u64, &[u8])]) -> Vec<Input> {
    let push = |(time, link, octets): &(f64, u64, &[u8])| Input::Push {
        kind,
        time: *time,
        link: *link,
        octets: octets.to_vec(),
    };
    let mut list = vec![Input::New];
    list.extend(steps.iter().map(push));
    list
}

/// Pairs of times on both sides of the sixty seconds, and odd ones.
fn times() -> Vec<(f64, f64)> {
    let mut pairs = Vec::new();
    let steps = [
        0.0,
        1.0,
        30.5,
        58.999,
        59.0,
        59.999,
        59.99999999999999,
        60.0,
        60.00000000000001,
        60.5,
        61.0,
        1e9,
        -1.0,
        -60.0,
        -61.0,
    ];
    for start in [0.0, 1.5, -10.0, 1.7e9] {
        pairs.extend(steps.iter().map(|step| (start, start + step)));
    }
    let odd = [
        f64::NAN,
        f64::INFINITY,
        f64::NEG_INFINITY,
        -0.0,
        f64::MAX,
        f64::MIN,
        5e-324,
    ];
    for one in odd {
        pairs.extend(odd.iter().map(|two| (one, *two)));
        pairs.extend([(one, 0.0), (0.0, one), (one, 60.0), (60.0, one)]);
    }
    pairs
}

/// For a first piece, a second of the same unit, the last one, a last one of
/// another unit, and a push that is no piece: what time and order do.
fn timed(
    kind: Kind,
    first: &[u8],
    middle: &[u8],
    last: &[u8],
    other: &[u8],
    none: &[u8],
) -> Vec<Vec<Input>> {
    let mut lists = Vec::new();
    for (start, end) in times() {
        lists.push(pushes(
            kind,
            &[(start, first), (end, middle), (end, last), (end, last)],
        ));
        lists.push(pushes(
            kind,
            &[(start, first), (start, middle), (end, last)],
        ));
        lists.push(pushes(
            kind,
            &[(start, first), (end, other), (start, middle), (start, last)],
        ));
        lists.push(pushes(
            kind,
            &[(start, first), (end, none), (start, middle), (start, last)],
        ));
        lists.push(linked(
            kind,
            &[
                (start, 0, first),
                (end, 1, other),
                (start, 0, middle),
                (start, 0, last),
            ],
        ));
    }
    let slow = [(0.0, first), (59.0, middle), (118.0, last), (119.0, last)];
    lists.push(pushes(kind, &slow));
    lists.push(pushes(
        kind,
        &[(0.0, first), (50.0, first), (100.0, middle), (150.0, last)],
    ));
    lists.push(pushes(
        kind,
        &[(0.0, first), (50.0, none), (70.0, middle), (70.0, last)],
    ));
    lists.push(pushes(
        kind,
        &[(0.0, first), (50.0, last), (70.0, middle), (70.0, last)],
    ));
    lists.push(linked(
        kind,
        &[
            (0.0, 0, first),
            (0.0, 1, first),
            (1.0, 0, middle),
            (1.0, 1, last),
            (1.0, 0, last),
        ],
    ));
    lists.push(linked(
        kind,
        &[
            (0.0, 0, first),
            (0.0, 18_446_744_073_709_551_615, middle),
            (1.0, 0, last),
        ],
    ));
    lists
}
