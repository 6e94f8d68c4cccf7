//! The random part.

use super::damage::damage;
use super::packet::Packet;
use super::packets::FAMILIES;
use super::rng::Rng;
use super::{sequences, Input, Kind, Sink};
use crate::answers::PARSERS;

/// Gives exactly `count` inputs to `sink`.
pub fn add(seed: u64, count: usize, sink: Sink) {
    let mut rng = Rng::new(seed);
    let mut left = count;
    let mut limited = |input: Input| {
        if left > 0 {
            left -= 1;
            sink(input);
        }
        left > 0
    };
    if count > 0 {
        while some(&mut rng, &mut limited) {}
    }
}

/// One or more inputs; false when no more are wanted.
fn some(rng: &mut Rng, sink: &mut dyn FnMut(Input) -> bool) -> bool {
    match rng.below(2000) {
        0 => long(rng).into_iter().all(sink),
        1..=40 => sequences::random(rng).into_iter().all(sink),
        41..=200 => sink(octets(rng)),
        _ => sink(packet(rng)),
    }
}

fn octets(rng: &mut Rng) -> Input {
    let bound = rng.pick(&[4, 16, 40, 40, 100, 300]);
    let (name, _) = rng.pick(&PARSERS);
    Input::Call(name, rng.few(bound))
}

fn packet(rng: &mut Rng) -> Input {
    let (build, names) = rng.pick(&FAMILIES);
    let mut packet = build(rng);
    let wrongs = rng.pick(&[0, 0, 0, 1, 1, 2]);
    for _ in 0..wrongs {
        packet = Packet {
            octets: damage(rng, &packet),
            lengths: Vec::new(),
        };
    }
    Input::Call(rng.pick(names), packet.octets)
}

/// Up to 65,535 octets.
fn long(rng: &mut Rng) -> Vec<Input> {
    let size = rng.pick(&[300, 4_000, 20_000, 65_535]);
    let (build, names) = rng.pick(&FAMILIES);
    let mut octets = build(rng).octets;
    match rng.below(3) {
        0 => octets.resize(size, 0),
        1 => octets.extend(rng.octets(size)),
        _ => {
            while octets.len() < size {
                octets.extend(build(rng).octets);
            }
        }
    }
    octets.truncate(65_535);
    if rng.once_in(4) {
        let kind = rng.pick(&[Kind::X25, Kind::Clnp, Kind::Cotp]);
        let (time, link) = (rng.below(100) as f64, 0);
        let push = Input::Push {
            kind,
            time,
            link,
            octets,
        };
        return vec![Input::New, push];
    }
    vec![Input::Call(rng.pick(names), octets)]
}
