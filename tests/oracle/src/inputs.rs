//! Inputs for the oracle: a part that is the same for every seed, meant to
//! reach every branch and both sides of every bound, and a random part.

mod damage;
mod fixed;
mod packet;
mod packets;
mod random;
mod rng;
mod sequences;

pub use crate::line::{Input, Kind};
pub use rng::Rng;

/// Where inputs go.
pub type Sink<'a> = &'a mut dyn FnMut(Input);

/// Gives the fixed part, then `count` random inputs, to `sink`.
pub fn each(seed: u64, count: usize, sink: Sink) {
    fixed::add(sink);
    random::add(seed, count, sink);
}

/// The fixed part alone.
pub fn each_fixed(sink: Sink) {
    fixed::add(sink);
}

/// The random part alone.
pub fn each_random(seed: u64, count: usize, sink: Sink) {
    random::add(seed, count, sink);
}

/// All inputs of `each` in a list.
pub fn all(seed: u64, count: usize) -> Vec<Input> {
    let mut inputs = Vec::new();
    each(seed, count, &mut |input| inputs.push(input));
    inputs
}

fn call(sink: Sink, names: &[&'static str], octets: &[u8]) {
    for name in names {
        sink(Input::Call(name, octets.to_vec()));
    }
}

/// `count` octets that go up by one from `start`.
fn ramp(start: u8, count: usize) -> Vec<u8> {
    (0..count).map(|i| start.wrapping_add(i as u8)).collect()
}

fn join(parts: &[&[u8]]) -> Vec<u8> {
    parts.concat()
}
