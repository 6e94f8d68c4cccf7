//! The part that is the same for every seed.

mod clnp;
mod cotp;
mod esis;
mod idrp;
mod security;
mod tables;
mod x25;

use super::{call, join, ramp, sequences, Sink};

pub fn add(sink: Sink) {
    tables::add(sink);
    x25::add(sink);
    clnp::add(sink);
    security::add(sink);
    esis::add(sink);
    idrp::add(sink);
    cotp::add(sink);
    for sequence in sequences::fixed() {
        sequence.into_iter().for_each(&mut *sink);
    }
}

/// Every beginning of the octets, the whole, and the whole with more.
fn cuts(sink: Sink, names: &[&'static str], octets: &[u8]) {
    for end in 0..=octets.len() {
        call(sink, names, &octets[..end]);
    }
    for more in 1..=2 {
        call(sink, names, &join(&[octets, &ramp(0xA1, more)]));
    }
}

/// Every octet of the packet made 0, 1 and 255, and one more and one less.
fn octet_changes(sink: Sink, names: &[&'static str], octets: &[u8]) {
    for at in 0..octets.len() {
        let old = octets[at];
        for new in [
            0,
            1,
            0xFF,
            old.wrapping_add(1),
            old.wrapping_sub(1),
            old ^ 0x80,
        ] {
            let mut changed = octets.to_vec();
            changed[at] = new;
            call(sink, names, &changed);
        }
    }
}

/// `code length value` for every code, with values of no octet up to `most`,
/// alone, cut by one, and followed by another entry.
fn entries(sink: Sink, names: &[&'static str], most: usize) {
    for code in 0..=255u8 {
        for length in 0..=most {
            let one = join(&[&[code, length as u8], &ramp(code ^ 0x5A, length)]);
            call(sink, names, &one);
            call(sink, names, &one[..one.len() - 1]);
            call(sink, names, &join(&[&one, &[0xCD, 1, 7]]));
        }
        call(sink, names, &join(&[&[code, 255], &ramp(1, 255)]));
        call(sink, names, &join(&[&[code, 255], &ramp(1, 254)]));
    }
}
