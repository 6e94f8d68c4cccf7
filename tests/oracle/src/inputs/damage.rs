use super::packet::Packet;
use super::rng::Rng;

/// The packet's octets with one thing wrong.
pub fn damage(rng: &mut Rng, packet: &Packet) -> Vec<u8> {
    let mut octets = packet.octets.clone();
    if octets.is_empty() {
        return rng.few(4);
    }
    let at = rng.below(octets.len());
    let early = rng.below(octets.len().min(12));
    match rng.below(9) {
        0 => octets[at] = rng.octet(),
        1 => octets[early] = rng.octet(),
        2 | 3 => off_by_one(rng, packet, &mut octets),
        4 => octets.truncate(at),
        5 => octets.extend(rng.octets(4)),
        6 => octets.swap(at, early),
        7 => octets[at] ^= 1 << rng.below(8),
        _ => drop_last(rng, &mut octets),
    }
    octets
}

fn off_by_one(rng: &mut Rng, packet: &Packet, octets: &mut [u8]) {
    if packet.lengths.is_empty() {
        return;
    }
    let at = rng.pick(&packet.lengths);
    let step = rng.pick(&[1, 0xFF, 2, 0xFE]);
    octets[at] = octets[at].wrapping_add(step);
}

fn drop_last(rng: &mut Rng, octets: &mut Vec<u8>) {
    let count = 1 + rng.below(3);
    octets.truncate(octets.len().saturating_sub(count));
}
