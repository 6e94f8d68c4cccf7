//! Well-formed packets of every kind with random fields.

use super::packet::Packet;
use super::rng::Rng;

type Build = fn(&mut Rng) -> Packet;

/// Each kind of packet with the functions that read it.
pub const FAMILIES: [(Build, &[&str]); 14] = [
    (x25, &["parse_x25", "parse_x25", "x25_payload"]),
    (network, &["parse_network"]),
    (
        clnp,
        &[
            "parse_clnp",
            "clnp_segment",
            "clnp_addresses",
            "clnp_cotp_tpdu",
        ],
    ),
    (esis, &["parse_esis", "parse_network"]),
    (idrp, &["parse_idrp", "parse_network"]),
    (idrp_open, &["parse_idrp_open"]),
    (idrp_update, &["parse_idrp_update"]),
    (cotp, &["parse_cotp", "parse_cotp", "cotp_dt_segment"]),
    (facilities, &["parse_facilities"]),
    (sndcf, &["parse_sndcf_field"]),
    (esis_options, &["parse_esis_options"]),
    (clnp_options, &["parse_clnp_options"]),
    (security_label, &["parse_atn_security_label"]),
    (cotp_params, &["parse_cotp_params"]),
];

pub fn x25(rng: &mut Rng) -> Packet {
    let head = [
        rng.pick(&[0x10, 0x50, 0x90, 0xD0]) | rng.pick(&[0, 1, 15]),
        rng.octet(),
    ];
    let head = Packet::of(&head);
    match rng.below(6) {
        0 | 1 => call(rng, head),
        2 => {
            let kind = rng.pick(&[0x13, 0x1B, 0xFB, 0x17, 0x1F, 0xFF, 0xF1]);
            let causes = [0, 1, 3, 5, 7, 9, 0x0D, 0x0F, 0x11, 0x13, 0x1D, 0x81];
            let (cause, some) = (rng.pick(&causes), rng.few(3));
            head.add(&[kind, cause]).add(&some)
        }
        3 => {
            let kind = rng.pick(&[1, 5, 9]) | (rng.octet() & 0xE0);
            head.add(&[kind])
        }
        _ => {
            let (kind, data) = (rng.octet() & 0xFE, rng.few(20));
            head.add(&[kind]).add(&data)
        }
    }
}

fn call(rng: &mut Rng, head: Packet) -> Packet {
    let request = rng.below(2) == 0;
    let (called, calling) = (rng.below(16), rng.below(16));
    let digits = rng.octets((called + calling).div_ceil(2));
    let mut packet = head.add(&[if request { 0x0B } else { 0x0F }]);
    packet = packet.length(calling << 4 | called).add(&digits);
    packet = packet.prefixed(facilities(rng));
    if request && !rng.once_in(4) {
        packet = packet.then(sndcf(rng));
    }
    packet.add(&rng.few(8))
}

pub fn facilities(rng: &mut Rng) -> Packet {
    let mut packet = Packet::default();
    for _ in 0..rng.below(5) {
        let code = rng.octet();
        packet = packet.add(&[code]);
        packet = match code >> 6 {
            3 => packet.prefixed(Packet::of(&rng.few(5))),
            class => packet.add(&rng.octets(class as usize + 1)),
        };
    }
    packet
}

pub fn sndcf(rng: &mut Rng) -> Packet {
    let value = [&[1], &rng.octets(3)[..], &rng.few(4)[..]].concat();
    Packet::of(&[0xC1])
        .prefixed(Packet::of(&value))
        .add(&rng.few(3))
}

pub fn network(rng: &mut Rng) -> Packet {
    match rng.below(4) {
        0 | 1 => clnp(rng),
        2 => esis(rng),
        _ => idrp(rng),
    }
}

/// An address whose length is mostly allowed.
fn address(rng: &mut Rng) -> Packet {
    let length = rng.pick(&[0, 1, 3, 8, 11, 19, 20, 20, 20, 21]);
    Packet::default().prefixed(Packet::of(&rng.octets(length)))
}

pub fn clnp(rng: &mut Rng) -> Packet {
    let kind = rng.pick(&[0x1C, 0x1C, 0x1C, 0x1E, 0x1F, 0x01, 0x05]);
    let flags = kind | rng.pick(&[0, 0x80, 0x80, 0xC0, 0x40, 0x20, 0xA0, 0xE0]);
    let head = [
        0x81,
        0,
        1,
        rng.octet(),
        flags,
        rng.octet(),
        rng.octet(),
        0,
        0,
    ];
    let mut packet = Packet::of(&head).then(address(rng)).then(address(rng));
    if flags & 0x80 != 0 {
        let offset = if rng.below(3) > 0 { 0 } else { rng.octet() };
        let part = [
            rng.octet(),
            rng.octet(),
            0,
            offset,
            rng.octet(),
            rng.octet(),
        ];
        packet = packet.add(&part);
    }
    if !rng.once_in(3) {
        packet = packet.then(clnp_options(rng));
    }
    let header = packet.octets.len().min(255);
    packet.set_length(1, header).then(cotp(rng))
}

pub fn clnp_options(rng: &mut Rng) -> Packet {
    let codes = [
        0x05, 0xC1, 0xC3, 0xC4, 0xC5, 0xC5, 0xC6, 0xC8, 0xCB, 0xCC, 0xCD, 0x77,
    ];
    let mut packet = Packet::default();
    for _ in 0..rng.below(4) {
        let code = rng.pick(&codes);
        let value = match code {
            0xC5 if !rng.once_in(4) => Packet::of(&[0xC0]).then(security_label(rng)),
            _ => Packet::of(&rng.few(4)),
        };
        packet = packet.add(&[code]).prefixed(value);
    }
    packet
}

pub fn security_label(rng: &mut Rng) -> Packet {
    let packet = Packet::default().prefixed(Packet::of(&rng.few(8)));
    if rng.once_in(6) {
        return packet;
    }
    let mut tags = Packet::default();
    for _ in 0..rng.below(4) {
        let name_len = if rng.once_in(10) { rng.octet() } else { 1 };
        let name = rng.pick(&[3, 5, 6, 7, 0x0F, 0x0F, 9, 0]);
        let value = Packet::of(&rng.few(4));
        tags = tags.length(name_len as usize).add(&[name]).prefixed(value);
    }
    packet.prefixed(tags)
}

pub fn esis(rng: &mut Rng) -> Packet {
    let kind = rng.pick(&[2, 2, 4, 4, 6, 0x82, 0xE4, 0x22, 1]);
    let head = [
        0x82,
        rng.octet(),
        1,
        0,
        kind,
        rng.octet(),
        rng.octet(),
        0,
        0,
    ];
    let mut packet = Packet::of(&head);
    let count = if kind & 0x1F == 2 { rng.below(4) } else { 1 };
    if kind & 0x1F == 2 {
        packet = packet.length(count);
    }
    for _ in 0..count {
        packet = packet.then(address(rng));
    }
    packet.then(esis_options(rng))
}

pub fn esis_options(rng: &mut Rng) -> Packet {
    let mut packet = Packet::default();
    for _ in 0..rng.below(4) {
        let code = rng.pick(&[0x81, 0x88, 0xCF, 0xC5, 0x10]);
        packet = packet.add(&[code]).prefixed(Packet::of(&rng.few(5)));
    }
    packet
}

pub fn idrp(rng: &mut Rng) -> Packet {
    let kind = rng.pick(&[1, 1, 2, 2, 2, 3, 3, 4, 5, 6, 7]);
    let body = match kind {
        1 => idrp_open(rng),
        2 => idrp_update(rng),
        3 => {
            let (code, sub) = (rng.below(7) as u8, rng.below(16) as u8);
            Packet::of(&[code, sub]).add(&rng.few(3))
        }
        _ => Packet::of(&rng.few(4)),
    };
    let length = 30 + body.octets.len();
    let head = Packet::of(&[0x83]).length16(length).add(&[kind]);
    head.add(&rng.octets(26)).then(body)
}

pub fn idrp_open(rng: &mut Rng) -> Packet {
    let head = rng.octets(5);
    Packet::of(&head)
        .prefixed(Packet::of(&rng.few(21)))
        .add(&rng.few(4))
}

pub fn idrp_update(rng: &mut Rng) -> Packet {
    let withdrawn = rng.pick(&[0, 0, 1, 2, 3]);
    let mut packet = Packet::default().length16(withdrawn);
    packet = packet.add(&rng.octets(withdrawn * 4));
    let mut attributes = Packet::default();
    for _ in 0..rng.below(4) {
        let (flag, kind) = (rng.octet(), rng.below(19) as u8);
        let value = Packet::of(&rng.few(4));
        attributes = attributes.add(&[flag, kind]).prefixed16(value);
    }
    packet = packet.prefixed16(attributes);
    for _ in 0..rng.below(3) {
        packet = packet.then(nlri(rng));
    }
    packet
}

fn nlri(rng: &mut Rng) -> Packet {
    let kind = rng.pick(&[1, 1, 1, 0, 2]);
    let id: &[u8] = rng.pick(&[&[0x81], &[0x81], &[0x82], &[], &[0x81, 0x81]]);
    let mut prefixes = Packet::default();
    for _ in 0..rng.below(4) {
        let bits = rng.below(161);
        prefixes = prefixes.length(bits).add(&rng.octets(bits.div_ceil(8)));
    }
    Packet::of(&[kind])
        .prefixed(Packet::of(id))
        .prefixed16(prefixes)
}

pub fn cotp_params(rng: &mut Rng) -> Packet {
    let codes = [
        0x08, 0x85, 0x86, 0x87, 0x88, 0x8A, 0x8B, 0x8F, 0xC0, 0xC0, 0xC1, 0xC4, 0xF0, 0xF2, 0x33,
    ];
    let mut packet = Packet::default();
    for _ in 0..rng.below(5) {
        let code = rng.pick(&codes);
        let usual = match code {
            0xC0 | 0xC4 => 1,
            0x85 | 0x87 | 0x8A | 0x8B => 2,
            0xF2 => 4,
            _ => rng.below(4),
        };
        let length = if rng.once_in(4) { rng.below(6) } else { usual };
        let mut value = rng.octets(length);
        if code == 0xC0 && length > 0 {
            value[0] = 5 + rng.below(11) as u8;
        }
        packet = packet.add(&[code]).prefixed(Packet::of(&value));
    }
    packet
}

pub fn cotp(rng: &mut Rng) -> Packet {
    let code = rng.pick(&[
        0xE0, 0xD0, 0x80, 0xC0, 0xF0, 0xF0, 0xF0, 0x10, 0x60, 0x20, 0x50, 0x70,
    ]);
    let low = if rng.below(2) == 0 {
        0
    } else {
        rng.octet() & 0x0F
    };
    let long = rng.below(2) == 0;
    let fixed = match (code, long) {
        (0xE0 | 0xD0 | 0x80, _) => 5,
        (0xC0, _) => 4,
        (0x70, _) => 3,
        (0x60 | 0x50, true) => 8,
        (_, true) => 6,
        (_, false) => 3,
    };
    let mut fields = rng.octets(fixed);
    number(rng, code, long, &mut fields);
    let mut packet = Packet::of(&[0, code | low]).add(&fields);
    let params = parity(rng, long, packet.octets.len());
    packet = packet.then(params);
    let li = packet.octets.len() - 1;
    packet = packet.set_length(0, li);
    if code == 0xF0 || code == 0x10 || rng.once_in(4) {
        packet = packet.add(&rng.few(12));
    }
    packet
}

/// Makes small numbers, and known reasons, more likely than by chance.
fn number(rng: &mut Rng, code: u8, long: bool, fields: &mut [u8]) {
    match code {
        0x80 => fields[4] = rng.pick(&[0, 1, 2, 3, 128, 129, 133, 134, 138]),
        0x70 => fields[2] = rng.pick(&[0, 1, 2, 3, 4]),
        0xF0 if long && rng.below(2) == 0 => {
            let number = [rng.pick(&[0, 0x80]), 0, 0, rng.pick(&[0, 0, 1])];
            fields[2..6].copy_from_slice(&number);
        }
        0xF0 if rng.below(2) == 0 => fields[2] = rng.pick(&[0x80, 0, 1, 0x81]),
        _ => {}
    }
}

/// Parameters that make the length indicator odd for the long format and
/// even for the short one.
fn parity(rng: &mut Rng, long: bool, before: usize) -> Packet {
    let mut params = cotp_params(rng);
    let li = before + params.octets.len() - 1;
    if (li % 2 == 1) != long {
        params = params.add(&[0x08]).prefixed(Packet::of(&[rng.octet()]));
    }
    params
}
