use super::{call, cuts, entries, join, octet_changes, ramp, Sink};

const ALL: &[&str] = &[
    "parse_network",
    "parse_clnp",
    "clnp_segment",
    "clnp_addresses",
    "clnp_cotp_tpdu",
];
const ADDRESSES: &[&str] = &["parse_clnp", "clnp_segment", "clnp_addresses"];
const DT: [u8; 9] = [4, 0xF0, 0x12, 0x34, 0x80, 0x75, 0x73, 0x65, 0x72];

pub fn add(sink: Sink) {
    first_octets(sink);
    flags(sink);
    header_lengths(sink);
    address_lengths(sink);
    address_pairs(sink);
    segmentation(sink);
    options(sink);
    wholes(sink);
}

/// A header with its length set right, and data after it.
fn packet(flags: u8, dst: &[u8], src: &[u8], part: &[u8], options: &[u8], data: &[u8]) -> Vec<u8> {
    let head = [0x81, 0, 0x03, 0x40, flags, 0x12, 0x34, 0x56, 0x78];
    let (dst_len, src_len) = ([dst.len() as u8], [src.len() as u8]);
    let mut b = join(&[&head, &dst_len, dst, &src_len, src, part, options]);
    b[1] = b.len() as u8;
    join(&[&b, data])
}

fn with_header_len(b: &[u8], length: usize) -> Vec<u8> {
    let mut b = b.to_vec();
    b[1] = length as u8;
    b
}

fn first_octets(sink: Sink) {
    let b = packet(0x9C, b"d", b"src", &[0, 7, 0, 0, 0, 40], &[], &DT);
    for first in 0..=255u8 {
        let mut other = b.clone();
        other[0] = first;
        call(sink, ALL, &other);
        call(sink, &["parse_network"], &[first]);
        call(sink, &["parse_network"], &[first, 1, 2]);
    }
    call(sink, ALL, &[]);
    for length in 0..=12 {
        for header in [0, 8, 9, 10, 12] {
            let b = with_header_len(&b[..12], header);
            call(sink, ALL, &b[..length]);
        }
    }
}

/// Every flags octet with each kind of segmentation part.
fn flags(sink: Sink) {
    let parts: [&[u8]; 4] = [
        &[1, 7, 0, 0, 0, 40],
        &[1, 7, 0, 2, 1, 40],
        &[1, 7, 2, 0, 1, 40],
        &[],
    ];
    for flags in 0..=255u8 {
        for part in parts {
            for options in [&[][..], &[0xCD, 1, 9]] {
                let b = packet(flags, b"dst", b"s", part, options, &DT);
                call(sink, ALL, &b);
            }
        }
    }
}

/// Every flags octet with header lengths around the real one.
fn header_lengths(sink: Sink) {
    let b = packet(0, b"dst", b"s", &[1, 7, 0, 0, 0, 40], &[0xCD, 1, 9], &DT);
    let real = b[1] as usize;
    let lengths: Vec<usize> = [0, 1, 8, 9, 10, 254, 255]
        .into_iter()
        .chain(real - 10..real + 3)
        .chain(b.len() - 2..b.len() + 2)
        .collect();
    for flags in 0..=255u8 {
        for length in &lengths {
            let mut b = with_header_len(&b, *length);
            b[4] = flags;
            call(sink, &ALL[1..], &b);
        }
    }
}

/// Address lengths at every cut, with a header length that is always there
/// and with the real one.
fn address_lengths(sink: Sink) {
    for length in (0..=22).chain([255]) {
        for flags in [0x1C, 0x9C] {
            let long = ramp(0x31, length);
            for (dst, src) in [(&long[..], &b"s1"[..]), (&b"d1"[..], &long[..])] {
                let b = packet(flags, dst, src, &[1, 7, 0, 0, 0, 40], &[], &DT);
                let start = b.len().saturating_sub(60);
                for end in start..=b.len() {
                    call(sink, ADDRESSES, &with_header_len(&b, 9)[..end]);
                }
                for header in [b[1] as usize, 9, 11] {
                    call(sink, ALL, &with_header_len(&b, header));
                }
            }
        }
    }
}

fn address_pairs(sink: Sink) {
    let lengths = [0, 1, 2, 19, 20, 21, 22, 255];
    for (d, s) in lengths
        .iter()
        .flat_map(|d| lengths.iter().map(move |s| (*d, *s)))
    {
        for flags in [0x1C, 0xDC] {
            let (dst, src) = (ramp(0x41, d), ramp(0x81, s));
            let b = packet(flags, &dst, &src, &[1, 7, 0, 3, 2, 40], &[], &DT);
            call(sink, ALL, &b);
            let addresses = 9 + 1 + d + 1 + s;
            for end in [
                9 + d,
                10 + d,
                11 + d,
                addresses - 1,
                addresses,
                addresses + 5,
                addresses + 6,
            ] {
                call(sink, ADDRESSES, &with_header_len(&b, 9)[..end.min(b.len())]);
            }
        }
    }
}

/// The segmentation part cut at every octet and with every octet set.
fn segmentation(sink: Sink) {
    for flags in [0x9C, 0xDC, 0xBC, 0x81, 0xDF, 0x1C, 0x5C] {
        let part = [0x11, 0x22, 0, 0, 0x33, 0x44];
        let b = packet(flags, b"dd", b"ss", &part, &[], &[]);
        for header in [9, 15, 20, 21, 255] {
            cuts(sink, ALL, &with_header_len(&b, header));
        }
        for at in 0..6 {
            for octet in [1, 0x80, 0xFF] {
                let mut part = part;
                part[at] = octet;
                call(
                    sink,
                    ALL,
                    &packet(flags, b"dd", b"ss", &part, &[0xC3, 1, 1], &DT),
                );
            }
        }
    }
}

fn options(sink: Sink) {
    let names: &[&str] = &["parse_clnp_options"];
    entries(sink, names, 3);
    for octet in 0..=255u8 {
        call(sink, names, &[0xCD, 1, octet]);
        call(sink, names, &[0xC1, 1, octet]);
        call(sink, names, &[0xC5, 4, octet, 2, 0x27, 0x81]);
        let one = [octet, 1, 0x99];
        call(
            sink,
            &["parse_clnp"],
            &packet(0x1C, b"d", b"s", &[], &one, &DT),
        );
        call(
            sink,
            &["parse_clnp"],
            &packet(0x1C, b"d", b"s", &[], &[octet, 0], &[]),
        );
    }
    let several = [
        0xCD, 1, 7, 0xC1, 1, 0x80, 0xC5, 3, 0xC0, 1, 9, 0x05, 0, 0xC3, 2, 4, 5,
    ];
    cuts(sink, names, &several);
    octet_changes(sink, names, &several);
    for cut in 0..=several.len() {
        for (flags, part) in [(0x1C, &[][..]), (0x9C, &[1, 7, 0, 0, 0, 40])] {
            for data in [&DT[..], &[]] {
                let b = packet(flags, b"d", b"s", part, &several[..cut], data);
                call(sink, &["parse_clnp"], &b);
            }
        }
    }
}

fn wholes(sink: Sink) {
    for (flags, part) in [
        (0x1C, &[][..]),
        (0x9C, &[1, 7, 0, 0, 0, 40]),
        (0xDC, &[1, 7, 0, 0, 0, 40]),
    ] {
        let b = packet(
            flags,
            b"dst",
            b"source",
            part,
            &[0xCD, 1, 7, 0xC5, 3, 0xC0, 1, 9],
            &DT,
        );
        cuts(sink, ALL, &b);
        octet_changes(sink, ALL, &b);
        for code in 0..=255u8 {
            let tpdu = [6, code, 0, 1, 0x80, 2, 0x21, 0x45];
            call(
                sink,
                &["parse_clnp"],
                &packet(flags, b"d", b"s", part, &[], &tpdu),
            );
        }
        let tpdu = [6, 0xE0, 0, 0, 0, 5, 0x40];
        cuts(
            sink,
            &["parse_clnp", "clnp_cotp_tpdu"],
            &packet(flags, b"d", b"s", part, &[], &tpdu),
        );
    }
}
