use super::{call, cuts, join, octet_changes, ramp, Sink};

const BOTH: &[&str] = &["parse_idrp", "parse_network"];
const PARSE: &[&str] = &["parse_idrp"];
const OPEN: &[&str] = &["parse_idrp_open"];
const UPDATE: &[&str] = &["parse_idrp_update"];

pub fn add(sink: Sink) {
    types(sink);
    errors(sink);
    opens(sink);
    withdrawn(sink);
    attributes(sink);
    attribute_lengths(sink);
    nlri_fields(sink);
    prefixes(sink);
    wholes(sink);
}

fn whole(kind: u8, body: &[u8]) -> Vec<u8> {
    join(&[&[0x83, 0x01, 0x22, kind], &ramp(0x91, 26), body])
}

fn types(sink: Sink) {
    for kind in 0..=255u8 {
        for length in 0..=4 {
            call(sink, BOTH, &whole(kind, &ramp(1, length)));
        }
        if kind < 9 {
            cuts(sink, BOTH, &whole(kind, &ramp(0, 12)));
            cuts(sink, PARSE, &whole(kind, &[0; 12]));
        }
    }
    octet_changes(sink, PARSE, &whole(4, &[]));
}

fn errors(sink: Sink) {
    for code in 0..=255u8 {
        call(sink, PARSE, &whole(3, &[code]));
        for sub in (0..=20).chain([code, 255]) {
            if code < 8 || sub < 2 {
                call(sink, PARSE, &whole(3, &[code, sub]));
                call(sink, PARSE, &whole(3, &[code, sub, 1]));
            }
        }
    }
}

fn opens(sink: Sink) {
    for rdi in (0..=22).chain([127, 128, 255]) {
        let body = join(&[&[1, 0x12, 0x34, 0x56, 0x78, rdi], &ramp(0x40, rdi as usize)]);
        for end in body.len().saturating_sub(30)..=body.len() {
            call(sink, OPEN, &body[..end]);
        }
        call(sink, OPEN, &join(&[&body, &[9]]));
        call(sink, PARSE, &whole(1, &body));
        call(sink, PARSE, &whole(1, &body[..body.len() - 1]));
    }
    octet_changes(sink, OPEN, &[1, 0, 90, 4, 0, 2, 0x47, 0x00, 9]);
    cuts(sink, BOTH, &whole(1, &[1, 0, 90, 4, 0, 2, 0x47, 0x00, 9]));
}

fn withdrawn(sink: Sink) {
    let counts: [u16; 10] = [0, 1, 2, 3, 4, 255, 256, 257, 512, 65_535];
    for count in counts {
        let routes = ramp(0x70, 4 * (count as usize).min(4));
        let b = join(&[&count.to_be_bytes(), &routes, &[0, 0]]);
        cuts(sink, UPDATE, &b);
        let rest = [0, 5, 0, 7, 0, 1, 9];
        cuts(sink, UPDATE, &join(&[&count.to_be_bytes(), &routes, &rest]));
    }
    for count in [256u16, 257] {
        let b = join(&[
            &count.to_be_bytes(),
            &vec![0xAB; 4 * count as usize],
            &[0, 0],
        ]);
        call(sink, UPDATE, &b);
        call(sink, UPDATE, &b[..b.len() - 3]);
    }
}

/// Every attribute type with values of no octet up to four.
fn attributes(sink: Sink) {
    for kind in 0..=255u8 {
        for length in 0..=4u8 {
            let value = ramp(kind ^ 0x3C, length as usize);
            let head = [0, 0, 0, 4 + length, 0x80, kind, 0, length];
            let b = join(&[&head, &value]);
            call(sink, UPDATE, &b);
            call(sink, UPDATE, &join(&[&b, &[0x11]]));
            if kind <= 18 {
                cuts(sink, UPDATE, &b);
                call(sink, PARSE, &whole(2, &b));
            }
        }
    }
    for (high, low) in [(1, 0), (1, 1), (2, 0), (0, 255)] {
        let length = high as usize * 256 + low as usize;
        let total = (length as u16 + 4).to_be_bytes();
        let b = join(&[&[0, 0], &total, &[0, 7, high, low], &ramp(0, length)]);
        call(sink, UPDATE, &b);
        call(sink, UPDATE, &b[..b.len() - 1]);
    }
}

/// Stated lengths of the attribute part against two attributes and NLRI.
fn attribute_lengths(sink: Sink) {
    let nlri = [1, 1, 0x81, 0, 3, 16, 0x47, 0x27];
    let three = [0, 7, 0, 1, 0x55, 0, 3, 0, 2, 0x66, 0x67, 0, 13, 0, 0];
    for high in [0, 1] {
        for length in 0..=24 {
            let b = join(&[&[0, 0, high, length], &three, &nlri]);
            cuts(sink, UPDATE, &b);
        }
    }
    octet_changes(sink, UPDATE, &join(&[&[0, 0, 0, 15], &three, &nlri]));
}

/// Protocol types, id lengths and address lengths, each at every cut.
fn nlri_fields(sink: Sink) {
    for kind in 0..=255u8 {
        call(sink, UPDATE, &[0, 0, 0, 0, kind, 1, 0x81, 0, 2, 8, 0x47]);
        call(sink, UPDATE, &[0, 0, 0, 0, 1, 1, kind, 0, 2, 8, 0x47]);
        call(
            sink,
            UPDATE,
            &[0, 0, 0, 0, 1, kind, 0x81, 0, 2, 8, 0x47, 0, 0, 0],
        );
    }
    for id_length in 0..=8 {
        let id = [0x81; 8];
        for address in 0..=6 {
            let head = [0, 0, 0, 0, 1, id_length];
            let prefix = [8, 0x47, 16, 0x27, 0x28, 4];
            let first = join(&[&head, &id[..id_length as usize], &[0, address], &prefix]);
            cuts(sink, UPDATE, &first);
            let next = [1, 1, 0x81, 0, 2, 8, 0x99];
            let exact = &first[..first.len() - 6 + address as usize];
            cuts(sink, UPDATE, &join(&[exact, &next]));
        }
    }
    let long = join(&[&[0, 0, 0, 0, 1, 1, 0x81, 1, 4], &[8, 0x47].repeat(130)]);
    for end in [long.len() - 1, long.len()] {
        call(sink, UPDATE, &long[..end]);
    }
    call(
        sink,
        UPDATE,
        &join(&[&[0, 0, 0, 0, 1, 255], &[0x81; 255], &[0, 2, 8, 0x47]]),
    );
    call(
        sink,
        UPDATE,
        &join(&[&[0, 0, 0, 0, 1, 255], &[0x81; 255], &[0]]),
    );
}

/// Every prefix length, whole, one octet short, and followed by another.
fn prefixes(sink: Sink) {
    for bits in 0..=255u8 {
        let octets = ramp(bits, (bits as usize).div_ceil(8));
        let one = join(&[&[bits], &octets]);
        let lists = [
            one.clone(),
            one[..one.len() - 1].to_vec(),
            join(&[&one, &[12, 0x47, 0x20]]),
        ];
        for list in lists {
            let head = [0, 0, 0, 0, 1, 1, 0x81, 0, list.len() as u8];
            call(sink, UPDATE, &join(&[&head, &list]));
            call(
                sink,
                UPDATE,
                &join(&[&head, &list, &[1, 1, 0x81, 0, 2, 8, 0x99]]),
            );
        }
    }
}

fn wholes(sink: Sink) {
    let attributes = [0, 4, 0, 3, 7, 8, 9, 0x80, 16, 0, 1, 0x0E];
    let nlri = [1, 1, 0x81, 0, 5, 20, 0x47, 0x27, 0x10, 0];
    let body = join(&[
        &[0, 1, 0xDE, 0xAD, 0xBE, 0xEF, 0, 12],
        &attributes,
        &nlri,
        &nlri,
    ]);
    cuts(sink, BOTH, &whole(2, &body));
    cuts(sink, UPDATE, &body);
    octet_changes(sink, UPDATE, &body);
}
