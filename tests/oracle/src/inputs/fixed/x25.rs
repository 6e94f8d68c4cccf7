use super::{call, cuts, join, octet_changes, ramp, Sink};

const BOTH: &[&str] = &["parse_x25", "x25_payload"];
const PARSE: &[&str] = &["parse_x25"];

pub fn add(sink: Sink) {
    first_octets(sink);
    type_octets(sink);
    causes(sink);
    address_counts(sink);
    facility_lengths(sink);
    facility_codes(sink);
    compression_octets(sink);
    sndcf_fields(sink);
    whole_calls(sink);
}

fn first_octets(sink: Sink) {
    for first in 0..=255u8 {
        for kind in [0x00, 0x10, 0x21, 0x0B, 0x13, 0xFF] {
            call(sink, BOTH, &[first, 0xA5, kind, 1, 2]);
        }
        call(sink, PARSE, &[0x10, first, 0x01]);
    }
}

fn type_octets(sink: Sink) {
    for kind in 0..=255u8 {
        for length in 0..=12 {
            for fill in [vec![0; 12], ramp(1, 12), vec![0xFF; 12], ramp(0x91, 12)] {
                let mut b = join(&[&[0x12, 0x34, kind], &fill]);
                b.truncate(length);
                call(sink, PARSE, &b);
            }
            let mut b = join(&[&[0x1F, 0xFF, kind], &ramp(0, 9)]);
            b.truncate(length);
            call(sink, &["x25_payload"], &b);
        }
    }
}

fn causes(sink: Sink) {
    for code in 0..=255u8 {
        for kind in [0x13, 0x1B, 0xFB, 0x17, 0x1F, 0xFF] {
            call(sink, PARSE, &[0x10, 0, kind, code]);
            call(sink, PARSE, &[0x10, 0, kind, code, 0x80 ^ code]);
            call(sink, BOTH, &[0x10, 0, kind, 9, code, 7]);
        }
        call(sink, BOTH, &[0x10, 0, 0xF1, code]);
        call(sink, BOTH, &[0x10, 0, 0xF1, code, 0x13, 5]);
    }
}

/// Every pair of digit counts, cut around the facility length.
fn address_counts(sink: Sink) {
    for counts in 0..=255u8 {
        let digits = ((counts & 15) as usize + (counts >> 4) as usize).div_ceil(2);
        for kind in [0x0B, 0x0F] {
            let head = join(&[&[0x10, 1, kind, counts], &ramp(0x21, digits)]);
            let rest = [2, 0x42, 7, 0xC1, 4, 1, 9, 8, 0x63, 0xAA, 0xBB];
            let whole = join(&[&head, &rest]);
            for end in head.len() - 1..head.len() + 5 {
                call(sink, BOTH, &whole[..end]);
            }
            call(sink, BOTH, &whole);
        }
    }
}

/// Facility lengths against what is there, then a SNDCF field and more.
fn facility_lengths(sink: Sink) {
    let tails: [&[u8]; 4] = [
        &[],
        &[0xC1, 4, 1, 2, 3, 0x41],
        &[0xC1, 4, 1, 2, 3, 0x41, 9],
        &[0x41, 8],
    ];
    for kind in [0x0B, 0x0F] {
        for stated in (0..=12).chain([255]) {
            for real in 0..=12 {
                for tail in tails {
                    let head = [0x10, 1, kind, 0x11, 0x99, stated];
                    let facilities = [1, 2, 0x43, 4, 5, 0x02, 0x06, 0xC8, 2, 0x77, 0x78, 3];
                    let b = join(&[&head, &facilities[..real], tail]);
                    call(sink, BOTH, &b);
                }
            }
        }
    }
}

fn facility_codes(sink: Sink) {
    for code in 0..=255u8 {
        for rest in 0..=6 {
            call(
                sink,
                &["parse_facilities"],
                &join(&[&[code], &ramp(0, rest)]),
            );
            call(
                sink,
                &["parse_facilities"],
                &join(&[&[code], &ramp(2, rest)]),
            );
            let second = join(&[&[0x01, 0x55, code], &ramp(3, rest)]);
            call(sink, &["parse_facilities"], &second);
        }
    }
    for length in 0..=255u8 {
        for real in [length.saturating_sub(1), length, length.saturating_add(1)] {
            let b = join(&[&[0xC0, length], &ramp(9, real as usize)]);
            call(sink, &["parse_facilities"], &b);
        }
    }
    let several = [
        0x01, 1, 0x42, 2, 3, 0x83, 4, 5, 6, 0xC4, 3, 7, 8, 9, 0xFF, 0, 0x3F, 1,
    ];
    cuts(sink, &["parse_facilities"], &several);
    octet_changes(sink, &["parse_facilities"], &several);
}

fn compression_octets(sink: Sink) {
    for octet in 0..=255u8 {
        call(sink, &["decode_x25_compression"], &[octet]);
        let field = [0xC1, 4, 1, !octet, octet ^ 0x55, octet];
        call(sink, &["parse_sndcf_field"], &field);
        call(
            sink,
            BOTH,
            &join(&[&[0x10, 1, 0x0B, 0, 0], &field, &[0xDD]]),
        );
        call(sink, BOTH, &[0x10, 1, 0x0F, 0, 0, octet]);
        call(sink, BOTH, &[0x10, 1, 0x0F, 0, 0, octet, 0xEE]);
    }
}

fn sndcf_fields(sink: Sink) {
    let names: &[&str] = &["parse_sndcf_field"];
    for octet in 0..=255u8 {
        call(sink, names, &[octet, 4, 1, 2, 3, 0x43, 5]);
        call(sink, names, &[0xC1, 4, octet, 2, 3, 0x43, 5]);
        call(
            sink,
            BOTH,
            &[0x10, 1, 0x0B, 0, 0, octet, 4, 1, 2, 3, 0x43, 5],
        );
        for rest in [octet.saturating_sub(1), octet, octet.saturating_add(1)] {
            let b = join(&[&[0xC1, octet], &ramp(1, rest as usize)]);
            call(sink, names, &b);
            call(sink, BOTH, &join(&[&[0x10, 1, 0x0B, 0, 0], &b]));
        }
    }
    for length in 0..=8 {
        cuts(sink, names, &join(&[&[0xC1, length], &ramp(1, 8)]));
    }
}

fn whole_calls(sink: Sink) {
    for kind in [0x0B, 0x0F] {
        let facilities = [0x42, 7, 7, 0xC9, 1, 0x33];
        let sndcf = [0xC1, 5, 1, 2, 3, 0x63, 0x11];
        let head = [0x15, 0x67, kind, 0x23, 0x12, 0x34, 0x50, 6];
        let whole = join(&[&head, &facilities, &sndcf, &[0xC1, 0xD0]]);
        cuts(sink, BOTH, &whole);
        octet_changes(sink, BOTH, &whole);
    }
}
