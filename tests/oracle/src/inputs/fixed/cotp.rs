use super::{call, cuts, entries, join, octet_changes, ramp, Sink};

const BOTH: &[&str] = &["parse_cotp", "cotp_dt_segment"];
const PARSE: &[&str] = &["parse_cotp"];
const PARAMS: &[&str] = &["parse_cotp_params"];
const CODES: [u8; 10] = [0xE0, 0xD0, 0x80, 0xC0, 0xF0, 0x10, 0x60, 0x20, 0x50, 0x70];

pub fn add(sink: Sink) {
    codes(sink);
    length_indicators(sink);
    reasons(sink);
    numbers(sink);
    params(sink);
    tpdus_with_params(sink);
}

/// Every code octet with small and extreme length indicators and lengths.
fn codes(sink: Sink) {
    for code in 0..=255u8 {
        for li in (0..=12).chain([254, 255]) {
            for length in 0..=14 {
                let mut b = join(&[&[li, code], &ramp(0x83, 12)]);
                b.truncate(length);
                call(sink, PARSE, &b);
                if code >= 0xEE || code & 0x0F == 3 {
                    call(sink, &["cotp_dt_segment"], &b);
                }
            }
        }
    }
}

/// Every length indicator with the input ending around it.
fn length_indicators(sink: Sink) {
    for code in CODES.iter().flat_map(|code| [*code, code | 0x0F]) {
        for li in 0..=255u8 {
            for more in [0, 1, 2, 3] {
                let mut b = vec![li, code, 1, 2, 0x80, 0, 0, 0];
                b.resize((li as usize + more).max(4), 0);
                call(sink, BOTH, &b);
            }
        }
    }
}

fn reasons(sink: Sink) {
    for octet in 0..=255u8 {
        call(sink, PARSE, &[6, 0x80, 0, 1, 0, 2, octet]);
        call(sink, PARSE, &[4, 0x70, 0, 1, octet]);
        call(sink, PARSE, &[6, 0xE0, 0, 1, 0, 2, octet]);
        call(sink, PARSE, &[6, 0xD5, 0, 1, 0, 2, octet]);
        call(sink, PARSE, &[4, octet, 0x12, 0x34, 0x56, 0x78, 0x9A]);
    }
}

/// Every end mark and number octet, short and long, with and without data.
fn numbers(sink: Sink) {
    for octet in 0..=255u8 {
        for code in [0xF0, 0xF1, 0x10, 0x60, 0x20, 0x50] {
            for user in [&[][..], &[0x75], &[0x75, 0x76, 0x77]] {
                call(sink, BOTH, &join(&[&[4, code, 1, 2, octet], user]));
            }
            for at in 4..10 {
                let mut b = [9, code, 1, 2, 0, 0, 0, 0, 0, 0, 0x75];
                b[at] = octet;
                call(sink, PARSE, &b);
                b[0] = 7;
                call(sink, BOTH, &b);
                call(sink, PARSE, &b[..8]);
            }
        }
        call(sink, BOTH, &[4, 0xF0, octet, 2, 0x80, 1]);
        call(sink, BOTH, &[4, 0xF0, 1, octet, 0x80, 1]);
    }
}

fn params(sink: Sink) {
    entries(sink, PARAMS, 5);
    for octet in 0..=255u8 {
        call(sink, PARSE, &[9, 0xE0, 0, 1, 0, 2, 0x40, octet, 1, 0x0A]);
        for code in [0xC0, 0xC4, 0x85, 0xF2] {
            for length in 0..=5u8 {
                let value = join(&[&[octet], &ramp(0x21, 4)]);
                call(
                    sink,
                    PARAMS,
                    &join(&[&[code, length], &value[..length as usize]]),
                );
            }
        }
    }
    let several = [
        0xC0, 1, 0x0A, 0x85, 2, 1, 2, 0xF2, 4, 0x80, 2, 3, 4, 0xC4, 1, 1, 8, 0, 0xC1, 2, 5, 6,
    ];
    cuts(sink, PARAMS, &several);
    octet_changes(sink, PARAMS, &several);
}

/// Every type in both formats with parameters up to every octet, at every cut
/// around the end of the header.
fn tpdus_with_params(sink: Sink) {
    let params = [0xC0, 1, 0x0A, 0x87, 2, 1, 2, 0x08, 1, 0x99];
    for code in CODES.iter().flat_map(|code| [*code, code | 0x05]) {
        for fixed in [4, 5, 6, 7, 8, 10] {
            let head = ramp(0x02, 10);
            let b = join(&[&[0, code], &head[..fixed - 2], &params, b"user"]);
            for li in fixed - 2..b.len() + 2 {
                let mut b = b.clone();
                b[0] = li as u8;
                for end in [li.saturating_sub(1), li, li + 1, li + 2, b.len()] {
                    call(sink, BOTH, &b[..end.min(b.len())]);
                }
            }
        }
        for li in [6, 7, 9] {
            let b = join(&[&[li, code, 1, 2, 0x80, 0, 0, 0, 0, 3], b"user"]);
            cuts(sink, BOTH, &b);
            octet_changes(sink, BOTH, &b);
        }
    }
}
