use super::{call, cuts, entries, join, octet_changes, ramp, Sink};

const BOTH: &[&str] = &["parse_esis", "parse_network"];
const PARSE: &[&str] = &["parse_esis"];
const OPTIONS: [u8; 11] = [0x81, 1, 0x01, 0x88, 2, 3, 4, 0xCF, 0, 0xC5, 0];

pub fn add(sink: Sink) {
    types(sink);
    addresses(sink);
    counts(sink);
    options(sink);
    wholes(sink);
}

fn head(kind: u8) -> [u8; 9] {
    [0x82, 20, 1, 0, kind, 0x12, 0x34, 0x56, 0x78]
}

fn types(sink: Sink) {
    for kind in 0..=255u8 {
        let bodies: [&[u8]; 3] = [
            &[1, 2, 0x49, 0x50, 0xCF, 1, 2],
            &[2, 0x49, 0x50, 0xCF, 1, 2],
            &[],
        ];
        for body in bodies {
            call(sink, BOTH, &join(&[&head(kind), body]));
        }
        call(sink, PARSE, &head(kind)[..8]);
    }
}

/// Address lengths at every cut near the end, for all three types.
fn addresses(sink: Sink) {
    for kind in [2, 4, 6, 0xE2, 0xE4] {
        for length in (0..=22u8).chain([255]) {
            let address = ramp(0x30, length as usize);
            let count: &[u8] = if kind & 0x1F == 2 { &[2] } else { &[] };
            let whole = join(&[
                &head(kind),
                count,
                &[length],
                &address,
                &[1, 0x77],
                &OPTIONS,
            ]);
            for end in whole.len().saturating_sub(40)..=whole.len() {
                call(sink, PARSE, &whole[..end]);
            }
        }
    }
}

/// Counts of addresses below, at and above the real one.
fn counts(sink: Sink) {
    let real = [1, 0x41, 0, 2, 0x42, 0x43, 20];
    for count in (0..=6).chain([127, 128, 255]) {
        let last = ramp(0x60, 20);
        let whole = join(&[&head(2), &[count], &real, &last, &OPTIONS]);
        cuts(sink, BOTH, &whole);
    }
    let many = [1, 0x41].repeat(256);
    for count in [254, 255] {
        call(sink, PARSE, &join(&[&head(2), &[count], &many]));
        call(sink, PARSE, &join(&[&head(2), &[count], &many[..508]]));
    }
}

fn options(sink: Sink) {
    let names: &[&str] = &["parse_esis_options"];
    entries(sink, names, 3);
    cuts(sink, names, &OPTIONS);
    octet_changes(sink, names, &OPTIONS);
    for code in 0..=255u8 {
        call(sink, PARSE, &join(&[&head(4), &[1, 0x47, code, 1, 0x80]]));
        call(
            sink,
            PARSE,
            &join(&[&head(2), &[1, 1, 0x47, code, 2, 0x80, 1]]),
        );
    }
}

fn wholes(sink: Sink) {
    let bodies: [&[u8]; 3] = [
        &[1, 3, 7, 8, 9],
        &[3, 7, 8, 9],
        &[2, 1, 0x11, 2, 0x22, 0x23],
    ];
    for (kind, body) in [2, 4, 2].into_iter().zip(bodies) {
        let whole = join(&[&head(kind), body, &OPTIONS]);
        cuts(sink, BOTH, &whole);
        octet_changes(sink, BOTH, &whole);
    }
}
