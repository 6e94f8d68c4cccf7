use super::{call, cuts, join, octet_changes, ramp, Sink};

const LABEL: &[&str] = &["parse_atn_security_label"];
const TAG: &[&str] = &["parse_atn_security_tag"];

pub fn add(sink: Sink) {
    tags(sink);
    registration(sink);
    information(sink);
    tag_sets(sink);
    in_an_option(sink);
}

/// Every tag set name, value length and first and second value octet.
fn tags(sink: Sink) {
    for name in 0..=20u8 {
        for length in 0..=4 {
            for octet in 0..=255u8 {
                let value = join(&[&[octet], &ramp(octet ^ 0xA5, 3)]);
                call(sink, TAG, &join(&[&[name], &value[..length]]));
                if length == 0 {
                    break;
                }
            }
        }
    }
    for octet in 0..=255u8 {
        call(sink, TAG, &[5, 2, octet]);
        call(sink, TAG, &[octet, 1]);
        call(sink, TAG, &[octet, 1, 2]);
    }
}

/// Registration id lengths against what is there.
fn registration(sink: Sink) {
    call(sink, LABEL, &[]);
    for length in 0..=255u8 {
        for real in 0..=8 {
            call(sink, LABEL, &join(&[&[length], &ramp(6, real)]));
        }
        for extra in [0, 1, 4] {
            let id = ramp(0x60, length as usize);
            let b = join(&[&[length], &id, &[4, 1, 3, 1, 2][..extra]]);
            call(sink, LABEL, &b);
        }
        let short = ramp(0x60, (length as usize).saturating_sub(1));
        call(sink, LABEL, &join(&[&[length], &short]));
    }
}

/// Information lengths too short, right and too long, at every cut.
fn information(sink: Sink) {
    let sets = [1, 3, 1, 2, 1, 0x0F, 1, 0x30, 1, 9, 0, 1, 6, 1, 0xFF];
    for length in (0..=sets.len() as u8 + 3).chain([255]) {
        cuts(sink, LABEL, &join(&[&[2, 0x27, 0x81, length], &sets]));
    }
    octet_changes(sink, LABEL, &join(&[&[0, sets.len() as u8], &sets]));
}

fn tag_sets(sink: Sink) {
    for octet in 0..=255u8 {
        call(sink, LABEL, &[0, 8, octet, 3, 1, 1, 1, 7, 1, 0x81]);
        call(sink, LABEL, &[0, 8, 1, octet, 1, 1, 1, 7, 1, 0x81]);
        call(sink, LABEL, &[0, 8, 1, 3, octet, 1, 1, 7, 1, 0x81]);
        call(sink, LABEL, &[0, 8, 1, 3, 1, octet, 1, 7, 1, 0x81]);
        call(sink, LABEL, &[0, 8, 1, 3, 1, 1, 1, 7, 1, octet]);
        call(sink, LABEL, &[0, 5, 1, 5, 2, octet, octet]);
    }
    for name in 0..=20 {
        for length in 0..=4u8 {
            let value = ramp(1, length as usize);
            let set = join(&[&[0, 3 + length, 1, name, length], &value]);
            call(sink, LABEL, &set);
            call(sink, LABEL, &set[..set.len() - 1]);
        }
    }
}

fn in_an_option(sink: Sink) {
    let sets = [1, 3, 1, 2, 1, 0x0F, 1, 0x30, 1, 5, 2, 2, 3];
    let label = join(&[&[0xC0, 3, 6, 7, 8, sets.len() as u8], &sets]);
    for length in 0..=label.len() {
        let b = join(&[&[0xC5, length as u8], &label[..length]]);
        call(sink, &["parse_clnp_options"], &b);
        call(sink, &["parse_esis_options"], &b);
    }
}
