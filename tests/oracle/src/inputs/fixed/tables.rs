use super::{call, Sink};
use crate::answers::{NAMERS, SUBCODE_NAMER};

pub fn add(sink: Sink) {
    for (name, _) in NAMERS {
        for code in 0..=255u8 {
            call(sink, &[name], &[code]);
        }
    }
    for code in 0..=255u8 {
        let subs = if code < 8 { 255 } else { 3 };
        for sub in 0..=subs {
            call(sink, &[SUBCODE_NAMER], &[code, sub]);
        }
    }
}
