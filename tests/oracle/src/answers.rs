//! The Rust's answer to each input.

use crate::atn::{self, reach, ClnpReassembler, CotpReassembler, X25Reassembler};
use crate::line::{hex, Input, Kind};
use serde_json::{json, Value};
use std::collections::HashMap;
use std::fmt;

/// What the Rust gave back.
#[derive(Debug, Clone, PartialEq)]
pub enum Answer {
    None,
    Text(&'static str),
    Octets(Vec<u8>),
    Json(Value),
    /// A value and the number of octets it took.
    JsonAndCount(Value, usize),
}

impl fmt::Display for Answer {
    fn fmt(&self, f: &mut fmt::Formatter) -> fmt::Result {
        match self {
            Answer::None => f.write_str("None"),
            Answer::Text(text) => f.write_str(text),
            Answer::Octets(octets) => f.write_str(&hex(octets)),
            Answer::Json(value) => write!(f, "{value}"),
            Answer::JsonAndCount(value, count) => write!(f, "{value} {count}"),
        }
    }
}

type Namer = fn(u8) -> Option<&'static str>;

/// The name tables with one octet, in the order of `tables`.
pub const NAMERS: [(&str, Namer); 16] = [
    ("x25_clear_cause", reach::x25_clear_cause),
    ("x25_reset_cause", reach::x25_reset_cause),
    ("x25_restart_cause", reach::x25_restart_cause),
    ("x25_diagnostic", reach::x25_diagnostic),
    ("esis_option_name", |c| Some(reach::esis_option_name(c))),
    ("idrp_attr_name", |c| Some(reach::idrp_attr_name(c))),
    ("idrp_pdu_type_name", |c| Some(reach::idrp_pdu_type_name(c))),
    ("idrp_error_code_name", |c| {
        Some(reach::idrp_error_code_name(c))
    }),
    ("clnp_option_name", reach::clnp_option_name),
    ("atn_traffic_type_name", reach::atn_traffic_type_name),
    ("atsc_class_name", reach::atsc_class_name),
    ("atn_subnet_name", reach::atn_subnet_name),
    ("atn_security_class_name", reach::atn_security_class_name),
    ("cotp_dr_reason", reach::cotp_dr_reason),
    ("cotp_er_reject_cause", reach::cotp_er_reject_cause),
    ("cotp_param_name", reach::cotp_param_name),
];

/// The table with two octets, last in the order of `tables`.
pub const SUBCODE_NAMER: &str = "idrp_error_subcode_name";

type Parser = fn(&[u8]) -> Answer;

/// The functions that take octets of any length.
pub const PARSERS: [(&str, Parser); 19] = [
    ("parse_x25", parse_x25),
    ("parse_network", |b| optional(atn::parse_network(b))),
    ("parse_clnp", |b| optional(reach::parse_clnp(b))),
    ("parse_esis", |b| Answer::Json(reach::parse_esis(b))),
    ("parse_idrp", |b| Answer::Json(reach::parse_idrp(b))),
    ("parse_idrp_open", |b| optional(reach::parse_idrp_open(b))),
    ("parse_idrp_update", |b| {
        optional(reach::parse_idrp_update(b))
    }),
    ("parse_cotp", |b| optional(reach::parse_cotp(b))),
    ("parse_facilities", |b| list(reach::parse_facilities(b))),
    ("parse_sndcf_field", parse_sndcf_field),
    ("parse_esis_options", |b| list(reach::parse_esis_options(b))),
    ("parse_clnp_options", |b| list(reach::parse_clnp_options(b))),
    ("parse_atn_security_label", |b| {
        Answer::Json(reach::parse_atn_security_label(b))
    }),
    ("parse_cotp_params", |b| list(reach::parse_cotp_params(b))),
    ("clnp_segment", clnp_segment),
    ("clnp_addresses", clnp_addresses),
    ("cotp_dt_segment", cotp_dt_segment),
    ("x25_payload", |b| {
        octets(atn::parse_x25(b).map(|packet| packet.payload))
    }),
    ("clnp_cotp_tpdu", |b| {
        octets(atn::clnp_cotp_tpdu(b).map(<[u8]>::to_vec))
    }),
];

/// The names that a call may have.
pub fn names() -> Vec<&'static str> {
    let fixed = [
        SUBCODE_NAMER,
        "decode_x25_compression",
        "parse_atn_security_tag",
    ];
    let parsers = PARSERS.iter().map(|(name, _)| *name);
    let namers = NAMERS.iter().map(|(name, _)| *name);
    parsers.chain(namers).chain(fixed).collect()
}

/// The answer of one function; an error if it has no such octets.
pub fn call(name: &str, b: &[u8]) -> Result<Answer, String> {
    if let Some((_, parser)) = PARSERS.iter().find(|(known, _)| *known == name) {
        return Ok(parser(b));
    }
    if let Some((_, namer)) = NAMERS.iter().find(|(known, _)| *known == name) {
        return match b {
            [code] => Ok(text(namer(*code))),
            _ => Err(format!("{name} takes one octet")),
        };
    }
    match (name, b) {
        (SUBCODE_NAMER, [code, sub]) => Ok(text(reach::idrp_error_subcode_name(*code, *sub))),
        ("decode_x25_compression", [octet]) => {
            Ok(Answer::Json(reach::decode_x25_compression(*octet)))
        }
        ("parse_atn_security_tag", [tag, value @ ..]) => {
            Ok(Answer::Json(reach::parse_atn_security_tag(*tag, value)))
        }
        _ => Err(format!("{name} does not take {} octets", b.len())),
    }
}

fn optional(value: Option<Value>) -> Answer {
    value.map_or(Answer::None, Answer::Json)
}

fn list(values: Vec<Value>) -> Answer {
    Answer::Json(Value::Array(values))
}

fn octets(octets: Option<Vec<u8>>) -> Answer {
    octets.map_or(Answer::None, Answer::Octets)
}

fn text(text: Option<&'static str>) -> Answer {
    text.map_or(Answer::None, Answer::Text)
}

fn parse_x25(b: &[u8]) -> Answer {
    optional(atn::parse_x25(b).map(|packet| json!(packet)))
}

fn parse_sndcf_field(b: &[u8]) -> Answer {
    match reach::parse_sndcf_field(b) {
        Some((value, count)) => Answer::JsonAndCount(value, count),
        None => Answer::None,
    }
}

fn clnp_segment(b: &[u8]) -> Answer {
    optional(atn::clnp_segment(b).map(|seg| {
        json!({
            "pdu_id": seg.pdu_id,
            "offset": seg.offset,
            "total_len": seg.total_len,
            "more": seg.more,
            "hdr_len": seg.hdr_len,
        })
    }))
}

fn clnp_addresses(b: &[u8]) -> Answer {
    let member = |octets: &[u8]| match octets {
        [] => String::new(),
        _ => hex(octets),
    };
    optional(
        reach::clnp_addresses(b)
            .map(|(dst, src)| json!({ "dst": member(&dst), "src": member(&src) })),
    )
}

fn cotp_dt_segment(b: &[u8]) -> Answer {
    optional(atn::cotp_dt_segment(b).map(|(dst_ref, eot, seq, user)| {
        let user = if user.is_empty() {
            String::new()
        } else {
            hex(&user)
        };
        json!({ "dst_ref": dst_ref, "eot": eot, "seq": seq, "user": user })
    }))
}

/// The reassemblers of all links, each made at its first use.
#[derive(Default)]
pub struct Joiners {
    x25: HashMap<u64, X25Reassembler>,
    clnp: HashMap<u64, ClnpReassembler>,
    cotp: HashMap<u64, CotpReassembler>,
}

impl Joiners {
    pub fn push(&mut self, kind: Kind, time: f64, link: u64, b: &[u8]) -> Option<Vec<u8>> {
        match kind {
            Kind::X25 => {
                let packet = atn::parse_x25(b)?;
                self.x25.entry(link).or_default().push(&packet, time)
            }
            Kind::Clnp => self.clnp.entry(link).or_default().push(b, time),
            Kind::Cotp => self.cotp.entry(link).or_default().push(b, time),
        }
    }

    /// The answer to any input.
    pub fn answer(&mut self, input: &Input) -> Result<Answer, String> {
        match input {
            Input::Call(name, b) => call(name, b),
            Input::Push {
                kind,
                time,
                link,
                octets: b,
            } => Ok(octets(self.push(*kind, *time, *link, b))),
            Input::New => {
                *self = Joiners::default();
                Ok(Answer::Text("new"))
            }
        }
    }
}

/// The answer to `tables`: a line for each code that has a text.
pub fn table_lines() -> Vec<String> {
    let mut lines = Vec::new();
    for (name, namer) in NAMERS {
        for code in 0..=255u8 {
            if let Some(text) = namer(code) {
                lines.push(format!("{name} {code:02x} {text}"));
            }
        }
    }
    for (code, sub) in (0..=255u8).flat_map(|code| (0..=255u8).map(move |sub| (code, sub))) {
        if let Some(text) = reach::idrp_error_subcode_name(code, sub) {
            lines.push(format!("{SUBCODE_NAMER} {code:02x}{sub:02x} {text}"));
        }
    }
    lines
}
