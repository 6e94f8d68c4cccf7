//! The JSON keys and fixed texts that the Rust can give, read from its own
//! source text.

use std::collections::BTreeSet;

/// The copy as it was built, with `reach` behind it.
pub const TEXT: &str = include_str!(concat!(env!("OUT_DIR"), "/atn.rs"));

/// A text literal and what stands around it, spaces left out.
struct Literal<'a> {
    text: &'a str,
    before: &'a str,
    after: &'a str,
}

impl Literal<'_> {
    fn is_key(&self) -> bool {
        let member = self.after.starts_with(':') && !self.after.starts_with("::");
        let index = self.before.ends_with('[') && self.after.starts_with(']');
        member || index
    }

    fn is_text(&self) -> bool {
        let line = self.before.rsplit('\n').next().unwrap_or("");
        let attribute = line.trim_start().starts_with("#[");
        let lookup = self.before.ends_with(".get(");
        let format = self.text.contains('{');
        !(self.is_key() || attribute || lookup || format)
    }
}

/// The members that JSON objects can have.
pub fn keys() -> BTreeSet<String> {
    let literals = literals(TEXT);
    let members = literals.iter().filter(|literal| literal.is_key());
    let members = members.map(|literal| literal.text.to_string());
    members.chain(packet_fields(TEXT)).collect()
}

/// The fixed texts that members can have, or lists can hold.
pub fn texts() -> BTreeSet<String> {
    let literals = literals(TEXT);
    let texts = literals.iter().filter(|literal| literal.is_text());
    texts.map(|literal| literal.text.to_string()).collect()
}

/// Every text literal outside comments. The source has no quote character
/// and no escaped quote, which this relies on and checks.
fn literals(text: &str) -> Vec<Literal<'_>> {
    assert!(!text.contains("\\\"") && !text.contains("'\"'"));
    let mut list = Vec::new();
    let mut at = 0;
    while at < text.len() {
        let rest = &text[at..];
        if rest.starts_with("//") {
            at += rest.find('\n').unwrap_or(rest.len());
        } else if let Some(inside) = rest.strip_prefix('"') {
            let length = inside.find('"').expect("the end of a literal");
            list.push(Literal {
                text: &inside[..length],
                before: text[..at].trim_end_matches(' '),
                after: inside[length + 1..].trim_start(),
            });
            at += length + 2;
        } else {
            at += rest.chars().next().map_or(1, char::len_utf8);
        }
    }
    list
}

/// The serialized fields of X25Packet.
fn packet_fields(text: &str) -> Vec<String> {
    let start = text.find("pub struct X25Packet {").expect("X25Packet");
    let body = &text[start..];
    let body = &body[..body.find("\n}").expect("the end of X25Packet")];
    let mut skip = false;
    let mut fields = Vec::new();
    for line in body.lines().skip(1).map(str::trim) {
        match line
            .strip_prefix("pub ")
            .and_then(|field| field.split_once(':'))
        {
            Some((name, _)) if !skip => fields.push(name.to_string()),
            Some(_) => skip = false,
            None => skip = skip || line == "#[serde(skip)]",
        }
    }
    fields
}
