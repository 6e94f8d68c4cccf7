//! What replay must print for the lines on standard input, by the Rust's answers: document 01, 'Replay'. The grammar is read here
//! once more, on its own. Pushes, tidying and closing are answered 17, as replay does until it has stores.

use oracle::atn;
use serde_json::Value;
use std::io::{self, BufWriter, Read, Write};

/// Octets of text and cells that replay lends.
const ROOM: usize = 8192;
/// The longest packet, in octets.
const LONGEST: usize = 2048;

fn is_number(word: &[u8]) -> bool {
    (1..=10).contains(&word.len())
        && word.iter().all(u8::is_ascii_digit)
        && std::str::from_utf8(word)
            .expect("digits")
            .parse::<u64>()
            .expect("a number")
            <= u32::MAX as u64
}

fn packet(word: &[u8]) -> Option<Vec<u8>> {
    if word == b"-" {
        return Some(Vec::new());
    }
    let fits = !word.is_empty() && word.len() % 2 == 0 && word.len() <= 2 * LONGEST;
    if !fits || !word.iter().all(u8::is_ascii_hexdigit) {
        return None;
    }
    let digit = |c: u8| (c as char).to_digit(16).expect("a digit") as u8;
    Some(
        word.chunks(2)
            .map(|two| digit(two[0]) * 16 + digit(two[1]))
            .collect(),
    )
}

/// Cells of a value: two for a group, and one for anything else.
fn cells(value: &Value) -> usize {
    match value {
        Value::Object(members) => 2 + members.values().map(cells).sum::<usize>(),
        Value::Array(entries) => 2 + entries.iter().map(cells).sum::<usize>(),
        _ => 1,
    }
}

fn shown(record: Option<Value>) -> (u32, String) {
    let Some(record) = record else {
        return (15, String::new());
    };
    let text = serde_json::to_string(&record).expect("JSON");
    if cells(&record) > ROOM || text.len() > ROOM {
        return (10, String::new());
    }
    (0, text)
}

fn answer(line: &[u8]) -> (u32, String) {
    let words: Vec<&[u8]> = line.split(|&c| c == b' ').collect();
    match words[..] {
        [b"P", hex] => match packet(hex) {
            Some(b) => shown(atn::parse_x25(&b).map(|p| serde_json::to_value(&p).expect("JSON"))),
            None => (17, String::new()),
        },
        [b"N", hex] => match packet(hex) {
            Some(b) => shown(atn::parse_network(&b)),
            None => (17, String::new()),
        },
        [b"X" | b"C" | b"T", ms, link, hex]
            if is_number(ms) && is_number(link) && packet(hex).is_some() =>
        {
            (17, String::new())
        }
        [b"E", ms, link] if is_number(ms) && is_number(link) => (17, String::new()),
        [b"Q", link] if is_number(link) => (17, String::new()),
        _ => (17, String::new()),
    }
}

fn main() -> io::Result<()> {
    let mut input = Vec::new();
    io::stdin().read_to_end(&mut input)?;
    let mut out = BufWriter::new(io::stdout());
    let mut lines: Vec<&[u8]> = input.split(|&c| c == b'\n').collect();
    if lines.last().is_some_and(|last| last.is_empty()) {
        lines.pop();
    }
    for (i, line) in lines.iter().enumerate() {
        let (number, text) = answer(line);
        let shown = if text.is_empty() { "-" } else { &text };
        writeln!(out, "{} {number} {} {shown}", i + 1, text.len())?;
    }
    out.flush()
}
