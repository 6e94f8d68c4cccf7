//! One line of the oracle's input as a value, and the way back to text.

use std::fmt;

/// Which reassembler a push goes to.
#[derive(Debug, Clone, Copy, PartialEq, Eq, Hash)]
pub enum Kind {
    X25,
    Clnp,
    Cotp,
}

impl Kind {
    pub fn letter(self) -> char {
        match self {
            Kind::X25 => 'X',
            Kind::Clnp => 'C',
            Kind::Cotp => 'T',
        }
    }

    fn of(text: &str) -> Result<Kind, String> {
        match text {
            "X" => Ok(Kind::X25),
            "C" => Ok(Kind::Clnp),
            "T" => Ok(Kind::Cotp),
            _ => Err(format!("no kind {text:?}")),
        }
    }
}

/// A line that has exactly one answer.
#[derive(Debug, Clone, PartialEq)]
pub enum Input {
    /// A function of the Rust by name, and its octets.
    Call(&'static str, Vec<u8>),
    Push {
        kind: Kind,
        time: f64,
        link: u64,
        octets: Vec<u8>,
    },
    /// Forget all reassemblers.
    New,
}

impl Input {
    /// Reads a line; `names` are the functions that may be called.
    pub fn read(line: &str, names: &[&'static str]) -> Result<Input, String> {
        let fields: Vec<&str> = line.split(' ').collect();
        match fields[..] {
            ["new"] => Ok(Input::New),
            ["push", kind, time, link, hex] => Ok(Input::Push {
                kind: Kind::of(kind)?,
                time: read_time(time)?,
                link: link.parse().map_err(|_| format!("no link {link:?}"))?,
                octets: read_hex(hex)?,
            }),
            [name, hex] => {
                let known = names.iter().find(|known| **known == name);
                let name = known.ok_or_else(|| format!("no function {name:?}"))?;
                Ok(Input::Call(name, read_hex(hex)?))
            }
            _ => Err(format!("no command {line:?}")),
        }
    }
}

impl fmt::Display for Input {
    fn fmt(&self, f: &mut fmt::Formatter) -> fmt::Result {
        match self {
            Input::Call(name, octets) => write!(f, "{name} {}", hex(octets)),
            Input::Push {
                kind,
                time,
                link,
                octets,
            } => {
                let (letter, time) = (kind.letter(), show_time(*time));
                write!(f, "push {letter} {time} {link} {}", hex(octets))
            }
            Input::New => f.write_str("new"),
        }
    }
}

fn show_time(time: f64) -> String {
    if time.is_finite() {
        format!("{time:?}")
    } else {
        format!("0x{:016x}", time.to_bits())
    }
}

fn read_time(text: &str) -> Result<f64, String> {
    let wrong = || format!("no time {text:?}");
    match text.strip_prefix("0x") {
        Some(bits) if bits.len() == 16 && bits.bytes().all(|c| c.is_ascii_hexdigit()) => {
            let bits = u64::from_str_radix(bits, 16).map_err(|_| wrong())?;
            Ok(f64::from_bits(bits))
        }
        Some(_) => Err(wrong()),
        None => text.parse().map_err(|_| wrong()),
    }
}

/// Lower hex, `-` for no octets.
pub fn hex(octets: &[u8]) -> String {
    const DIGITS: &[u8; 16] = b"0123456789abcdef";
    if octets.is_empty() {
        return "-".to_string();
    }
    let mut text = String::with_capacity(octets.len() * 2);
    for octet in octets {
        text.push(DIGITS[usize::from(octet >> 4)] as char);
        text.push(DIGITS[usize::from(octet & 15)] as char);
    }
    text
}

pub fn read_hex(text: &str) -> Result<Vec<u8>, String> {
    if text == "-" {
        return Ok(Vec::new());
    }
    if text.is_empty() || text.len() % 2 != 0 {
        return Err(format!("no octets {text:?}"));
    }
    text.as_bytes()
        .chunks(2)
        .map(|pair| Some(digit(pair[0])? << 4 | digit(pair[1])?))
        .collect::<Option<Vec<u8>>>()
        .ok_or_else(|| format!("no octets {text:?}"))
}

fn digit(c: u8) -> Option<u8> {
    match c {
        b'0'..=b'9' => Some(c - b'0'),
        b'a'..=b'f' => Some(c - b'a' + 10),
        b'A'..=b'F' => Some(c - b'A' + 10),
        _ => None,
    }
}
