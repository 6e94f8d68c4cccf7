//! `coverage SEED COUNT`: which JSON keys and fixed texts of the Rust the
//! inputs bring forth. Fails if one is missing.

use oracle::answers::{Answer, Joiners};
use oracle::inputs::{self, Input};
use oracle::source;
use serde_json::Value;
use std::collections::{BTreeMap, BTreeSet};
use std::process::ExitCode;

/// Never produced, since the application decoders are not part of the copy.
const LEFT_OUT: &str = "app";

/// Functions whose JSON is made by this package and not by the Rust.
const OWN_JSON: [&str; 3] = ["clnp_segment", "clnp_addresses", "cotp_dt_segment"];

struct Counts {
    keys: BTreeMap<String, u64>,
    texts: BTreeMap<String, u64>,
}

impl Counts {
    fn new() -> Counts {
        let zero = |names: BTreeSet<String>| names.into_iter().map(|name| (name, 0)).collect();
        let mut keys: BTreeMap<String, u64> = zero(source::keys());
        keys.remove(LEFT_OUT).expect("the key that is left out");
        Counts {
            keys,
            texts: zero(source::texts()),
        }
    }

    fn count(&mut self, value: &Value) {
        match value {
            Value::Object(members) => {
                for (key, value) in members {
                    let known = self.keys.get_mut(key);
                    *known.unwrap_or_else(|| panic!("key {key:?} is not in the source")) += 1;
                    self.count(value);
                }
            }
            Value::Array(values) => values.iter().for_each(|value| self.count(value)),
            Value::String(text) => {
                if let Some(count) = self.texts.get_mut(text) {
                    *count += 1;
                }
            }
            _ => {}
        }
    }
}

fn show(title: &str, counts: &BTreeMap<String, u64>) -> usize {
    println!("{title}: {}", counts.len());
    for (name, count) in counts {
        println!("  {count:>8} {name}");
    }
    let missing: Vec<_> = counts.iter().filter(|(_, count)| **count == 0).collect();
    for (name, _) in &missing {
        println!("MISSING {title}: {name}");
    }
    missing.len()
}

fn run(seed: u64, count: usize) -> Result<usize, String> {
    let mut counts = Counts::new();
    let mut joiners = Joiners::default();
    let mut total = 0u64;
    let mut failure = None;
    inputs::each(seed, count, &mut |input| {
        total += 1;
        let own = matches!(&input, Input::Call(name, _) if OWN_JSON.contains(name));
        match joiners.answer(&input) {
            Ok(Answer::Json(value) | Answer::JsonAndCount(value, _)) if !own => {
                counts.count(&value)
            }
            Ok(_) => {}
            Err(message) => failure = Some(message),
        }
    });
    println!("inputs: {total}");
    let missing = show("keys", &counts.keys) + show("texts", &counts.texts);
    failure.map_or(Ok(missing), Err)
}

fn main() -> ExitCode {
    let arguments: Vec<String> = std::env::args().skip(1).collect();
    let numbers: Vec<u64> = arguments.iter().flat_map(|text| text.parse()).collect();
    let [seed, count] = numbers[..] else {
        eprintln!("usage: coverage SEED COUNT");
        return ExitCode::FAILURE;
    };
    match run(seed, count as usize) {
        Ok(0) => ExitCode::SUCCESS,
        Ok(missing) => {
            println!("missing: {missing}");
            ExitCode::FAILURE
        }
        Err(message) => {
            eprintln!("{message}");
            ExitCode::FAILURE
        }
    }
}
