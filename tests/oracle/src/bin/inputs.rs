//! `inputs SEED COUNT`: prints oracle lines, the fixed part then COUNT others.

use oracle::inputs;
use std::io::{self, BufWriter, Write};
use std::process::ExitCode;

fn main() -> ExitCode {
    let arguments: Vec<String> = std::env::args().skip(1).collect();
    let numbers: Vec<u64> = arguments.iter().flat_map(|text| text.parse()).collect();
    let [seed, count] = numbers[..] else {
        eprintln!("usage: inputs SEED COUNT");
        return ExitCode::FAILURE;
    };
    let mut out = BufWriter::with_capacity(1 << 16, io::stdout().lock());
    let mut failed = false;
    inputs::each(seed, count as usize, &mut |input| {
        failed = failed || writeln!(out, "{input}").is_err();
    });
    if failed || out.flush().is_err() {
        return ExitCode::FAILURE;
    }
    ExitCode::SUCCESS
}
