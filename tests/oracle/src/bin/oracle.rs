//! Answers lines on standard input: see README.md.

use oracle::answers::{names, table_lines, Joiners};
use oracle::line::Input;
use std::io::{self, BufRead, BufWriter, Write};
use std::process::ExitCode;

fn main() -> ExitCode {
    match run() {
        Ok(()) => ExitCode::SUCCESS,
        Err(message) => {
            eprintln!("{message}");
            ExitCode::FAILURE
        }
    }
}

fn run() -> Result<(), String> {
    let names = names();
    let mut joiners = Joiners::default();
    let mut out = BufWriter::with_capacity(1 << 16, io::stdout().lock());
    for (index, line) in io::stdin().lock().lines().enumerate() {
        let place = |message: String| format!("line {}: {message}", index + 1);
        let line = line.map_err(|error| place(error.to_string()))?;
        let written = if line == "tables" {
            writeln!(out, "{}", table_lines().join("\n"))
        } else {
            let input = Input::read(&line, &names).map_err(place)?;
            let answer = joiners.answer(&input).map_err(place)?;
            writeln!(out, "{answer}")
        };
        written.map_err(|error| error.to_string())?;
    }
    out.flush().map_err(|error| error.to_string())
}
