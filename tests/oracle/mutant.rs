//! The program that `mutants` builds with each changed copy: exits 1 at the
//! first line, of those in the file named, whose answer is another one.

#![allow(dead_code)]

#[allow(warnings)]
mod atn {
    include!(env!("MUTANT_ATN"));
}
#[path = "src/answers.rs"]
mod answers;
#[path = "src/line.rs"]
mod line;

use std::process::exit;

fn main() {
    let path = std::env::args().nth(1).expect("a file of lines and answers");
    let text = std::fs::read_to_string(path).expect("a readable file");
    let names = answers::names();
    let mut joiners = answers::Joiners::default();
    for row in text.lines() {
        let (line, known) = row.split_once('\t').expect("a line and its answer");
        let input = line::Input::read(line, &names).expect("an input");
        let answer = joiners.answer(&input).expect("an answer");
        if answer.to_string() != known {
            println!("{line}");
            exit(1);
        }
    }
}
