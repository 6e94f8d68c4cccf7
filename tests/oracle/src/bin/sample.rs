//! Prints the fixed sample: some lines of the generator with their answers,
//! parted by a tab.

use oracle::answers::{names, Joiners};
use oracle::inputs::{self, Input};
use std::collections::BTreeMap;
use std::io::{self, BufWriter, Write};

const SEED: u64 = 8208;
const RANDOM: usize = 60_000;

/// The longest row taken, in characters.
const LONGEST: usize = 600;

/// How many calls of each function, from the fixed and from the random part.
const CALLS: usize = 24;
/// How many sequences of pushes from each part.
const SEQUENCES: usize = 60;

type Group = Vec<String>;

/// The inputs' rows by function; a sequence is one group under `push`.
fn groups(each: impl FnOnce(&mut dyn FnMut(Input))) -> BTreeMap<&'static str, Vec<Group>> {
    let mut joiners = Joiners::default();
    let mut groups: BTreeMap<&'static str, Vec<Group>> = BTreeMap::new();
    each(&mut |input| {
        let answer = joiners.answer(&input).expect("an answer");
        let row = format!("{input}\t{answer}");
        match input {
            Input::Call(name, _) => groups.entry(name).or_default().push(vec![row]),
            Input::New => groups.entry("push").or_default().push(vec![row]),
            Input::Push { .. } => {
                let sequences = groups.get_mut("push").expect("a sequence");
                sequences.last_mut().expect("a sequence").push(row);
            }
        }
    });
    groups
}

/// `count` groups evenly from those that are short enough, a quarter of them
/// among the ones that say None throughout.
fn spread(groups: &[Group], count: usize) -> Vec<&Group> {
    let silent = |row: &String| row.ends_with("\tNone") || row.ends_with("\tnew");
    let short = groups
        .iter()
        .filter(|group| group.iter().all(|row| row.len() <= LONGEST));
    let (nones, others): (Vec<&Group>, Vec<&Group>) =
        short.partition(|group| group.iter().all(silent));
    let mut taken = evenly(&others, count - count / 4);
    taken.extend(evenly(&nones, count / 4));
    taken
}

fn evenly<'a>(groups: &[&'a Group], count: usize) -> Vec<&'a Group> {
    let count = count.min(groups.len());
    (0..count)
        .map(|i| groups[(2 * i + 1) * groups.len() / (2 * count)])
        .collect()
}

fn main() -> io::Result<()> {
    let mut out = BufWriter::new(io::stdout().lock());
    let parts = [
        groups(|sink| inputs::each_fixed(sink)),
        groups(|sink| inputs::each_random(SEED, RANDOM, sink)),
    ];
    for name in names().into_iter().chain(["push"]) {
        let count = if name == "push" { SEQUENCES } else { CALLS };
        for part in &parts {
            let Some(groups) = part.get(name) else {
                continue;
            };
            for row in spread(groups, count).into_iter().flatten() {
                writeln!(out, "{row}")?;
            }
        }
    }
    out.flush()
}
