//! One input, held against the Rust: the record as text (members and their order), the part, every answer for outputs of no
//! cells, one too few, as many as are needed and more, and the cells beyond.
use crate::ours::{print, Parse, Said};

/// What the Rust says: the record as compact JSON, and the part that comes with it.
pub struct Rust {
    pub json: String,
    pub part: Vec<u8>,
}

const MARK: u64 = 0xA5A5_5A5A_1234_8765;

pub struct Check {
    pub name: &'static str,
    parse: Parse,
    cells: Vec<u64>,
    text: Vec<u8>,
    pub inputs: u64,
    pub records: u64,
}

impl Check {
    pub fn new(name: &'static str, parse: Parse) -> Check {
        Check {
            name,
            parse,
            cells: vec![MARK; 4 * 65_536 + 100],
            text: vec![0; 1 << 23],
            inputs: 0,
            records: 0,
        }
    }

    /// Runs the parser on room cells; the cells behind its count must be as they were.
    fn run(&mut self, b: &[u8], room: usize) -> Result<Said, String> {
        for cell in &mut self.cells[..room + 4] {
            *cell = MARK;
        }
        let said = (self.parse)(b, &mut self.cells[..room]);
        match self.cells[said.count.min(room)..room + 4]
            .iter()
            .all(|&c| c == MARK)
        {
            true => Ok(said),
            false => Err(format!(
                "cells behind the count of {} are not as they were ({room} lent)",
                said.count
            )),
        }
    }

    fn refused(&mut self, b: &[u8], room: usize, answer: u64) -> Result<(), String> {
        let said = self.run(b, room)?;
        let want = Said {
            answer,
            count: 0,
            place: b.len(),
        };
        if said != want {
            return Err(format!("{room} cells lent: {said:?}, not {want:?}"));
        }
        Ok(())
    }

    fn whole(&mut self, b: &[u8], rust: &Rust, rooms: bool) -> Result<(), String> {
        let ample = 4 * b.len() + 64;
        let said = self.run(b, ample)?;
        let place = b.len() - rust.part.len();
        if said.answer != 0 || said.place != place || b[place..] != rust.part[..] {
            return Err(format!("{said:?}, and the Rust's part is at {place}"));
        }
        let (answer, size) = print(&self.cells[..said.count], b, &mut self.text);
        let text = &self.text[..size];
        if answer != 0 || text != rust.json.as_bytes() {
            return Err(format!(
                "prints {answer} {}, and the Rust {}",
                String::from_utf8_lossy(text),
                rust.json
            ));
        }
        if rooms {
            let cells = self.cells[..said.count].to_vec();
            let exact = self.run(b, said.count)?;
            if exact != said || self.cells[..said.count] != cells[..] {
                return Err(format!("{} cells lent: {exact:?}", said.count));
            }
            self.refused(b, said.count - 1, 10)?;
            self.refused(b, 0, 10)?;
        }
        Ok(())
    }

    /// Holds one input against the Rust's answer; with rooms, for every size of output.
    pub fn input(&mut self, b: &[u8], rust: Option<Rust>, rooms: bool) {
        self.inputs += 1;
        let found = match rust {
            _ if b.len() > 65_535 => self.refused(b, 400, 3).and_then(|()| self.refused(b, 0, 3)),
            None => self
                .refused(b, 4 * b.len().min(64) + 64, 15)
                .and_then(|()| self.refused(b, 0, 15)),
            Some(rust) => {
                self.records += 1;
                self.whole(b, &rust, rooms)
            }
        };
        if let Err(why) = found {
            let why: String = why.chars().take(1000).collect();
            let hex: String = b.iter().take(64).map(|x| format!("{x:02x}")).collect();
            eprintln!("{} {hex} ({} octets): {why}", self.name, b.len());
            std::process::exit(1);
        }
    }
}
