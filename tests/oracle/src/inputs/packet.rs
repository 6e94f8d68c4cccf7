/// Octets, and where among them the length octets are.
#[derive(Clone, Default)]
pub struct Packet {
    pub octets: Vec<u8>,
    pub lengths: Vec<usize>,
}

impl Packet {
    pub fn of(octets: &[u8]) -> Packet {
        Packet::default().add(octets)
    }

    pub fn add(mut self, octets: &[u8]) -> Packet {
        self.octets.extend_from_slice(octets);
        self
    }

    pub fn length(mut self, length: usize) -> Packet {
        self.lengths.push(self.octets.len());
        self.octets.push(length as u8);
        self
    }

    /// A length of two octets.
    pub fn length16(mut self, length: usize) -> Packet {
        self.lengths.push(self.octets.len() + 1);
        self.octets
            .extend_from_slice(&(length as u16).to_be_bytes());
        self
    }

    pub fn then(mut self, part: Packet) -> Packet {
        let start = self.octets.len();
        self.lengths
            .extend(part.lengths.iter().map(|at| at + start));
        self.octets.extend_from_slice(&part.octets);
        self
    }

    /// The part after its length in one octet.
    pub fn prefixed(self, part: Packet) -> Packet {
        self.length(part.octets.len()).then(part)
    }

    /// The part after its length in two octets.
    pub fn prefixed16(self, part: Packet) -> Packet {
        self.length16(part.octets.len()).then(part)
    }

    /// Writes `length` over the length octet at `at`.
    pub fn set_length(mut self, at: usize, length: usize) -> Packet {
        self.octets[at] = length as u8;
        self.lengths.push(at);
        self
    }
}
