//! A store in lent memory, and the pool's operations on it.

/// A slice as the static library takes it.
macro_rules! library {
    ($($name:ident($($arg:ident: $kind:ty),*) $(-> $ret:ty)?;)*) => {
        extern "C" { $(fn $name($($arg: $kind),*) $(-> $ret)?;)* }
    };
}

type W = *mut u64;
type T = *mut f64;
type H = *mut u16;
type B = *mut u8;

library! {
    calls_parse_x25(b: *const u8, n: usize, out: *mut u64, no: usize) -> u64;
    calls_create(w: W, nw: usize, t: T, nt: usize, l: H, nl: usize, h: H, nh: usize, b: B, nb: usize, links: u64, blocks: u64, reserve: u64, cap: u64) -> bool;
    calls_test(w: W, nw: usize, t: T, nt: usize, l: H, nl: usize, h: H, nh: usize, b: B, nb: usize, kind: u64) -> bool;
    calls_find(w: W, nw: usize, t: T, nt: usize, l: H, nl: usize, h: H, nh: usize, b: B, nb: usize, link: usize, key: *const u64, nk: usize) -> usize;
    calls_room(w: W, nw: usize, link: usize, u: u64, k: u64, n: u64) -> u64;
    calls_add(w: W, nw: usize, t: T, nt: usize, l: H, nl: usize, h: H, nh: usize, b: B, nb: usize, link: usize, key: *const u64, nk: usize, note: u64, at: f64);
    calls_splice(w: W, nw: usize, t: T, nt: usize, l: H, nl: usize, h: H, nh: usize, b: B, nb: usize, link: usize, j: usize, part: usize, d: usize, src: *const u8, n: usize);
    calls_zeros(w: W, nw: usize, t: T, nt: usize, l: H, nl: usize, h: H, nh: usize, b: B, nb: usize, link: usize, j: usize, part: usize, d: usize, z: usize);
    calls_write(w: W, nw: usize, t: T, nt: usize, l: H, nl: usize, h: H, nh: usize, b: B, nb: usize, link: usize, j: usize, part: usize, o: usize, src: *const u8, n: usize);
    calls_mark(w: W, nw: usize, t: T, nt: usize, l: H, nl: usize, h: H, nh: usize, b: B, nb: usize, link: usize, j: usize, note: u64, at: f64);
    calls_remove(w: W, nw: usize, t: T, nt: usize, l: H, nl: usize, h: H, nh: usize, b: B, nb: usize, link: usize, j: usize);
    calls_begin(w: W, nw: usize, t: T, nt: usize, l: H, nl: usize, h: H, nh: usize, b: B, nb: usize, link: usize, key: *const u64, nk: usize, at: f64) -> usize;
    calls_hold(w: W, nw: usize, t: T, nt: usize, l: H, nl: usize, h: H, nh: usize, b: B, nb: usize, link: usize, key: *const u64, nk: usize, note: u64, at: f64, piece: *const u8, n: usize) -> u64;
    calls_finish(w: W, nw: usize, t: T, nt: usize, l: H, nl: usize, h: H, nh: usize, b: B, nb: usize, link: usize, key: *const u64, nk: usize, at: f64, piece: *const u8, n: usize, out: B, no: usize) -> u64;
    calls_read(w: W, nw: usize, t: T, nt: usize, l: H, nl: usize, h: H, nh: usize, b: B, nb: usize, link: usize, j: usize, part: usize, out: B, no: usize, at: usize) -> usize;
}

/// The answer of `parse_x25`.
pub fn parse_x25(b: &[u8], out: &mut [u64]) -> u64 {
    unsafe { calls_parse_x25(b.as_ptr(), b.len(), out.as_mut_ptr(), out.len()) }
}

#[derive(Clone)]
pub struct Store {
    words: Vec<u64>,
    times: Vec<f64>,
    list: Vec<u16>,
    home: Vec<u16>,
    blocks: Vec<u8>,
}

/// Calls a function of the library with the store's five slices first.
macro_rules! with {
    ($s:expr, $name:ident $(, $arg:expr)*) => {
        unsafe {
            $name($s.words.as_mut_ptr(), $s.words.len(), $s.times.as_mut_ptr(), $s.times.len(), $s.list.as_mut_ptr(), $s.list.len(),
                $s.home.as_mut_ptr(), $s.home.len(), $s.blocks.as_mut_ptr(), $s.blocks.len() $(, $arg)*)
        }
    };
}

impl Store {
    pub fn new(links: u64, blocks: u64, reserve: u64, cap: u64) -> Store {
        let b = blocks as usize;
        let mut s = Store {
            words: vec![7; 1576],
            times: vec![0.0; 128],
            list: vec![9; b],
            home: vec![9; b],
            blocks: vec![1; 64 * b],
        };
        assert!(
            with!(s, calls_create, links, blocks, reserve, cap),
            "settings"
        );
        s
    }

    pub fn test(&mut self) -> bool {
        with!(self, calls_test, 1)
    }

    pub fn units(&self, link: usize) -> usize {
        self.words[24 + link] as usize
    }

    pub fn find(&mut self, link: usize, key: &[u64; 6]) -> usize {
        with!(self, calls_find, link, key.as_ptr(), 6)
    }

    pub fn room(&mut self, link: usize, units: u64, from: u64, to: u64) -> u64 {
        unsafe {
            calls_room(
                self.words.as_mut_ptr(),
                self.words.len(),
                link,
                units,
                from,
                to,
            )
        }
    }

    pub fn add(&mut self, link: usize, key: &[u64; 6], note: u64, at: f64) {
        with!(self, calls_add, link, key.as_ptr(), 6, note, at)
    }

    /// The octets of a part of unit j of a link.
    pub fn len(&self, link: usize, j: usize, part: usize) -> usize {
        self.words[40 + 12 * (8 * link + j) + 7 + part] as usize
    }

    pub fn splice(&mut self, link: usize, j: usize, part: usize, d: usize, src: &[u8]) {
        with!(
            self,
            calls_splice,
            link,
            j,
            part,
            d,
            src.as_ptr(),
            src.len()
        )
    }

    pub fn append(&mut self, link: usize, j: usize, part: usize, src: &[u8]) {
        let d = self.len(link, j, part);
        self.splice(link, j, part, d, src)
    }

    pub fn zeros(&mut self, link: usize, j: usize, part: usize, d: usize, z: usize) {
        with!(self, calls_zeros, link, j, part, d, z)
    }

    pub fn write(&mut self, link: usize, j: usize, part: usize, o: usize, src: &[u8]) {
        with!(self, calls_write, link, j, part, o, src.as_ptr(), src.len())
    }

    pub fn mark(&mut self, link: usize, j: usize, note: u64, at: f64) {
        with!(self, calls_mark, link, j, note, at)
    }

    pub fn remove(&mut self, link: usize, j: usize) {
        with!(self, calls_remove, link, j)
    }

    /// What every push begins with: the test, the link, expiry, and the unit of the key.
    pub fn begin(&mut self, link: usize, key: &[u64; 6], at: f64) -> usize {
        with!(self, calls_begin, link, key.as_ptr(), 6, at)
    }

    /// A push whose piece is held: the answer.
    pub fn hold(&mut self, link: usize, key: &[u64; 6], note: u64, at: f64, piece: &[u8]) -> u64 {
        with!(
            self,
            calls_hold,
            link,
            key.as_ptr(),
            6,
            note,
            at,
            piece.as_ptr(),
            piece.len()
        )
    }

    /// A push whose piece ends the unit: the answer.
    pub fn finish(
        &mut self,
        link: usize,
        key: &[u64; 6],
        at: f64,
        piece: &[u8],
        out: &mut [u8],
    ) -> u64 {
        with!(
            self,
            calls_finish,
            link,
            key.as_ptr(),
            6,
            at,
            piece.as_ptr(),
            piece.len(),
            out.as_mut_ptr(),
            out.len()
        )
    }

    pub fn read(&mut self, link: usize, j: usize, part: usize, out: &mut [u8], at: usize) -> usize {
        with!(
            self,
            calls_read,
            link,
            j,
            part,
            out.as_mut_ptr(),
            out.len(),
            at
        )
    }
}
