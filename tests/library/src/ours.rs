//! The port, through its static library.

extern "C" {
    fn atn_parse_x25(
        b: *const u8,
        nb: usize,
        out: *mut u64,
        no: usize,
        said: *mut u64,
        ns: usize,
    ) -> u64;
    fn atn_parse_cotp(
        b: *const u8,
        nb: usize,
        out: *mut u64,
        no: usize,
        said: *mut u64,
        ns: usize,
    ) -> u64;
    fn atn_cotp_dt_segment(b: *const u8, nb: usize, said: *mut u64, ns: usize) -> bool;
    fn atn_parse_clnp(
        b: *const u8,
        nb: usize,
        out: *mut u64,
        no: usize,
        said: *mut u64,
        ns: usize,
    ) -> u64;
    fn atn_parse_network(
        b: *const u8,
        nb: usize,
        out: *mut u64,
        no: usize,
        said: *mut u64,
        ns: usize,
    ) -> u64;
    fn atn_clnp_cotp_tpdu(b: *const u8, nb: usize, said: *mut u64, ns: usize) -> u64;
    fn atn_clnp_segment(b: *const u8, nb: usize, said: *mut u64, ns: usize) -> bool;
    fn atn_clnp_addresses(b: *const u8, nb: usize, said: *mut u64, ns: usize) -> bool;
    fn atn_print(
        cells: *const u64,
        nc: usize,
        b: *const u8,
        nb: usize,
        out: *mut u8,
        no: usize,
        said: *mut u64,
        ns: usize,
    ) -> u64;
}

/// What a parser answered: the number of cells, and where its part of the octets begins.
#[derive(Debug, Clone, Copy, PartialEq)]
pub struct Said {
    pub answer: u64,
    pub count: usize,
    pub place: usize,
}

/// A parser of the library.
pub type Parse = fn(&[u8], &mut [u64]) -> Said;

pub fn parse_x25(b: &[u8], out: &mut [u64]) -> Said {
    let mut said = [u64::MAX; 2];
    let answer = unsafe {
        atn_parse_x25(
            b.as_ptr(),
            b.len(),
            out.as_mut_ptr(),
            out.len(),
            said.as_mut_ptr(),
            2,
        )
    };
    Said {
        answer,
        count: said[0] as usize,
        place: said[1] as usize,
    }
}

/// It gives no part: the place is the end of the octets.
pub fn parse_cotp(b: &[u8], out: &mut [u64]) -> Said {
    let mut said = [u64::MAX; 1];
    let answer = unsafe {
        atn_parse_cotp(
            b.as_ptr(),
            b.len(),
            out.as_mut_ptr(),
            out.len(),
            said.as_mut_ptr(),
            1,
        )
    };
    Said {
        answer,
        count: said[0] as usize,
        place: b.len(),
    }
}

pub fn parse_clnp(b: &[u8], out: &mut [u64]) -> Said {
    let mut said = [u64::MAX; 1];
    let answer = unsafe {
        atn_parse_clnp(
            b.as_ptr(),
            b.len(),
            out.as_mut_ptr(),
            out.len(),
            said.as_mut_ptr(),
            1,
        )
    };
    Said {
        answer,
        count: said[0] as usize,
        place: b.len(),
    }
}

pub fn parse_network(b: &[u8], out: &mut [u64]) -> Said {
    let mut said = [u64::MAX; 1];
    let answer = unsafe {
        atn_parse_network(
            b.as_ptr(),
            b.len(),
            out.as_mut_ptr(),
            out.len(),
            said.as_mut_ptr(),
            1,
        )
    };
    Said {
        answer,
        count: said[0] as usize,
        place: b.len(),
    }
}

/// Id, offset, total length, more bit and header length.
pub fn clnp_segment(b: &[u8]) -> Option<[u64; 5]> {
    let mut said = [u64::MAX; 5];
    let is = unsafe { atn_clnp_segment(b.as_ptr(), b.len(), said.as_mut_ptr(), 5) };
    is.then_some(said)
}

/// Destination and source, as parts of the octets.
pub fn clnp_addresses(b: &[u8]) -> Option<(&[u8], &[u8])> {
    let mut said = [u64::MAX; 4];
    let is = unsafe { atn_clnp_addresses(b.as_ptr(), b.len(), said.as_mut_ptr(), 4) };
    let part = |at: u64, n: u64| &b[at as usize..(at + n) as usize];
    is.then(|| (part(said[0], said[1]), part(said[2], said[3])))
}

/// The answer, and the place of the TPDU.
pub fn clnp_cotp_tpdu(b: &[u8]) -> (u64, usize) {
    let mut said = [u64::MAX; 1];
    let answer = unsafe { atn_clnp_cotp_tpdu(b.as_ptr(), b.len(), said.as_mut_ptr(), 1) };
    (answer, said[0] as usize)
}

/// Reference, end mark, number and the place of the user data.
pub fn cotp_dt_segment(b: &[u8]) -> Option<[u64; 4]> {
    let mut said = [u64::MAX; 4];
    let is = unsafe { atn_cotp_dt_segment(b.as_ptr(), b.len(), said.as_mut_ptr(), 4) };
    is.then_some(said)
}

/// The answer and the length of the text.
pub fn print(cells: &[u64], b: &[u8], out: &mut [u8]) -> (u64, usize) {
    let mut said = [u64::MAX; 1];
    let answer = unsafe {
        atn_print(
            cells.as_ptr(),
            cells.len(),
            b.as_ptr(),
            b.len(),
            out.as_mut_ptr(),
            out.len(),
            said.as_mut_ptr(),
            1,
        )
    };
    (answer, said[0] as usize)
}
