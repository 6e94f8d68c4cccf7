//! The Rust's answers, to compare the port with: see README.md.

/// The copy of the Rust, with `reach` for its private functions.
#[allow(dead_code, clippy::all)]
pub mod atn {
    include!(concat!(env!("OUT_DIR"), "/atn.rs"));
}
pub mod answers;
pub mod inputs;
pub mod line;
pub mod source;
