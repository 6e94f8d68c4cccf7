//! Writes OUT_DIR/atn.rs: the copy without its leading `//!` lines (an
//! included file can't hold them), then src/reach.rs as its child module, so
//! that private functions can be called and the copy stays as it is.

use std::{env, fs, path::Path};

const REACH: &str = "src/reach.rs";

fn main() {
    let source = env::var("ORACLE_ATN").unwrap_or_else(|_| "src/atn.rs".to_string());
    println!("cargo::rerun-if-env-changed=ORACLE_ATN");
    println!("cargo::rerun-if-changed={source}");
    println!("cargo::rerun-if-changed={REACH}");
    let text = fs::read_to_string(&source).expect("the copy of atn.rs");
    let reach = fs::read_to_string(REACH).expect(REACH);
    let kept: String = text
        .split_inclusive('\n')
        .skip_while(|line| line.starts_with("//!"))
        .collect();
    let joined = format!("{kept}\npub mod reach {{\nuse super::*;\n{reach}}}\n");
    let target = Path::new(&env::var("OUT_DIR").expect("OUT_DIR")).join("atn.rs");
    fs::write(target, joined).expect("writing OUT_DIR/atn.rs");
}
