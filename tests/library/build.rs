// Links the static library of crate exports: EXPORTS_DIR says where it is (else the folder out of the crate).
fn main() {
    let dir = std::env::var("EXPORTS_DIR").unwrap_or_else(|_| "../../crates/exports/out".into());
    println!("cargo:rustc-link-search=native={dir}");
    println!("cargo:rustc-link-lib=static=exports");
    println!("cargo:rerun-if-env-changed=EXPORTS_DIR");
    println!("cargo:rerun-if-changed={dir}/libexports.a");
}
