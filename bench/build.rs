// Links the static library that bench/run made: CALLS_DIR says where it is.
fn main() {
    let dir = std::env::var("CALLS_DIR").expect("CALLS_DIR: run bench/run");
    println!("cargo:rustc-link-search=native={dir}");
    println!("cargo:rustc-link-lib=static=calls");
    println!("cargo:rerun-if-env-changed=CALLS_DIR");
    println!("cargo:rerun-if-changed={dir}/libcalls.a");
}
