//! Says where the library's archive is. It is written by `tools/archive`.
use std::env;

fn main() {
    let here = env::var("CARGO_MANIFEST_DIR").expect("cargo sets CARGO_MANIFEST_DIR");
    let folder = format!("{here}/../target/staticlib");
    println!("cargo:rustc-link-search=native={folder}");
    println!("cargo:rerun-if-changed={folder}/libcapi.a");
    println!("cargo:rerun-if-changed=build.rs");
}
