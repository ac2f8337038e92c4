//! Links the library's archive, which `tools/archive` writes.
use std::path::Path;

fn main() {
    let archive = Path::new("../target/staticlib/libcapi.a");
    println!("cargo:rerun-if-changed={}", archive.display());
    assert!(
        archive.exists(),
        "the archive is missing: run `tools/archive` at the repository's root"
    );
    let folder = archive.parent().and_then(|folder| folder.canonicalize().ok());
    let folder = folder.expect("the archive's folder can be read");
    println!("cargo:rustc-link-search=native={}", folder.display());
    println!("cargo:rustc-link-lib=static=capi");
}
