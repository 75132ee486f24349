//! Links the archive from the folder that COPPERJANGLE_LIB names, by default target/staticlib of the repository.
use std::env;

fn main() {
    println!("cargo:rerun-if-env-changed=COPPERJANGLE_LIB");
    let here = env::var("CARGO_MANIFEST_DIR").unwrap();
    let folder = env::var("COPPERJANGLE_LIB").unwrap_or(here + "/../../target/staticlib");
    println!("cargo:rerun-if-changed={folder}/libcopperjangle.a");
    println!("cargo:rustc-link-search=native={folder}");
}
