//! Finds libcopperjangle.a, or says how to make it.
use std::path::{Path, PathBuf};
use std::{env, process};

const ARCHIVE: &str = "libcopperjangle.a";

fn main() {
    println!("cargo:rerun-if-changed=build.rs");
    println!("cargo:rerun-if-env-changed=COPPERJANGLE_LIB");
    if !target_served() {
        stop(&format!(
            "copperjangle: {ARCHIVE} is made for 64-bit x86-64 Linux only, and the target is {}",
            variable("TARGET")
        ));
    }
    let folder = folder();
    let archive = folder.join(ARCHIVE);
    println!("cargo:rerun-if-changed={}", archive.display());
    if !archive.is_file() {
        stop(&format!(
            "copperjangle: there is no {}\n\
             Run `./build archive` at the root of the repository, which makes it,\n\
             or set COPPERJANGLE_LIB to the folder that has {ARCHIVE}.",
            archive.display()
        ));
    }
    println!("cargo:rustc-link-search=native={}", folder.display());
    println!("cargo:rustc-link-lib=static=copperjangle");
}

fn target_served() -> bool {
    variable("CARGO_CFG_TARGET_ARCH") == "x86_64"
        && variable("CARGO_CFG_TARGET_OS") == "linux"
        && variable("CARGO_CFG_TARGET_POINTER_WIDTH") == "64"
}

/// The folder of the archive: a relative one is taken from this crate's.
fn folder() -> PathBuf {
    let here = variable("CARGO_MANIFEST_DIR");
    let named = env::var_os("COPPERJANGLE_LIB").filter(|folder| !folder.is_empty());
    Path::new(&here).join(named.unwrap_or_else(|| "../target/staticlib".into()))
}

fn variable(name: &str) -> String {
    env::var(name).unwrap_or_default()
}

fn stop(message: &str) -> ! {
    eprintln!("{message}");
    process::exit(1);
}
