//! Copies the original's files from the folder that ORIGINAL names, by default shared/docs/src beside the repository.
use std::path::Path;
use std::{env, fs};

const FILES: [&str; 5] = [
    "lib.rs",
    "term.rs",
    "combinators.rs",
    "parser.rs",
    "reduction.rs",
];

fn main() {
    println!("cargo:rerun-if-env-changed=ORIGINAL");
    let here = env::var("CARGO_MANIFEST_DIR").unwrap();
    let folder = env::var("ORIGINAL").unwrap_or(here.clone() + "/../../../../shared/docs/src");
    let from = Path::new(&folder).join("src");
    let to = Path::new(&here).join("copy");
    fs::create_dir_all(&to).unwrap();
    for file in FILES {
        let source = from.join(file);
        println!("cargo:rerun-if-changed={}", source.display());
        let text = fs::read(&source).unwrap_or_else(|e| panic!("{}: {e}", source.display()));
        fs::write(to.join(file), text).unwrap();
    }
}
