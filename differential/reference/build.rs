//! Names the two files of the Rust source by where they lie; nothing of them is copied.

use std::path::{Path, PathBuf};

fn main() {
    println!("cargo::rerun-if-env-changed=DIFFERENTIAL_DATAFLOW_SRC");
    let folder = std::env::var("DIFFERENTIAL_DATAFLOW_SRC")
        .expect("DIFFERENTIAL_DATAFLOW_SRC names the folder that has capture.rs and lattice.rs");
    let modules: String = ["capture", "lattice"].map(|name| module(&folder, name)).concat();
    let out = PathBuf::from(std::env::var("OUT_DIR").unwrap());
    std::fs::write(out.join("modules.rs"), modules).unwrap();
}

fn module(folder: &str, name: &str) -> String {
    let file = Path::new(folder).join(name).with_extension("rs");
    let file = file.canonicalize().unwrap_or_else(|why| panic!("{}: {why}", file.display()));
    println!("cargo::rerun-if-changed={}", file.display());
    format!("#[path = {file:?}]\npub mod {name};\n")
}
