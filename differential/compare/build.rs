//! With the feature `library`, links the archive that TIXORBEL_LIBRARY names.

use std::path::PathBuf;

fn main() {
    println!("cargo::rerun-if-env-changed=TIXORBEL_LIBRARY");
    if std::env::var_os("CARGO_FEATURE_LIBRARY").is_none() {
        return;
    }
    let archive = std::env::var("TIXORBEL_LIBRARY").expect("TIXORBEL_LIBRARY names our archive");
    let archive = PathBuf::from(&archive).canonicalize().unwrap_or_else(|why| panic!("{archive}: {why}"));
    let (folder, file) = (archive.parent().unwrap(), archive.file_name().unwrap());
    println!("cargo::rerun-if-changed={}", archive.display());
    println!("cargo::rustc-link-search=native={}", folder.display());
    println!("cargo::rustc-link-lib=static:+verbatim={}", file.to_str().unwrap());
}
