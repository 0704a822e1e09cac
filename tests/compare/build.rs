//! With the feature `proved`, links the archive of the proved library.
use std::path::Path;

fn main() {
    println!("cargo:rerun-if-changed=build.rs");
    if std::env::var_os("CARGO_FEATURE_PROVED").is_none() {
        return;
    }
    let folder = Path::new(env!("CARGO_MANIFEST_DIR")).join("../../target/staticlib");
    let archive = folder.join("libebikwotula.a");
    assert!(
        archive.exists(),
        "run `rt ci` and `python3 tools/build.py ebikwotula` in the repository's root first"
    );
    println!("cargo:rustc-link-search=native={}", folder.display());
    println!("cargo:rustc-link-lib=static=ebikwotula");
    println!("cargo:rerun-if-changed={}", archive.display());
}
