//! Links the archives of the stripe, the probe and the shelf, which stand in the folder that KUMIROVE_ARCHIVES names
//! (../target/staticlib where it is not set).

use std::env;
use std::path::{Path, PathBuf};

/// The folder of the archives.
fn folder() -> PathBuf {
    let package = env::var_os("CARGO_MANIFEST_DIR").expect("cargo names the package's folder");
    match env::var_os("KUMIROVE_ARCHIVES") {
        Some(named) => PathBuf::from(named),
        None => Path::new(&package).join("../target/staticlib"),
    }
}

/// Has the program linked with each archive, and again when one changes.
fn main() {
    let folder = folder();
    println!("cargo:rerun-if-env-changed=KUMIROVE_ARCHIVES");
    println!("cargo:rustc-link-search=native={}", folder.display());
    for name in ["stripe", "probe", "shelf"] {
        let archive = folder.join(format!("lib{name}.a"));
        assert!(archive.is_file(), "{} is missing: make it by tools/staticlib {name}", archive.display());
        println!("cargo:rerun-if-changed={}", archive.display());
        println!("cargo:rustc-link-lib=static={name}");
    }
}
