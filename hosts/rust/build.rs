//! Links the static library from `MANIK_LIB_DIR`, or from where `tools/library` makes it.

use std::env;
use std::path::PathBuf;

fn main() {
    println!("cargo:rerun-if-env-changed=MANIK_LIB_DIR");
    let folder = match env::var_os("MANIK_LIB_DIR") {
        Some(folder) => PathBuf::from(folder),
        None => PathBuf::from(env!("CARGO_MANIFEST_DIR")).join("../../target/staticlib"),
    };
    println!("cargo:rustc-link-search=native={}", folder.display());
    for part in ["abi", "abi_show", "abi_list", "abi_asm"] {
        let archive = folder.join(format!("lib{part}.a"));
        println!("cargo:rerun-if-changed={}", archive.display());
        assert!(archive.exists(), "no {}: make it with tools/library", archive.display());
        println!("cargo:rustc-link-lib=static={part}");
    }
}
