//! Finds `libkerbcanopy.a` in the directory that KERBCANOPY_LIB_DIR names (a
//! relative one counts from this package), else in the repository's
//! `target/staticlib`.

use std::env;
use std::path::{Path, PathBuf};

fn main() {
    println!("cargo::rerun-if-env-changed=KERBCANOPY_LIB_DIR");
    let package = PathBuf::from(env::var_os("CARGO_MANIFEST_DIR").expect("cargo sets it"));
    let named = env::var_os("KERBCANOPY_LIB_DIR").unwrap_or("../../target/staticlib".into());
    let directory = package.join(Path::new(&named));
    let archive = directory.join("libkerbcanopy.a");
    println!("cargo::rerun-if-changed={}", archive.display());
    if !archive.is_file() {
        println!(
            "cargo::error=no {}: build the proved library first, or name its directory in KERBCANOPY_LIB_DIR",
            archive.display()
        );
        return;
    }
    println!("cargo::rustc-link-search=native={}", directory.display());
    println!("cargo::rustc-link-lib=static=kerbcanopy");
}
