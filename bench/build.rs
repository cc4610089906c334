//! Links the archive of the proved library, which the repository's root keeps under `target/`.

use std::env;
use std::path::Path;
use std::process::exit;

fn main() {
    let package = env::var("CARGO_MANIFEST_DIR").expect("cargo names the package's folder");
    let folder = Path::new(&package).join("../target/staticlib");
    let archive = folder.join("libcapi.a");
    println!("cargo::rerun-if-changed=build.rs");
    println!("cargo::rerun-if-changed={}", archive.display());
    if !archive.is_file() {
        eprintln!(
            "The library's archive {} is not there: run `scripts/staticlib capi` in the repository's root first.",
            archive.display()
        );
        exit(1);
    }
    println!("cargo::rustc-link-search=native={}", folder.display());
    println!("cargo::rustc-link-lib=static=capi");
}
