//! Links the archive, which `make` at the repository's root builds.

use std::path::Path;

fn main() {
    let target = Path::new(env!("CARGO_MANIFEST_DIR")).join("../target");
    println!("cargo:rustc-link-search=native={}", target.display());
    println!("cargo:rustc-link-lib=static=krakobran");
    println!("cargo:rerun-if-changed={}", target.join("libkrakobran.a").display());
}
