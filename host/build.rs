//! Tells the linker where the proved library is. host/build makes it.

use std::path::Path;

fn main() {
    let here = std::env::var("CARGO_MANIFEST_DIR").expect("cargo sets CARGO_MANIFEST_DIR");
    let folder = std::env::var("RAVNEKET_ARCHIVES").unwrap_or(format!("{here}/../target/staticlib"));
    let archive = Path::new(&folder).join("libboundary.a");
    println!("cargo:rerun-if-env-changed=RAVNEKET_ARCHIVES");
    println!("cargo:rerun-if-changed={}", archive.display());
    if !archive.exists() {
        println!("cargo:warning={} is not there: run host/build", archive.display());
        std::process::exit(1);
    }
    println!("cargo:rustc-link-search=native={folder}");
    println!("cargo:rustc-link-lib=static=boundary");
}
