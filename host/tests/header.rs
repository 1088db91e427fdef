//! Compiles the C program of `tests/c` against the header and the archive, and runs it.
//!
//! The compiler is the one that `RAVNEKET_CC` names; else the linker that cargo uses for this target; else `cc`.

mod common;

use common::{command, Folder, Said};
use std::path::PathBuf;
use std::process::Command;

fn compiler() -> String {
    let named = ["RAVNEKET_CC", "CARGO_TARGET_X86_64_UNKNOWN_LINUX_GNU_LINKER"].map(std::env::var);
    named.into_iter().flatten().find(|name| !name.is_empty()).unwrap_or("cc".to_string())
}

#[test]
fn the_header_serves_a_c_program() {
    let here = PathBuf::from(env!("CARGO_MANIFEST_DIR"));
    let archives = std::env::var("RAVNEKET_ARCHIVES").map_or(here.join("../target/staticlib"), PathBuf::from);
    let folder = Folder::new("header");
    let program = folder.0.join("header");
    let compiled = Command::new(compiler())
        .args(["-std=c11", "-Wall", "-Wextra", "-Wpedantic", "-Werror", "-O1", "-I"])
        .arg(here.join("include"))
        .arg(here.join("tests/c/header.c"))
        .arg(archives.join("libboundary.a"))
        .arg("-o")
        .arg(&program)
        .output()
        .expect("the C compiler runs; RAVNEKET_CC names another one");
    assert!(compiled.status.success(), "{}", String::from_utf8_lossy(&compiled.stderr));
    let said = Said::of(command(&program).output().unwrap());
    assert_eq!(said, Said { status: 0, out: "all holds\n".to_string(), err: String::new() });
}
