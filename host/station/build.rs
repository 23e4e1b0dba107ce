//! Links the proved archive, target/archive/libstation.a of the repository, and makes it if it isn't there.

use std::path::Path;
use std::process::Command;

fn main() {
    let root = Path::new(env!("CARGO_MANIFEST_DIR")).join("../..");
    let archive = root.join("target/archive/libstation.a");
    println!("cargo::rerun-if-changed={}", archive.display());
    if !archive.exists() {
        make(&root);
    }
    println!("cargo::rustc-link-search=native={}", root.join("target/archive").display());
    println!("cargo::rustc-link-lib=static=station");
}

/// Runs tools/archive, or says what to run.
fn make(root: &Path) {
    let made = Command::new("tools/archive").current_dir(root).status();
    if !made.is_ok_and(|status| status.success()) {
        println!("cargo::error=target/archive/libstation.a isn't there and could not be made.");
        println!("cargo::error=Run `tools/archive` in the repository's root: it needs `rt`.");
    }
}
