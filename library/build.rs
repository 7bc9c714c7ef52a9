//! Finds the library that `programs/library` has built in this repository.

use std::{env, path::Path};

fn main() {
    let here = env::var("CARGO_MANIFEST_DIR").expect("cargo names this folder");
    let folder = Path::new(&here).join("../target/staticlib");
    let library = folder.join("libmoldthatch.a");
    assert!(
        library.exists(),
        "{library:?} is missing: programs/library makes it"
    );
    println!("cargo::rerun-if-changed={}", library.display());
    println!("cargo::rustc-link-search=native={}", folder.display());
}
