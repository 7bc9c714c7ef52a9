//! Binds the original's modules into this crate as the judge does, and links
//! the proved library, which stands in the folder that LIBRARY names.

#[path = "../oracle/build.rs"]
mod judge;

fn main() {
    judge::main();
    println!("cargo::rerun-if-env-changed=LIBRARY");
    let folder = std::env::var("LIBRARY").expect("LIBRARY names the library's folder");
    println!("cargo::rerun-if-changed={folder}/libmoldthatch.a");
    println!("cargo::rustc-link-search=native={folder}");
}
