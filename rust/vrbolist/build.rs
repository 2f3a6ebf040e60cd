//! Links `libvrbolist.a`, which `rust/archive` puts into `target/staticlib` at the root of the repository.

use std::path::PathBuf;

fn main() {
    let root = PathBuf::from(std::env::var("CARGO_MANIFEST_DIR").expect("cargo sets it")).join("../..");
    let folder = root.join("target/staticlib");
    let archive = folder.join("libvrbolist.a");
    println!("cargo:rerun-if-changed={}", archive.display());
    if !archive.exists() {
        println!(
            "cargo:warning=libvrbolist.a is missing: run `rust/archive` at the root of the repository first"
        );
        std::process::exit(1);
    }
    println!("cargo:rustc-link-search=native={}", folder.display());
    println!("cargo:rustc-link-lib=static=vrbolist");
}
