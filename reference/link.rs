//! Links the static library that ARCHIVE names. The build script of the crates
//! that call the first implementation.

use std::path::Path;

fn main() {
    println!("cargo:rerun-if-env-changed=ARCHIVE");
    let archive = std::env::var("ARCHIVE").expect("ARCHIVE names a static library");
    let archive = Path::new(&archive).canonicalize().expect("the static library is built");
    println!("cargo:rerun-if-changed={}", archive.display());
    println!("cargo:rustc-link-arg={}", archive.display());
}
