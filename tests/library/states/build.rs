//! Links the archive that NQ_ARCHIVE names, or target/staticlib/libnq.a, to the binary.

use std::env;
use std::path::PathBuf;

fn main() {
    let package = PathBuf::from(env::var("CARGO_MANIFEST_DIR").expect("a package"));
    let usual = package.join("../../../target/staticlib/libnq.a");
    let archive = env::var("NQ_ARCHIVE").map_or(usual, PathBuf::from);
    println!("cargo:rerun-if-env-changed=NQ_ARCHIVE");
    println!("cargo:rerun-if-changed={}", archive.display());
    println!("cargo:rustc-link-arg-bins={}", archive.display());
}
