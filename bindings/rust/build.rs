//! Finds the proved library, libnq.a, and has it linked.

use std::env;
use std::path::Path;

const VARIABLE: &str = "NELVAQUIST_LIB_DIR";

fn main() {
    println!("cargo:rerun-if-changed=build.rs");
    println!("cargo:rerun-if-env-changed={VARIABLE}");
    let set = env::var_os(VARIABLE).filter(|set| !set.is_empty());
    // An absolute directory stays as it is when it is joined.
    let directory = Path::new(env!("CARGO_MANIFEST_DIR"))
        .join(set.unwrap_or_else(|| "../../target/staticlib".into()));
    let directory = directory.canonicalize().unwrap_or(directory);
    let library = directory.join("libnq.a");
    println!("cargo:rerun-if-changed={}", library.display());
    if !library.is_file() {
        // Checking and the manual do without the library, so only the linker stops for it.
        println!(
            "cargo:warning=There is no {}, without which nothing can be linked: build the library, \
             or set {VARIABLE} to the absolute path of the directory that has it.",
            library.display()
        );
    }
    println!("cargo:rustc-link-search=native={}", directory.display());
    println!("cargo:rustc-link-lib=static=nq");
}
