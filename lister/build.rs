//! Links the command with the product's archive, from the folder that `POMTHIJA_LIB` names. The
//! library of this package does without it.

use std::path::Path;

/// The repository's root from this package's folder, and the folder of the archive from the root,
/// if `POMTHIJA_LIB` names none.
const ROOT: &str = "..";
const DEFAULT: &str = "build";

fn main() {
    let package = std::env::var("CARGO_MANIFEST_DIR").expect("cargo names the package's folder");
    let named = std::env::var("POMTHIJA_LIB").unwrap_or_else(|_| DEFAULT.to_string());
    let archive = Path::new(&package).join(ROOT).join(named).join("libpomthija.a");
    println!("cargo::rerun-if-changed=build.rs");
    println!("cargo::rerun-if-env-changed=POMTHIJA_LIB");
    println!("cargo::rerun-if-changed={}", archive.display());
    println!("cargo::rustc-link-arg-bins={}", archive.display());
}
