//! Takes the given source from its folder, changes it where README.md says,
//! and leaves the result in the build's own folder. Nothing of it is stored
//! with this package. Where the folder is absent the driver is built without
//! it and says so when it runs.

use std::fs;
use std::path::{Path, PathBuf};

/// The repository's root from this package's folder, and the folder of the
/// source from the root, if `GIVEN_SRC` names none.
const ROOT: &str = "../..";
const DEFAULT: &str = "../shared/docs/src";

/// Where the files stand in the folder.
const INSIDE: &str = "crates/ag-engine/src";

fn main() {
    println!("cargo::rustc-check-cfg=cfg(given_source)");
    println!("cargo::rustc-check-cfg=cfg(product)");
    println!("cargo::rerun-if-env-changed=GIVEN_SRC");
    println!("cargo::rerun-if-env-changed=POMTHIJA_LIB");
    link_product();
    println!("cargo::rerun-if-changed=build.rs");
    let folder = source_folder().join(INSIDE);
    println!("cargo::rerun-if-changed={}", folder.display());
    if !folder.join("opaque.rs").is_file() {
        println!("cargo::warning=the given source is absent; the driver compares nothing");
        return;
    }
    println!("cargo::rustc-cfg=given_source");
    store("opaque.rs", opaque(File::read(&folder, "opaque.rs")));
    store("ast.rs", File::read(&folder, "ast.rs"));
    store("cpu_context.rs", cpu_context(File::read(&folder, "cpu_context.rs")));
}

/// Links the product's archive from the folder that `POMTHIJA_LIB` names, for
/// `given fuzz`. A relative path is taken from the repository's root.
fn link_product() {
    let Ok(named) = std::env::var("POMTHIJA_LIB") else { return };
    let package = std::env::var("CARGO_MANIFEST_DIR").expect("cargo names the package's folder");
    let folder = Path::new(&package).join(ROOT).join(named);
    println!("cargo::rerun-if-changed={}", folder.join("libpomthija.a").display());
    println!("cargo::rustc-link-search=native={}", folder.display());
    println!("cargo::rustc-link-lib=static=pomthija");
    println!("cargo::rustc-cfg=product");
}

fn source_folder() -> PathBuf {
    let package = std::env::var("CARGO_MANIFEST_DIR").expect("cargo names the package's folder");
    let named = std::env::var("GIVEN_SRC").unwrap_or_else(|_| DEFAULT.to_string());
    Path::new(&package).join(ROOT).join(named)
}

fn store(name: &str, file: File) {
    let out = std::env::var("OUT_DIR").expect("cargo names the build's folder");
    fs::write(Path::new(&out).join(name), file.text).expect("the build's folder can be written");
}

/// A file of the source, on its way to the form that is compiled.
struct File {
    name: &'static str,
    text: String,
}

impl File {
    fn read(folder: &Path, name: &'static str) -> File {
        let path = folder.join(name);
        println!("cargo::rerun-if-changed={}", path.display());
        let text =
            fs::read_to_string(&path).unwrap_or_else(|error| panic!("{}: {error}", path.display()));
        File { name, text }
    }

    /// The text must be there once; otherwise the source is another one than
    /// the changes are meant for, and the build fails.
    fn once(&self, expected: &str) -> usize {
        let found = self.text.matches(expected).count();
        assert!(found == 1, "{}: '{expected}' is there {found} times, not once", self.name);
        self.text.find(expected).expect("it was just counted")
    }

    fn replaced(mut self, expected: &str, with: &str) -> File {
        let at = self.once(expected);
        self.text.replace_range(at..at + expected.len(), with);
        self
    }

    /// The part before `expected`, without the comment that stands on it.
    fn before(mut self, expected: &str) -> File {
        let at = self.once(expected);
        self.text.truncate(at);
        let kept = self.text.trim_end().lines().rev().skip_while(|line| line.starts_with("///"));
        let mut lines: Vec<&str> = kept.collect();
        lines.reverse();
        File { name: self.name, text: lines.join("\n") + "\n" }
    }

    /// Comments on the whole file as plain ones: an included file may not
    /// have the former.
    fn plain_comments(mut self) -> File {
        let plain = |line: &str| match line.strip_prefix("//!") {
            Some(rest) => format!("//{rest}\n"),
            None => format!("{line}\n"),
        };
        self.text = self.text.lines().map(plain).collect();
        self
    }
}

fn opaque(file: File) -> File {
    // The stand-in of this function answers that nothing is known.
    file.once("crate::emulate::constant_value(cond)?.value?");
    file.plain_comments()
        // The answer of the parity step, before its sentence is worked out:
        // the sentence may take for ever, and looks like that of another step.
        .replaced(
            "if difference == Poly::one() {",
            "if difference == Poly::one() {
        return Some((false, crate::guard::PARITY.to_string()));",
        )
        // Work without limit is stopped.
        .replaced(
            "for b in &other.0 {",
            "for b in &other.0 { crate::guard::spend(out.0.len() + 1);",
        )
}

/// The types of instructions alone; the decoder behind them is left out.
fn cpu_context(file: File) -> File {
    file.before("pub fn opcode_name(").replaced("use crate::arch::Bitness;", "")
}
