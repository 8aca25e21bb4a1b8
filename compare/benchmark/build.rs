//! Links the archives that ./compare/speed made: the library, and where it is there the one with its inner functions.

use std::env;
use std::path::Path;

const LIBRARY: &str = "GALTHUMIR_NATIVE";
const INNER: &str = "GALTHUMIR_NATIVE_UNCHECKED";

/// The archive that a variable names, if it names one.
fn named_archive(variable: &str) -> Option<String> {
    println!("cargo:rerun-if-env-changed={variable}");
    env::var(variable).ok().filter(|path| !path.is_empty())
}

fn link(archive: &str) {
    assert!(Path::new(archive).is_file(), "there is no archive {archive}");
    println!("cargo:rerun-if-changed={archive}");
    println!("cargo:rustc-link-arg-bins={archive}");
}

fn main() {
    println!("cargo:rustc-check-cfg=cfg(inner)");
    link(&named_archive(LIBRARY).unwrap_or_else(|| panic!("set {LIBRARY} to libgalthumir.a for this machine")));
    if let Some(archive) = named_archive(INNER) {
        link(&archive);
        println!("cargo:rustc-cfg=inner");
    }
}
