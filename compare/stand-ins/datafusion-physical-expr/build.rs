//! Finds the Rust text and hands its folder to the compiler, which reads it where it lies.

use std::env;
use std::path::PathBuf;

const VARIABLE: &str = "GALTHUMIR_RUST_TEXT";
const FILES: [&str; 3] =
    ["src/equivalence/class.rs", "src/equivalence/ordering.rs", "src/equivalence/properties/dependency.rs"];

/// The folder named by the variable, or else compare/text.
fn text_folder() -> PathBuf {
    match env::var_os(VARIABLE) {
        Some(named) => PathBuf::from(named),
        None => PathBuf::from(env!("CARGO_MANIFEST_DIR")).join("../../text"),
    }
}

fn main() {
    println!("cargo:rerun-if-env-changed={VARIABLE}");
    let folder = text_folder();
    for file in FILES {
        let path = folder.join(file);
        println!("cargo:rerun-if-changed={}", path.display());
        if !path.is_file() {
            panic!("there is no {}: set {VARIABLE} to the folder of the Rust text", path.display());
        }
    }
    let folder = folder.canonicalize().expect("the folder was just read");
    println!("cargo:rustc-env={VARIABLE}={}", folder.display());
}
