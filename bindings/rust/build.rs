//! Links the static library galthumir from the folder that GALTHUMIR_LIB_DIR names, else from the repository's
//! target/staticlib.

use std::path::{Path, PathBuf};
use std::{env, process};

const FOLDER_VARIABLE: &str = "GALTHUMIR_LIB_DIR";
const DEFAULT_FOLDER: &str = "../../target/staticlib";
const ARCHIVE: &str = "libgalthumir.a";

fn main() {
    println!("cargo:rerun-if-env-changed={FOLDER_VARIABLE}");
    let folder = library_folder();
    let archive = folder.join(ARCHIVE);
    println!("cargo:rerun-if-changed={}", archive.display());
    if !archive.is_file() {
        stop_without(&archive);
    }
    println!("cargo:rustc-link-search=native={}", folder.display());
    println!("cargo:rustc-link-lib=static=galthumir");
}

/// The folder of the archive. One that isn't absolute is taken from this crate's own folder.
fn library_folder() -> PathBuf {
    let named = env::var_os(FOLDER_VARIABLE).unwrap_or_else(|| DEFAULT_FOLDER.into());
    Path::new(env!("CARGO_MANIFEST_DIR")).join(named)
}

/// Ends the build with what to do.
fn stop_without(archive: &Path) -> ! {
    eprintln!("There is no {}.", archive.display());
    eprintln!(
        "`tools/staticlib galthumir`, from the root of the repository, makes it in target/staticlib (for x86-64)."
    );
    eprintln!("Where it stands in another folder, set {FOLDER_VARIABLE} to that folder, as an absolute path.");
    process::exit(1);
}
