//! The archive that a package links, for the build scripts of `site` and `bulk`.

use std::path::{Path, PathBuf};
use std::process::exit;

/// The variable that names the directory of the archives.
const VARIABLE: &str = "FCRAM_LIB_DIR";

/// Links the archive of a library, and gives its path.
pub fn linked(library: &str) -> PathBuf {
    println!("cargo:rerun-if-env-changed={VARIABLE}");
    let Some(directory) = std::env::var_os(VARIABLE) else {
        fail(&format!(
            "set {VARIABLE} to the directory that holds lib{library}.a"
        ));
    };
    let archive = PathBuf::from(directory).join(format!("lib{library}.a"));
    // A relative directory would be taken from the package's own.
    let archive = match archive.canonicalize() {
        Ok(archive) => archive,
        Err(error) => fail(&format!("{VARIABLE}: {}: {error}", archive.display())),
    };
    println!("cargo:rerun-if-changed={}", archive.display());
    link(archive.parent().unwrap(), library);
    archive
}

/// Links a library of a directory.
pub fn link(directory: &Path, library: &str) {
    println!("cargo:rustc-link-search=native={}", directory.display());
    println!("cargo:rustc-link-lib=static={library}");
}

/// Ends the build.
pub fn fail(message: &str) -> ! {
    println!("cargo:warning={message}");
    eprintln!("{message}");
    exit(1)
}
