//! Links the archive of the tests, libbulk.a, from the directory that FCRAM_LIB_DIR names.

#[path = "../archive.rs"]
mod archive;

fn main() {
    println!("cargo:rerun-if-changed=../archive.rs");
    archive::linked("bulk");
}
