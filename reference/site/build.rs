//! Links the product's archive, libfcram.a, from the directory that FCRAM_LIB_DIR names. For the benchmark
//! it also puts the archive and the plain checker in C together in several layouts: the same code, and
//! each time other addresses.

#[path = "../archive.rs"]
mod archive;

use archive::{fail, link, linked};
use std::path::{Path, PathBuf};
use std::process::Command;

/// The functions that a layout has a copy of, which bears the layout's number behind its name.
const FUNCTIONS: [&str; 3] = ["fcram_check", "plain_check", "plain_sum"];

/// The bytes in front of the code of each layout, up from a line of the cache. Code starts at multiples of
/// sixteen. The archive stands first in the first half of the layouts, and last in the second.
const PADDINGS: [usize; 8] = [0, 16, 32, 48, 0, 16, 32, 48];

/// Puts all code of a layout into one section, so that the linker moves none of it.
const ONE_SECTION: &str = "SECTIONS { .text : { *(.text .text.*) } }";

fn main() {
    println!("cargo:rerun-if-changed=build.rs");
    println!("cargo:rerun-if-changed=../archive.rs");
    layouts(&linked("fcram"));
}

/// Builds and links the layouts, and writes the list of their numbers for the benchmark.
fn layouts(archive: &Path) {
    println!("cargo:rerun-if-changed=plain.c");
    let directory = PathBuf::from(std::env::var_os("OUT_DIR").unwrap());
    let plain = directory.join("plain.o");
    cc(&["-O3", "-march=native"], Path::new("plain.c"), &plain);
    write(&directory.join("one_section.ld"), ONE_SECTION);
    let half = PADDINGS.len() / 2;
    let mut objects = Vec::new();
    for (number, padding) in PADDINGS.into_iter().enumerate() {
        let code = match number < half {
            true => [archive, &plain],
            false => [&plain, archive],
        };
        objects.push(layout(&directory, number, padding, code));
    }
    let library = directory.join("liblayouts.a");
    // What an earlier run left would stay in it.
    let _ = std::fs::remove_file(&library);
    run(Command::new("ar").arg("crs").arg(&library).args(&objects));
    link(&directory, "layouts");
    let numbers: String = (0..objects.len())
        .map(|n| format!("layout!({n}),"))
        .collect();
    write(&directory.join("layouts.rs"), &format!("[{numbers}]"));
}

/// One layout: the padding and the code in this order, as one object with functions of its own names.
fn layout(directory: &Path, number: usize, padding: usize, code: [&Path; 2]) -> PathBuf {
    let (source, front) = (directory.join("front.s"), directory.join("front.o"));
    let text = format!(".text\n.p2align 6\n.skip {padding}\n.section .note.GNU-stack\n");
    write(&source, &text);
    cc(&[], &source, &front);
    let object = directory.join(format!("layout_{number}.o"));
    let mut ld = Command::new("ld");
    ld.arg("-r").arg("-T").arg(directory.join("one_section.ld"));
    ld.arg("--whole-archive").arg(&front).args(code);
    run(ld.arg("-o").arg(&object));
    let mut objcopy = Command::new("objcopy");
    for function in FUNCTIONS {
        objcopy.arg(format!("--keep-global-symbol={function}_{number}"));
        objcopy.arg(format!("--redefine-sym={function}={function}_{number}"));
    }
    run(objcopy.arg(&object));
    object
}

/// Compiles a file.
fn cc(options: &[&str], source: &Path, object: &Path) {
    let mut cc = Command::new("cc");
    run(cc.args(options).arg("-c").arg(source).arg("-o").arg(object));
}

/// Runs a command, which must succeed.
fn run(command: &mut Command) {
    match command.status() {
        Ok(status) if status.success() => {}
        Ok(status) => fail(&format!("{command:?}: {status}")),
        Err(error) => fail(&format!("{command:?}: {error}")),
    }
}

fn write(file: &Path, text: &str) {
    if let Err(error) = std::fs::write(file, text) {
        fail(&format!("{}: {error}", file.display()));
    }
}
