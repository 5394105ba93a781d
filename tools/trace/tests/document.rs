//! The examples of docs/TRACES.md, their texts against their listings, and one against its program in C.

mod common;

use common::{assembled, good_as, listing, listing_data, wired};
use std::path::Path;
use std::process::Command;
use trace::Format;

const DOCUMENT: &str = include_str!("../../../docs/TRACES.md");

/// The block of the document that is marked so.
fn block(mark: &str) -> &'static str {
    let opening = format!("```{mark}\n");
    let (_, rest) = DOCUMENT.split_once(&opening).expect("the block is there");
    rest.split_once("```").expect("the block ends").0
}

#[test]
fn text_and_listing() {
    let trace = assembled(block("text"));
    assert_eq!(listing(&trace, Format::default()), block("listing"));
    assert_eq!(assembled(block("listing")), trace);
}

#[test]
fn four_banks() {
    let trace = good_as(block("four-banks"), Some(4)).trace.bytes();
    assert_eq!(listing(&trace, wired(4)), block("listing-four"));
    assert_eq!(listing(&trace, wired(8)), block("listing-eight"));
    assert_eq!(assembled(block("listing-four")), trace);
    assert_eq!(assembled(block("listing-eight")), trace);
}

#[test]
fn power_down() {
    let trace = assembled(block("power-down"));
    for wiring in [8, 4] {
        let text = listing(&trace, wired(wiring)).replacen("wiring 4\n", "", 1);
        assert_eq!(text, block("listing-power-down"));
    }
    assert_eq!(assembled(block("listing-power-down")), trace);
}

#[test]
fn data() {
    let trace = assembled(block("data"));
    let text = block("listing-data");
    assert_eq!(listing_data(&trace, Format::default(), 4), text);
    assert_eq!(assembled(text), trace);
    let at_cl_3 = text.replacen("5 to 6", "4 to 5", 1);
    let at_cl_3 = at_cl_3.replacen("9 to 10", "8 to 9", 1);
    assert_eq!(listing_data(&trace, Format::default(), 3), at_cl_3);
}

#[test]
fn program_in_c() {
    let directory = Path::new(env!("CARGO_TARGET_TMPDIR"));
    let (source, program) = (directory.join("example.c"), directory.join("example"));
    std::fs::write(&source, block("c")).expect("the source can be written");
    let built = Command::new("cc")
        .args(["-Wall", "-Wextra", "-Werror", "-o"])
        .args([&program, &source])
        .status();
    assert!(built.expect("cc runs").success());
    let run = Command::new(&program).output().expect("the program runs");
    assert_eq!(run.stdout, assembled(block("text")));
}
