//! Compares the archive's check with the reference implementation, section by section.

use reference::command_line::{end, Arguments};
use site::cases::{promised, SECTIONS};
use site::run::Run;
use std::time::Instant;

const USAGE: &str = "site_compare [--scale N]";
const SEED: u64 = 0x5EED_0006;

fn main() {
    let mut arguments = Arguments::new(USAGE.to_string());
    let scale = arguments.scale();
    arguments.names(&[]);
    println!("site: seed {SEED:#x}, scale {scale}");
    let mut run = Run::new(SEED);
    for (name, cases) in SECTIONS {
        println!("section {name}");
        let (start, before) = (Instant::now(), run.calls);
        cases(&mut run, scale);
        let seconds = start.elapsed().as_secs_f64();
        println!("  {} calls agree, {seconds:.1} s", run.calls - before);
    }
    println!("{} calls agree in all", run.calls);
    end(run.coverage.report(&promised()))
}
