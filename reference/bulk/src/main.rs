//! Compares the check, on one sheet and within limits, the walk and the tally on lent words with the
//! reference implementation, on short traces and at the lengths where the refusals 24 and 30 begin; and
//! the length in time of more words than 32 bits count.

mod answers;
mod call;
mod cases;
mod last_clock;
mod limits;
mod limits_cases;
mod run;
mod tally;
mod time;

use reference::command_line::end;
use reference::random::Random;
use run::Run;
use std::time::Instant;

const SEED: u64 = 0x5EED_0009;

fn main() {
    let start = Instant::now();
    let random = Random::new(SEED);
    let mut run = Run::default();
    cases::short(&mut run, &random);
    limits_cases::short(&mut run, &random);
    limits_cases::many_corners(&mut run, &random);
    let mut words = cases::longest(&random);
    cases::long(&mut run, &mut words);
    limits_cases::long(&mut run, &mut words);
    last_clock::each(&mut run);
    cases::sleeping(&mut run, &random);
    tally::each(&mut run, &random);
    time::each(&mut run, &random);
    let seconds = start.elapsed().as_secs_f64();
    println!(
        "bulk: seed {SEED:#x}, {} calls agree, {seconds:.1} s",
        run.calls
    );
    let promised = [
        cases::promised(),
        limits_cases::promised(),
        tally::promised(),
        time::promised(),
    ]
    .concat();
    end(run.coverage.report(&promised))
}
