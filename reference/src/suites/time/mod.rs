//! The length of a trace in time: code 14.

mod around;
mod counts;
mod meet;
mod periods;
mod refused;
mod sentence;

use super::{names, pool, refusals, sheets};
use crate::coverage::Coverage;
use crate::random::Random;
use crate::script::{bytes, script, Call, Packer};
use crate::sheet::Sheet;
pub use counts::some_count;
pub use sentence::check;

/// What this suite must meet.
pub fn promised() -> Vec<String> {
    [
        names(14, &["time", "refused 32"]),
        refusals(14, "refused"),
        sheets::promised_order(),
        meet::promised(),
        periods::promised(),
        around::promised(),
        vec!["script refused".to_string()],
    ]
    .concat()
}

/// All cases of the suite.
pub fn cases(seed: u64, scale: u32, packer: &mut Packer, coverage: &mut Coverage) {
    let random = Random::new(seed);
    at_the_start(packer);
    periods::each(&random, packer, coverage);
    refused::each(&random, scale, packer, coverage);
    around::each(&random, 200 * scale, packer, coverage);
    for _ in 0..5_000 * scale {
        let counts = [(); 8].map(|()| some_count(&random));
        packer.group(&asked(&random, &pool::sheet(&random), &counts));
    }
}

/// A configuration, and the length in time for each of these counts.
fn asked(random: &Random, sheet: &Sheet, counts: &[u32]) -> Vec<Call> {
    let config = pool::config(random, sheet);
    let calls = counts.iter().map(|&count| Call::Time(count));
    std::iter::once(config).chain(calls).collect()
}

/// Scripts in which no configuration stands before the call, whole and cut short.
fn at_the_start(packer: &mut Packer) {
    let script = script(&counts::EDGES.map(Call::Time));
    for length in 1..=script.len() {
        packer.raw(&bytes(&script[..length]));
    }
}
