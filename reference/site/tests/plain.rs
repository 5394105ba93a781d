//! The plain checkers in C and in Rust, the archive's check and the sum, in all layouts of the benchmark.

use reference::random::Random;
use site::sound;

#[test]
fn all_that_is_timed_answers_as_the_reference_does() {
    sound::try_all(&Random::new(0x5EED_0009));
}
