//! What a program holds beside its configuration, a checker and a controller in some state, for calls
//! that leave both as they are.

use super::checker::steps;
use super::near::near_words;
use super::{pool, sheets};
use crate::both::Both;
use crate::checker::Checker;
use crate::controller::Controller;
use crate::coverage::Coverage;
use crate::random::Random;
use crate::script::Call;
use crate::sheet::Sheet;
use crate::state::{checker_numbers, controller_numbers};

/// What is shown of the state.
pub const SHOWN: [Call; 3] = [Call::ShowChecker, Call::ShowController, Call::Waiting];

/// Where the checker and the controller are.
pub const MOVED: &str = "moved on from the configuration";
pub const PUT: &str = "put on other sheets";

/// The name of an answer and the state that is shown before and behind it.
pub fn name(state: &str, answer: &str) -> String {
    format!("shown before and behind, {state}: {answer}")
}

/// Calls that bring both there, from the configuration on.
pub fn state(random: &Random, sheet: &Sheet, place: &str) -> Vec<Call> {
    match place {
        MOVED => moves(random, sheet),
        _ => put(random),
    }
}

/// Steps, offers and ticks, of which the last may stand between the words of a pair.
pub fn moves(random: &Random, sheet: &Sheet) -> Vec<Call> {
    let fit = match sheet.refusal() {
        Some(_) => pool::sheet(random),
        None => *sheet,
    };
    let way = random.below(100);
    let words = near_words(random, &mut Coverage::default(), fit, way);
    let mut moves = steps(&words[..random.below(words.len() as u32 + 1) as usize]);
    for _ in 0..random.below(4) {
        let request = pool::request(random, &fit, random.once_in(2), random.below(8));
        moves.push(Call::Offer(request.numbers()));
    }
    moves.push(Call::Tick(random.pick(&[0, 1, 8, 202, random.below(300)])));
    moves
}

/// A checker and a controller on sheets of their own, accepted or not.
fn put(random: &Random) -> Vec<Call> {
    let sheet = || match random.once_in(4) {
        true => random.pick(&sheets::refused()),
        false => pool::sheet(random),
    };
    let checker = Checker::<Both>::fresh(sheet());
    let controller = Controller::<Both>::fresh(sheet());
    vec![
        Call::PutChecker(Box::new(checker_numbers(&checker))),
        Call::PutController(Box::new(controller_numbers(&controller))),
    ]
}
