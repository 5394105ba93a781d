//! The tally beside a checker and a controller: it goes by the configuration alone, and leaves both as they
//! are. Its refusal's number stands beside the counts.

use crate::counts::counts;
use crate::coverage::Coverage;
use crate::random::Random;
use crate::script::{Call, Packer};
use crate::suites::held::{self, name, MOVED, PUT, SHOWN};
use crate::suites::{data, names, pool, refusals, sheets, tally};

/// The answers, by what gives them.
const COUNTED: &str = "counts";
const REFUSED: &str = "tally refused";

/// What the cases must meet.
pub fn promised() -> Vec<String> {
    let of = |state| [COUNTED, REFUSED].map(|answer| name(state, answer));
    let mut promised = [MOVED, PUT].map(of).concat();
    promised.extend(names(107, &["counts 0"]));
    promised.extend(refusals(107, "counts"));
    promised.extend(tally::promised());
    promised.extend(data::promised_of_tallies());
    promised
}

/// Words at random on accepted sheets and on each of the refused ones.
pub fn each(random: &Random, packer: &mut Packer, coverage: &mut Coverage) {
    let accepted = (0..300).map(|_| pool::sheet(random));
    for sheet in accepted.chain(sheets::refused()) {
        let (words, state) = (tally::some_words(random), random.pick(&[MOVED, PUT]));
        match counts(&sheet, &words) {
            Ok(_) => {
                tally::count(coverage, &sheet, &words);
                coverage.meet(&name(state, COUNTED));
            }
            Err(_) => coverage.meet(&name(state, REFUSED)),
        }
        let calls = [
            &[pool::config(random, &sheet)][..],
            &held::state(random, &sheet, state),
            &SHOWN,
            &[Call::CountAnyway(words.clone()), Call::Count(words)],
            &SHOWN,
        ];
        packer.group(&calls.concat());
    }
}
