//! Every period, and each end of the period's range by grade and CL, with counts at their edges.

use super::{asked, counts};
use crate::coverage::Coverage;
use crate::random::Random;
use crate::script::Packer;
use crate::sheet::{least_period, Sheet, GREATEST_PERIOD};
use crate::suites::{by_wiring, pool};
use crate::wiring::{self, WIRINGS};

/// The least period of any grade and CL.
const LEAST_PERIOD: u32 = 3750;

/// What is counted once for each period.
const EACH: &str = "periods from 3750 to 8500";

/// What the cases must meet.
pub fn promised() -> Vec<String> {
    by_wiring(EACH)
}

/// All cases.
pub fn each(random: &Random, packer: &mut Packer, coverage: &mut Coverage) {
    for part in pool::parts() {
        let least = least_period(part.grade, part.cl).expect("a part");
        for end in [least, GREATEST_PERIOD] {
            for period in end - 1..=end + 1 {
                let sheet = Sheet { period, ..part };
                packer.group(&asked(random, &sheet, &counts::at(random, period)));
            }
        }
    }
    for wiring in WIRINGS {
        for period in LEAST_PERIOD..=GREATEST_PERIOD {
            let sheet = some_part(random, period, wiring);
            packer.group(&asked(random, &sheet, &counts::at(random, period)));
            coverage.meet(&format!("{EACH}, {}", wiring::name(wiring)));
        }
    }
}

/// A part that allows the period.
fn some_part(random: &Random, period: u32, wiring: u32) -> Sheet {
    let parts = pool::parts().into_iter().filter(|p| p.wiring == wiring);
    let at_period = parts.map(|part| Sheet { period, ..part });
    let fit = at_period.filter(|sheet| sheet.refusal().is_none());
    random.pick(&fit.collect::<Vec<_>>())
}
