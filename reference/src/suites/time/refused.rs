//! Sheets that are refused, and others around their edges, each with a count that is allowed and with one
//! above the limit.

use super::{asked, counts};
use crate::coverage::Coverage;
use crate::random::Random;
use crate::script::Packer;
use crate::sheet::Sheet;
use crate::suites::sheets;

/// All cases.
pub fn each(random: &Random, scale: u32, packer: &mut Packer, coverage: &mut Coverage) {
    for sheet in sheets::refused() {
        packer.group(&asked(random, &sheet, &counts::EDGES));
    }
    let mut visit = |sheet: Sheet| {
        sheets::count_order(coverage, &sheet);
        let counts = [counts::allowed(random), counts::above(random)];
        packer.group(&asked(random, &sheet, &counts));
    };
    sheets::each_edge(&mut visit);
    sheets::each_fault(random, 2 * scale, &mut visit);
}
