//! Sheets at and around every edge, and with several fields unfit, on traces that are unfit too.

use crate::memory::Zeros;
use crate::run::Run;
use reference::judge::LONGEST;
use reference::random::Random;
use reference::script::bytes;
use reference::sheet::Sheet;
use reference::suites::sheets::{each_edge, each_fault};
use reference::word::DESL;

/// The longest trace in bytes.
const LONGEST_BYTES: usize = LONGEST as usize * 4;
/// Lengths that are refused, some of which a 32-bit number would take for short ones.
const REFUSED: [usize; 12] = [
    1,
    2,
    3,
    LONGEST_BYTES + 1,
    LONGEST_BYTES + 4,
    LONGEST_BYTES + 7,
    1 << 31,
    1 << 32,
    (1 << 32) + 2,
    (1 << 32) + 4,
    1 << 34,
    (1 << 34) + 4,
];

pub fn cases(run: &mut Run, scale: u32) {
    let zeros = Zeros::new((1 << 34) + 8);
    let random = Random::new(run.random.next64());
    each_edge(&mut |sheet| trial(run, &random, &zeros, &sheet));
    each_fault(&random, 4 * scale, &mut |sheet| {
        trial(run, &random, &zeros, &sheet)
    });
}

/// A sheet with one short trace and one length that is refused; with the null pointer, and with
/// other upper halves of the numbers.
fn trial(run: &mut Run, random: &Random, zeros: &Zeros, sheet: &Sheet) {
    let short = random.pick(&[&[][..], &[DESL], &[0], &[DESL, 0x10_0000]]);
    run.short(sheet, &bytes(short));
    run.refused(sheet, &zeros.bytes()[..random.pick(&REFUSED)]);
    run.null(sheet);
    run.dirty(sheet, &[], random.pick(&[1, u32::MAX, random.bits() | 1]));
}
