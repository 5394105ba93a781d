//! Sheets, and pairs read and written: codes 1, 13, 6 and 7.

use super::{configs, data, names, pool, ranges, refusals, sheets};
use crate::coverage::Coverage;
use crate::pair::{self, column_pins, Kind, Operation};
use crate::random::Random;
use crate::script::{Call, Packer, PairNumbers};
use crate::sheet::{Sheet, SHEET_E, SHEET_E_OF_FOUR};
use crate::word::{CS, FN, PD};

const MAX: u32 = u32::MAX;

/// What this suite must meet.
pub fn promised() -> Vec<String> {
    let read = ["access", "regular", "extended", "refresh", "refused 28"];
    let write = ["words", "refused 26"];
    [
        configs(),
        refusals(6, "refused"),
        names(6, &read),
        data::promised_of_pairs(),
        refusals(7, "refused"),
        names(7, &write),
        ranges::promised(7),
        sheets::promised_order(),
        sheets::promised_on_pairs(),
    ]
    .concat()
}

/// All cases of the suite.
pub fn cases(seed: u64, scale: u32, packer: &mut Packer, coverage: &mut Coverage) {
    let random = Random::new(seed);
    sheets::trials(&random, packer, coverage, scale);
    for sheet in pool::parts() {
        written(&random, packer, coverage, &sheet);
        damaged(&random, packer, &sheet, scale);
        random_words(&random, packer, &sheet, scale);
    }
    every_word(&random, packer);
}

/// Fields in and out of range, written; and what was written, read back.
fn written(random: &Random, packer: &mut Packer, coverage: &mut Coverage, sheet: &Sheet) {
    let most = column_pins(sheet);
    let banks = [0, 1, 2, 3, 4, 5, 6, 7, 8, 9, 256, MAX];
    let rows = [
        0, 1, 0x1555, 0x2AAA, 16_382, 16_383, 16_384, 0x5555, 32_766, 32_767, 32_768, 65_536, MAX,
    ];
    let columns = [0, 1, 127, 128, most - 1, most, most + 1, 512, 65_536, MAX];
    let lanes = [0, 1, 2, 3, 4, 5, 8, 256, 258, MAX];
    let kinds = [0, 1, 2, 256, MAX];
    let mut calls = vec![pool::config(random, sheet)];
    let at_ends = |numbers| Call::WritePair(PairNumbers::Access(numbers));
    calls.extend(ranges::calls(random, coverage, sheet, at_ends));
    for bank in banks {
        for row in rows {
            for column in columns {
                let write = random.pick(&kinds);
                let fit = pool::request(random, sheet, write != 0, 0);
                access(
                    sheet,
                    [write, bank, row, column, fit.lower, fit.upper],
                    &mut calls,
                );
            }
        }
    }
    for write in kinds {
        for lower in lanes {
            for upper in lanes {
                let fit = pool::request(random, sheet, write != 0, random.below(8));
                let (bank, row, column) = (fit.bank, fit.row, fit.column);
                access(sheet, [write, bank, row, column, lower, upper], &mut calls);
            }
        }
    }
    written_others(sheet, &mut calls);
    chunked(packer, &calls);
}

/// Modes and refreshes written, in range and out of it.
fn written_others(sheet: &Sheet, calls: &mut Vec<Call>) {
    for value in (0..70).chain([127, 128, 256, 1 << 31, MAX]) {
        write_and_read(
            sheet,
            PairNumbers::Extended(value),
            Operation::Extended(value),
            calls,
        );
    }
    for a3 in [0, 1, 2, 256, MAX] {
        write_and_read(
            sheet,
            PairNumbers::Regular(a3),
            Operation::Regular(a3 != 0),
            calls,
        );
    }
    write_and_read(sheet, PairNumbers::Refresh, Operation::Refresh, calls);
}

/// The calls for one request.
fn access(sheet: &Sheet, numbers: [u32; 6], calls: &mut Vec<Call>) {
    let operation = Operation::Access(pair::Request::from_numbers(numbers));
    write_and_read(sheet, PairNumbers::Access(numbers), operation, calls);
}

/// Writing the operation and, if it can be written, reading it back.
fn write_and_read(
    sheet: &Sheet,
    numbers: PairNumbers,
    operation: Operation,
    calls: &mut Vec<Call>,
) {
    calls.push(Call::WritePair(numbers));
    if let Ok((first, second)) = pair::write(sheet, &operation) {
        calls.push(Call::ReadPair(first, second));
    }
}

/// Sends calls after one configuration in groups that fit a script.
fn chunked(packer: &mut Packer, calls: &[Call]) {
    for chunk in calls[1..].chunks(1500) {
        packer.group(&[&calls[..1], chunk].concat());
    }
}

/// Pairs with their ignored pins at random, each of the 64 bits turned over in turn.
fn damaged(random: &Random, packer: &mut Packer, sheet: &Sheet, scale: u32) {
    let mut calls = vec![pool::config(random, sheet)];
    for kind in Kind::ALL {
        for _ in 0..10 * scale {
            let bank = random.below(8);
            let operation = pool::operation(random, sheet, kind, bank);
            let (first, second) = pool::noisy(random, sheet, kind, &operation);
            calls.push(Call::ReadPair(first, second));
            for bit in 0..32 {
                calls.push(Call::ReadPair(first ^ 1 << bit, second));
                calls.push(Call::ReadPair(first, second ^ 1 << bit));
            }
        }
    }
    chunked(packer, &calls);
}

/// Words at random: of all bits, of the pins, and of the pins with PD high.
fn random_words(random: &Random, packer: &mut Packer, sheet: &Sheet, scale: u32) {
    let mut calls = vec![pool::config(random, sheet)];
    for _ in 0..1_000 * scale {
        let (clear, set) = random.pick(&[(MAX, 0), (0xF_FFFF, 0), (0xF_FFFF, PD)]);
        let word = || (random.bits() & clear) | set;
        let (first, second) = (word(), word());
        calls.push(Call::ReadPair(first, second));
        calls.push(Call::ReadPair(first & !CS, second));
        calls.push(Call::ReadPair(first & !CS, second & 0xC_407F));
    }
    chunked(packer, &calls);
}

/// Every setting of A0 to A13, BA0 to BA2 and FN on each word, the other word being a fitting one. With four banks an MRS
/// is tried at CL 4 alone, and no REF: neither goes by the wiring.
fn every_word(random: &Random, packer: &mut Packer) {
    let parts = pool::parts().into_iter().filter(|s| s.grade == 37);
    for sheet in parts.filter(|s| s.cl == 4 || s.wiring == 8) {
        every_closing(random, packer, &sheet);
    }
    // At BL 2 no lane is reserved.
    for sheet in [SHEET_E, SHEET_E_OF_FOUR].map(|sheet| Sheet { bl: 2, ..sheet }) {
        let mut calls = vec![pool::config(random, &sheet)];
        for pins in 0..1 << 18 {
            let closes = PD | CS | (random.bits() & 0x3_FFFF);
            calls.push(Call::ReadPair(PD | pins, closes));
            if sheet.wiring == 8 {
                calls.push(Call::ReadPair(PD, PD | pins));
            }
        }
        chunked(packer, &calls);
    }
}

/// Every MRS, by 16; at CL 4 every LAL of a write too, and some of reads.
fn every_closing(random: &Random, packer: &mut Packer, sheet: &Sheet) {
    let mut calls = vec![pool::config(random, sheet)];
    for pins in 0..1 << 17 {
        let opens = PD | (random.bits() & 0x1_FFFF);
        if sheet.org == 16 {
            calls.push(Call::ReadPair(PD | FN, PD | pins));
        }
        if sheet.cl == 4 {
            calls.push(Call::ReadPair(opens, PD | CS | pins));
            if random.once_in(4) {
                calls.push(Call::ReadPair(opens | FN, PD | CS | pins));
            }
        }
    }
    chunked(packer, &calls);
}
