//! Pairs of words: the operation that a pair stands for, read from pins and written to pins.

use crate::data::DataClocks;
use crate::sheet::Sheet;
use crate::wiring::{self, greatest_bank, greatest_row};
use crate::word::{a, high, stray_bit, BA0, BA1, BA2, CS, FN, PD};

/// A read or a write as the controller's user asks for it.
#[derive(Clone, Copy, Debug, PartialEq, Eq)]
pub struct Request {
    pub write: bool,
    pub bank: u32,
    pub row: u32,
    pub column: u32,
    pub lower: u32,
    pub upper: u32,
}

/// What a pair stands for.
#[derive(Clone, Copy, Debug, PartialEq, Eq)]
pub enum Operation {
    Access(Request),
    /// A regular mode with its A3.
    Regular(bool),
    /// An extended mode with A1 to A6 as a number, A1 its lowest bit.
    Extended(u32),
    Refresh,
}

/// What a pair is read to: what it stands for, and when its data stand.
#[derive(Clone, Copy, Debug, PartialEq, Eq)]
pub struct Reading {
    pub operation: Operation,
    pub data: DataClocks,
}

/// What a closed pair is by its pins alone, its fields not looked at.
#[derive(Clone, Copy, Debug, PartialEq, Eq)]
pub enum Kind {
    Read,
    Write,
    Regular,
    Extended,
    Refresh,
}

impl Kind {
    /// All kinds.
    pub const ALL: [Kind; 5] = [
        Kind::Read,
        Kind::Write,
        Kind::Regular,
        Kind::Extended,
        Kind::Refresh,
    ];

    /// Read or write.
    pub fn is_access(self) -> bool {
        matches!(self, Kind::Read | Kind::Write)
    }

    /// Either mode pair.
    pub fn is_mode(self) -> bool {
        matches!(self, Kind::Regular | Kind::Extended)
    }
}

/// The pins that hold VW0 and VW1 of the lower lane, then of the upper one.
const LOWER_VW: (u32, u32) = (BA2, a(13));
const UPPER_VW: (u32, u32) = (a(12), a(11));

impl Request {
    /// The names of the fields that have a range.
    pub const FIELDS: [&str; 5] = ["bank", "row", "column", "lower lane", "upper lane"];

    /// What stands in a place that no request has had.
    pub const VACANT: Request = Request {
        write: false,
        bank: 0,
        row: 0,
        column: 0,
        lower: 0,
        upper: 0,
    };

    /// A request from its six numbers; the first is 0 for a read.
    pub fn from_numbers(n: [u32; 6]) -> Request {
        Request {
            write: n[0] != 0,
            bank: n[1],
            row: n[2],
            column: n[3],
            lower: n[4],
            upper: n[5],
        }
    }

    /// The six numbers, in the order of the paper.
    pub fn numbers(&self) -> [u32; 6] {
        [
            self.write as u32,
            self.bank,
            self.row,
            self.column,
            self.lower,
            self.upper,
        ]
    }

    /// Whether every field is in the range that the sheet gives it.
    pub fn fits(&self, sheet: &Sheet) -> bool {
        self.unfit(sheet).next().is_none()
    }

    /// The names of the fields that are not in the range that the sheet gives them.
    pub fn unfit(&self, sheet: &Sheet) -> impl Iterator<Item = &'static str> {
        let lane_fits = |in_use: bool, words: u32| match words {
            0 => !in_use,
            1 | 2 => in_use,
            _ => in_use && words == 4 && sheet.bl == 4,
        };
        let fits = [
            self.bank <= greatest_bank(sheet),
            self.row <= greatest_row(sheet),
            self.column <= column_pins(sheet),
            lane_fits(self.write, self.lower),
            lane_fits(self.write && sheet.org == 16, self.upper),
        ];
        let fields = Request::FIELDS.into_iter().zip(fits);
        fields.filter(|(_, fits)| !fits).map(|(name, _)| name)
    }

    /// The names of the fields that are at the end of their range.
    pub fn greatest(&self, sheet: &Sheet) -> impl Iterator<Item = &'static str> {
        let greatest = [
            self.bank == greatest_bank(sheet),
            self.row == greatest_row(sheet),
            self.column == column_pins(sheet),
            self.lower == sheet.bl,
            self.upper == sheet.bl,
        ];
        let fields = Request::FIELDS.into_iter().zip(greatest);
        fields
            .filter(|(_, greatest)| *greatest)
            .map(|(name, _)| name)
    }
}

/// The pins that carry the column: A0 to A7 by 16, A0 to A8 by 8. Also the greatest column.
pub fn column_pins(sheet: &Sheet) -> u32 {
    if sheet.org == 16 {
        0xFF
    } else {
        0x1FF
    }
}

/// What two words are that open and close a pair.
pub fn kind(first: u32, second: u32) -> Kind {
    match (high(first, FN), high(second, CS)) {
        (true, true) => Kind::Read,
        (false, true) => Kind::Write,
        (false, false) => Kind::Refresh,
        (true, false) if high(second, BA0) => Kind::Extended,
        (true, false) => Kind::Regular,
    }
}

/// Whether the fields of an MRS word are as the paper wants them; breach 4 is their not being so.
pub fn mode_fields_fit(sheet: &Sheet, second: u32) -> bool {
    if high(second, BA2) || high(second, BA1) || (7..=13).any(|n| high(second, a(n))) {
        return false;
    }
    if high(second, BA0) {
        return !high(second, a(0));
    }
    let burst = second & 7;
    let latency = (second >> 4) & 7;
    burst == (if sheet.bl == 2 { 1 } else { 2 }) && latency == sheet.cl
}

/// The number of words that a lane writes by its VW pins; none where the pins are reserved.
fn lane_words(sheet: &Sheet, second: u32, (vw0, vw1): (u32, u32)) -> Option<u32> {
    match (sheet.bl, high(second, vw0), high(second, vw1)) {
        (2, false, _) => Some(2),
        (2, true, _) => Some(1),
        (_, true, false) => Some(4),
        (_, false, true) => Some(2),
        (_, true, true) => Some(1),
        (_, false, false) => None,
    }
}

/// Both lanes of a write's LAL, lower and upper; none if one of the lanes in use is reserved.
fn lanes(sheet: &Sheet, second: u32) -> Option<(u32, u32)> {
    let lower = lane_words(sheet, second, LOWER_VW)?;
    let upper = if sheet.org == 16 {
        lane_words(sheet, second, UPPER_VW)?
    } else {
        0
    };
    Some((lower, upper))
}

/// Whether a write's LAL has a reserved lane, which is breach 5.
pub fn reserved_lane(sheet: &Sheet, second: u32) -> bool {
    lanes(sheet, second).is_none()
}

/// The VW pins of a lane that writes so many words.
fn lane_pins(sheet: &Sheet, words: u32, (vw0, vw1): (u32, u32)) -> u32 {
    match (sheet.bl, words) {
        (2, 2) => 0,
        (2, 1) => vw0,
        (4, 4) => vw0,
        (4, 2) => vw1,
        (4, 1) => vw0 | vw1,
        _ => unreachable!("a lane outside its range is refused before"),
    }
}

/// Reads a pair: the sheet's refusals, then 28 for no pair or breach 1, 2, 4 or 5 in it.
pub fn read(sheet: &Sheet, first: u32, second: u32) -> Result<Reading, u32> {
    if let Some(number) = sheet.refusal() {
        return Err(number);
    }
    let Some(operation) = operation(sheet, first, second) else {
        return Err(28);
    };
    let data = DataClocks::of(sheet, kind(first, second));
    Ok(Reading { operation, data })
}

/// What two words stand for on an accepted sheet; none if they are no pair or an unsound one.
fn operation(sheet: &Sheet, first: u32, second: u32) -> Option<Operation> {
    let unsound = |word| stray_bit(word) || !high(word, PD);
    if high(first, CS) || unsound(first) || unsound(second) {
        return None;
    }
    let request = |write, (lower, upper)| {
        Operation::Access(Request {
            write,
            bank: wiring::bank(sheet, first),
            row: wiring::row(sheet, first),
            column: second & column_pins(sheet),
            lower,
            upper,
        })
    };
    match kind(first, second) {
        Kind::Read => Some(request(false, (0, 0))),
        Kind::Write => lanes(sheet, second).map(|lanes| request(true, lanes)),
        Kind::Refresh => Some(Operation::Refresh),
        _ if !mode_fields_fit(sheet, second) => None,
        Kind::Regular => Some(Operation::Regular(high(second, a(3)))),
        Kind::Extended => Some(Operation::Extended((second >> 1) & 63)),
    }
}

/// Writes a pair: the sheet's refusals, then 26 for a field out of range.
pub fn write(sheet: &Sheet, operation: &Operation) -> Result<(u32, u32), u32> {
    if let Some(number) = sheet.refusal() {
        return Err(number);
    }
    match *operation {
        Operation::Access(request) if !request.fits(sheet) => Err(26),
        Operation::Access(request) => {
            let mut first = PD | wiring::pins(sheet, request.bank, request.row);
            let mut second = PD | CS | request.column;
            if !request.write {
                first |= FN;
            } else {
                second |= lane_pins(sheet, request.lower, LOWER_VW);
                if sheet.org == 16 {
                    second |= lane_pins(sheet, request.upper, UPPER_VW);
                }
            }
            Ok((first, second))
        }
        Operation::Regular(a3) => {
            let burst = if sheet.bl == 2 { 1 } else { 2 };
            Ok((PD | FN, PD | sheet.cl << 4 | (a3 as u32) << 3 | burst))
        }
        Operation::Extended(value) if value > 63 => Err(26),
        Operation::Extended(value) => Ok((PD | FN, PD | BA0 | value << 1)),
        Operation::Refresh => Ok((PD, PD)),
    }
}
