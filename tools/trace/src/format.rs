//! What the fields of a word depend on, and where they lie on its pins.

use crate::pins::{a, high, number, BA2, BANK_SHIFT};

/// What the ranges of bank, row and column and the codes of a write's lanes depend on.
#[derive(Clone, Copy, Debug, PartialEq, Eq)]
pub struct Format {
    pub bl: u32,
    pub organisation: u32,
    /// The number of banks, eight or four.
    pub wiring: u32,
}

/// The institute's own: BL 4, by 16, eight banks.
impl Default for Format {
    fn default() -> Format {
        Format {
            bl: 4,
            organisation: 16,
            wiring: 8,
        }
    }
}

/// What is said of a format; what is not is the institute's own.
#[derive(Clone, Copy, Debug, Default)]
pub struct Given {
    pub bl: Option<u32>,
    pub organisation: Option<u32>,
    pub wiring: Option<u32>,
}

impl Given {
    /// The format of which this is said.
    pub fn format(self) -> Format {
        let usual = Format::default();
        Format {
            bl: self.bl.unwrap_or(usual.bl),
            organisation: self.organisation.unwrap_or(usual.organisation),
            wiring: self.wiring.unwrap_or(usual.wiring),
        }
    }
}

/// What a lane of a write's LAL does, by its name in the text, and the levels of VW0 and VW1.
#[derive(Debug, PartialEq, Eq)]
pub struct Lane {
    pub name: &'static str,
    levels: (bool, bool),
}

/// A lane of this name with VW0 and VW1.
const fn lane(name: &'static str, vw0: bool, vw1: bool) -> Lane {
    Lane {
        name,
        levels: (vw0, vw1),
    }
}

const LANES_AT_BL_2: [Lane; 2] = [lane("1", true, false), lane("2", false, false)];
const LANES_AT_BL_4: [Lane; 4] = [
    lane("1", true, true),
    lane("2", false, true),
    lane("4", true, false),
    lane("reserved", false, false),
];

/// The pins of VW0 and VW1, of the lower lane and of the upper one.
pub const LOWER: (u32, u32) = (BA2, a(13));
pub const UPPER: (u32, u32) = (a(12), a(11));

impl Lane {
    /// The word's pins that the lane sets high.
    pub fn word(&self, (vw0, vw1): (u32, u32)) -> u32 {
        let (high0, high1) = self.levels;
        (u32::from(high0) * vw0) | (u32::from(high1) * vw1)
    }
}

/// The pins of a first word that carry a bank or a row: A0 to A13 and BA0 to BA2.
const ADDRESS_PINS: u32 = 17;

/// The bits of a row that A0 to A13 carry.
const ROW_ON_A: u32 = 14;

/// The address pins of a bank and a row: BA2 is the top bit of a bank above 3 or of a row above 16,383; no wiring has both.
pub fn address(bank: u32, row: u32) -> u32 {
    let top = (row >> ROW_ON_A) * BA2;
    bank << BANK_SHIFT | top | number(row, 0, ROW_ON_A)
}

impl Format {
    /// The format with the other wiring.
    pub fn rewired(self) -> Format {
        let wiring = if self.wiring == 4 { 8 } else { 4 };
        Format { wiring, ..self }
    }

    /// The pins that carry a bank: BA0 to BA2 with eight banks, BA0 and BA1 with four.
    fn bank_pins(self) -> u32 {
        if self.wiring == 4 {
            2
        } else {
            3
        }
    }

    /// The greatest bank.
    pub fn last_bank(self) -> u32 {
        (1 << self.bank_pins()) - 1
    }

    /// The greatest row: the address pins that carry no bank carry the row.
    pub fn last_row(self) -> u32 {
        (1 << (ADDRESS_PINS - self.bank_pins())) - 1
    }

    /// The bank and the row on the address pins of a first word; with four banks BA2 is the row's top bit.
    pub fn bank_and_row(self, word: u32) -> (u32, u32) {
        let bank = number(word, BANK_SHIFT, self.bank_pins());
        let top = u32::from(self.wiring == 4 && high(word, BA2));
        (bank, top << ROW_ON_A | number(word, 0, ROW_ON_A))
    }

    /// The pins that carry a column: A0 to A7 by 16, A0 to A8 by 8.
    pub fn column_pins(self) -> u32 {
        if self.organisation == 16 {
            8
        } else {
            9
        }
    }

    /// The greatest column.
    pub fn last_column(self) -> u32 {
        (1 << self.column_pins()) - 1
    }

    /// Whether a word has an upper lane.
    pub fn has_upper(self) -> bool {
        self.organisation == 16
    }

    /// The codes of a lane.
    pub fn lanes(self) -> &'static [Lane] {
        match self.bl {
            2 => &LANES_AT_BL_2,
            _ => &LANES_AT_BL_4,
        }
    }

    /// The lane on a word's pins.
    pub fn lane(self, word: u32, (vw0, vw1): (u32, u32)) -> Option<&'static Lane> {
        let levels = (high(word, vw0), high(word, vw1));
        self.lanes().iter().find(|lane| lane.levels == levels)
    }
}
