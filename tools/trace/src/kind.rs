//! What a word is in its place in the trace, and the command that it is listed as.

use crate::command::Command;
use crate::format::{Format, LOWER, UPPER};
use crate::pins::{high, number, BA0, CS, FN, PD};

/// What a word is by PD, CS, FN and the pair that is open.
#[derive(Clone, Copy, Debug, PartialEq, Eq)]
pub enum Kind {
    Desl,
    /// PD low with no pair open, whatever the other pins.
    PowerDown,
    Rda,
    Wra,
    /// LAL of a read.
    ReadLal,
    /// LAL of a write.
    WriteLal,
    Mrs,
    Ref,
}

/// Whether a word opens a pair, if none is open before it.
pub fn opens(word: u32) -> bool {
    high(word, PD) && !high(word, CS)
}

/// The first word of the pair that is open after a word that stands so many times; `first` is that of the pair open before it.
pub fn open_after(first: Option<u32>, word: u32, count: u64) -> Option<u32> {
    // The first of the words closes an open pair; the others open and close pairs in turn, or are no part of any.
    let others = count - u64::from(first.is_some());
    (opens(word) && others % 2 == 1).then_some(word)
}

impl Kind {
    /// What a word is; `first` is the first word of the open pair.
    pub fn of(first: Option<u32>, word: u32) -> Kind {
        match (first.map(|first| high(first, FN)), high(word, CS)) {
            (None, _) if !high(word, PD) => Kind::PowerDown,
            (None, true) => Kind::Desl,
            (None, false) if high(word, FN) => Kind::Rda,
            (None, false) => Kind::Wra,
            (Some(true), true) => Kind::ReadLal,
            (Some(false), true) => Kind::WriteLal,
            (Some(true), false) => Kind::Mrs,
            (Some(false), false) => Kind::Ref,
        }
    }

    /// The maker's name; of a word with PD low that of the pin.
    pub fn name(self) -> &'static str {
        match self {
            Kind::Desl => "DESL",
            Kind::PowerDown => "PD",
            Kind::Rda => "RDA",
            Kind::Wra => "WRA",
            Kind::ReadLal | Kind::WriteLal => "LAL",
            Kind::Mrs => "MRS",
            Kind::Ref => "REF",
        }
    }

    /// The command that gives the word back bit for bit: the named one if it does, else the word itself.
    pub fn read(self, format: Format, word: u32) -> Command {
        let named = self.named(format, word);
        match named {
            Some(command) if command.word() == word => command,
            _ => Command::Word(word),
        }
    }

    /// The command by the fields of the word; its other pins are not looked at.
    fn named(self, format: Format, word: u32) -> Option<Command> {
        let (bank, row) = format.bank_and_row(word);
        let column = number(word, 0, format.column_pins());
        let (mut lower, mut upper) = (None, None);
        if self == Kind::WriteLal {
            lower = Some(format.lane(word, LOWER)?);
            if format.has_upper() {
                upper = Some(format.lane(word, UPPER)?);
            }
        }
        Some(match self {
            Kind::Desl => Command::Desl,
            Kind::PowerDown => Command::PowerDown,
            Kind::Rda => Command::Rda { bank, row },
            Kind::Wra => Command::Wra { bank, row },
            Kind::ReadLal | Kind::WriteLal => Command::Lal {
                column,
                lower,
                upper,
            },
            Kind::Mrs => mode(word)?,
            Kind::Ref => Command::Ref,
        })
    }
}

/// The mode by the fields of an MRS word; none for a code that is of no BL.
fn mode(word: u32) -> Option<Command> {
    if high(word, BA0) {
        return Some(Command::Extended(number(word, 1, 6)));
    }
    let bl = match number(word, 0, 3) {
        1 => 2,
        2 => 4,
        _ => return None,
    };
    let cl = number(word, 4, 3);
    let a3 = number(word, 3, 1);
    Some(Command::Regular { cl, bl, a3 })
}

#[cfg(test)]
mod tests {
    use super::*;

    const KINDS: [Kind; 8] = [
        Kind::Desl,
        Kind::PowerDown,
        Kind::Rda,
        Kind::Wra,
        Kind::ReadLal,
        Kind::WriteLal,
        Kind::Mrs,
        Kind::Ref,
    ];

    /// Whatever a word is taken for, the command read from it gives it back.
    #[test]
    fn every_word_comes_back() {
        let formats = [(4, 16), (4, 8), (2, 16), (2, 8)].map(|(bl, organisation)| Format {
            bl,
            organisation,
            ..Format::default()
        });
        for format in formats.iter().flat_map(|eight| [*eight, eight.rewired()]) {
            for kind in KINDS {
                for word in 0..1 << 21 {
                    assert_eq!(kind.read(format, word).word(), word);
                }
            }
        }
    }
}
