//! The commands that a word can be written as, each with the one word that it stands for.

use crate::format::{address, Format, Lane, LOWER, UPPER};
use crate::pins::{BA0, CS, FN, PD};
use std::fmt;

/// A command with its fields. A lane that is not given has its pins low.
#[derive(Clone, Copy, Debug, PartialEq, Eq)]
pub enum Command {
    Desl,
    /// PD low and CS high.
    PowerDown,
    Rda {
        bank: u32,
        row: u32,
    },
    Wra {
        bank: u32,
        row: u32,
    },
    Lal {
        column: u32,
        lower: Option<&'static Lane>,
        upper: Option<&'static Lane>,
    },
    /// A1 to A6 as a number, A1 its lowest bit.
    Extended(u32),
    Regular {
        cl: u32,
        bl: u32,
        a3: u32,
    },
    Ref,
    /// Any word at all.
    Word(u32),
}

impl Command {
    /// The word of the command.
    pub fn word(&self) -> u32 {
        let lane = |lane: Option<&Lane>, pins| lane.map_or(0, |lane| lane.word(pins));
        match *self {
            Command::Desl => PD | CS,
            Command::PowerDown => CS,
            Command::Rda { bank, row } => PD | FN | address(bank, row),
            Command::Wra { bank, row } => PD | address(bank, row),
            Command::Lal {
                column,
                lower,
                upper,
            } => PD | CS | lane(lower, LOWER) | lane(upper, UPPER) | column,
            Command::Extended(value) => PD | BA0 | value << 1,
            Command::Regular { cl, bl, a3 } => PD | cl << 4 | a3 << 3 | (bl / 2),
            Command::Ref => PD,
            Command::Word(word) => word,
        }
    }

    /// The maker's name of the command, or that of the pin; a bare word has none.
    pub fn name(&self) -> Option<&'static str> {
        Some(match self {
            Command::Desl => "DESL",
            Command::PowerDown => "PD",
            Command::Rda { .. } => "RDA",
            Command::Wra { .. } => "WRA",
            Command::Lal { .. } => "LAL",
            Command::Extended(_) | Command::Regular { .. } => "MRS",
            Command::Ref => "REF",
            Command::Word(_) => return None,
        })
    }

    /// The lanes that the format has and a write's LAL leaves out, where pins that are low are the reserved code.
    pub fn reserved_by_omission(&self, format: Format) -> Vec<&'static str> {
        let mut lanes = Vec::new();
        if let (Command::Lal { lower, upper, .. }, 4) = (self, format.bl) {
            if lower.is_none() {
                lanes.push("lower");
            }
            if upper.is_none() && format.has_upper() {
                lanes.push("upper");
            }
        }
        lanes
    }
}

/// The line of the command, as the listing has it.
impl fmt::Display for Command {
    fn fmt(&self, out: &mut fmt::Formatter) -> fmt::Result {
        write!(out, "{}", self.name().unwrap_or("WORD"))?;
        match self {
            Command::Desl | Command::PowerDown | Command::Ref => Ok(()),
            Command::Rda { bank, row } | Command::Wra { bank, row } => {
                write!(out, " bank {bank} row {row}")
            }
            Command::Lal {
                column,
                lower,
                upper,
            } => {
                write!(out, " column {column}")?;
                lower.map_or(Ok(()), |lane| write!(out, " lower {}", lane.name))?;
                upper.map_or(Ok(()), |lane| write!(out, " upper {}", lane.name))
            }
            Command::Extended(value) => write!(out, " extended {value}"),
            Command::Regular { cl, bl, a3 } => write!(out, " regular cl {cl} bl {bl} a3 {a3}"),
            Command::Word(word) => write!(out, " {word:#X}"),
        }
    }
}
