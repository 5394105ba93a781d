//! The fields of a line: names with values.

use crate::format::{Format, Lane};
use crate::LONGEST;
use std::collections::HashSet;
use std::ops::RangeInclusive;

/// What was read, or what is wrong with the line.
pub type Outcome<T> = Result<T, String>;

/// The fields not taken yet: a name, and its value unless the line ends before it.
pub struct Fields<'a>(Vec<(&'a str, Option<&'a str>)>);

impl<'a> Fields<'a> {
    /// The tokens by twos, each name at most once.
    pub fn new(tokens: &[&'a str]) -> Outcome<Fields<'a>> {
        let mut fields = Vec::new();
        let mut names = HashSet::new();
        for field in tokens.chunks(2) {
            let name = field[0];
            if !names.insert(name.to_ascii_lowercase()) {
                return Err(format!("{name} stands twice"));
            }
            fields.push((name, field.get(1).copied()));
        }
        Ok(Fields(fields))
    }

    /// The place of a field that the line may have.
    fn place(&self, name: &str) -> Option<usize> {
        let mut names = self.0.iter().map(|(name, _)| name);
        names.position(|found| found.eq_ignore_ascii_case(name))
    }

    /// The value of a field that the line may have.
    fn value(&self, name: &str) -> Option<&'a str> {
        self.place(name).and_then(|place| self.0[place].1)
    }

    /// Takes the value of a field that the line may have.
    fn take(&mut self, name: &str) -> Outcome<Option<&'a str>> {
        match self.place(name).map(|place| self.0.remove(place)) {
            None => Ok(None),
            Some((_, Some(value))) => Ok(Some(value)),
            Some((_, None)) => Err(format!("{name} has no value")),
        }
    }

    /// Takes a number in a range.
    fn within(&mut self, name: &str, range: RangeInclusive<u64>) -> Outcome<Option<u64>> {
        let Some(text) = self.take(name)? else {
            return Ok(None);
        };
        let Some(value) = number(text) else {
            return Err(format!("{name} {text} is no number"));
        };
        if value < *range.start() {
            return Err(format!("{name} {text} is below {}", range.start()));
        }
        if value > *range.end() {
            return Err(format!("{name} {text} is above {}", range.end()));
        }
        Ok(Some(value))
    }

    /// Takes a number that the line must have.
    pub fn needed(&mut self, name: &str, range: RangeInclusive<u64>) -> Outcome<u64> {
        self.within(name, range)?
            .ok_or(format!("{name} is missing"))
    }

    /// Takes a number up to the greatest; 0 if the line does not have it.
    pub fn number(&mut self, name: &str, greatest: u32) -> Outcome<u32> {
        Ok(self.within(name, 0..=u64::from(greatest))?.unwrap_or(0) as u32)
    }

    /// Takes one of a few numbers, which the line must have.
    pub fn one_of(&mut self, name: &str, values: &[u32]) -> Outcome<u32> {
        let text = self.take(name)?.ok_or(format!("{name} is missing"))?;
        let found = values
            .iter()
            .find(|&&value| number(text) == Some(u64::from(value)));
        found.copied().ok_or_else(|| {
            let values: Vec<String> = values.iter().map(u32::to_string).collect();
            format!("{name} {text} is none of {}", values.join(", "))
        })
    }

    /// Whether a number that the line may have is at most the greatest.
    fn fits(&self, name: &str, greatest: u32) -> bool {
        let value = || self.value(name).and_then(number);
        self.place(name).is_none() || value().is_some_and(|value| value <= u64::from(greatest))
    }

    /// Takes the bank and the row; where the other wiring alone has both, that is said of the one that this has not.
    pub fn bank_and_row(&mut self, format: Format) -> Outcome<(u32, u32)> {
        let other = format.rewired();
        let elsewhere = self.fits("bank", other.last_bank()) && self.fits("row", other.last_row());
        let mut take = |name, greatest| match self.number(name, greatest) {
            Err(what) if elsewhere => {
                Err(format!("{what}; wiring {} has that {name}", other.wiring))
            }
            taken => taken,
        };
        Ok((
            take("bank", format.last_bank())?,
            take("row", format.last_row())?,
        ))
    }

    /// Takes a lane, if the line has it.
    pub fn lane(&mut self, name: &str, format: Format) -> Outcome<Option<&'static Lane>> {
        let Some(text) = self.take(name)? else {
            return Ok(None);
        };
        let lanes = format.lanes();
        let found = lanes
            .iter()
            .find(|lane| lane.name.eq_ignore_ascii_case(text));
        found.map(Some).ok_or_else(|| {
            let names: Vec<&str> = lanes.iter().map(|lane| lane.name).collect();
            format!("{name} {text} is none of {}", names.join(", "))
        })
    }

    /// Takes the upper lane, which there is by 16 alone.
    pub fn upper(&mut self, format: Format) -> Outcome<Option<&'static Lane>> {
        let lane = self.lane("upper", format)?;
        if lane.is_some() && !format.has_upper() {
            return Err("by 8 there is no upper lane".to_string());
        }
        Ok(lane)
    }

    /// Takes the repeat count.
    pub fn count(&mut self) -> Outcome<u64> {
        Ok(self.within("x", 1..=LONGEST)?.unwrap_or(1))
    }

    /// Nothing may be left.
    pub fn end(&self, command: &str) -> Outcome<()> {
        match self.0.first() {
            None => Ok(()),
            Some((name, _)) => Err(format!("{command} has no field {name}")),
        }
    }
}

/// A decimal number, or a hexadecimal one after 0x. One too large for the type is its greatest.
fn number(text: &str) -> Option<u64> {
    let hexadecimal = text.strip_prefix("0x").or(text.strip_prefix("0X"));
    let (digits, radix) = hexadecimal.map_or((text, 10), |digits| (digits, 16));
    if digits.is_empty() || !digits.chars().all(|c| c.is_digit(radix)) {
        return None;
    }
    Some(u64::from_str_radix(digits, radix).unwrap_or(u64::MAX))
}
