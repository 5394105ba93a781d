//! Sheets known within limits: a trace on every sheet from one to another. It is decided by trying each
//! corner of the limits and, where that takes few words, each sheet in them too.

use crate::judge::{judge, Verdict, LONGEST};
use crate::past::Past;
use crate::sheet::{Sheet, LIMITED};
use crate::summary::Summary;

/// The most words, and one for each sheet, over all sheets in the limits, up to which each is tried.
const EVERY_SHEET: u64 = 100_000;

/// The sheets from the first to the second: alike in the rest, and each of the six numbers from the
/// first's to the second's.
#[derive(Clone, Copy, Debug, PartialEq, Eq)]
pub struct Limits {
    pub least: Sheet,
    pub greatest: Sheet,
}

/// A sheet in the limits on which a trace is in breach, and that breach.
#[derive(Clone, Copy, Debug, PartialEq, Eq)]
pub struct Shown {
    pub clock: u32,
    pub number: u32,
    pub sheet: Sheet,
}

/// A refusal's number, and of what it is.
pub type Refusal = (u32, &'static str);

impl Limits {
    /// The ends of one of the six numbers, by its place in the sheet.
    pub fn ends(&self, place: usize) -> (u32, u32) {
        (self.least.numbers()[place], self.greatest.numbers()[place])
    }

    /// Whether the sheets differ elsewhere, or one of the six numbers is above its greatest.
    fn apart(&self) -> bool {
        let of = |place| (place, self.ends(place));
        let mut places = (0..self.least.numbers().len()).map(of);
        places.any(
            |(place, (least, greatest))| match LIMITED.contains(&place) {
                true => least > greatest,
                false => least != greatest,
            },
        )
    }

    /// The refusals that stand for a trace of so many words, in the order in which they are tried: the
    /// first sheet's own, the second's own, 35, and 24 for too long a trace.
    pub fn refusals(&self, length: usize) -> Vec<Refusal> {
        let of_first = self.least.refusals().map(|n| (n, "of the first"));
        let of_second = self.greatest.refusals().map(|n| (n, "of the second"));
        let of_both = self.apart().then_some((35, "of both"));
        let of_trace = (length > LONGEST as usize).then_some((24, "of the trace"));
        let of_sheets = of_first.chain(of_second).chain(of_both);
        of_sheets.chain(of_trace).collect()
    }

    /// Whether a sheet is in the limits.
    pub fn hold(&self, sheet: &Sheet) -> bool {
        let numbers = sheet.numbers().into_iter().enumerate();
        let mut ranged = numbers.map(|(place, number)| (number, self.ends(place)));
        ranged.all(|(number, (least, greatest))| number >= least && number <= greatest)
    }

    /// How many sheets are in the limits.
    pub fn count(&self) -> u64 {
        let room = |(least, greatest)| u64::from(greatest - least) + 1;
        LIMITED.map(|place| room(self.ends(place))).product()
    }

    /// Whether each sheet in the limits is tried on a trace.
    pub fn narrow(&self, words: &[u32]) -> bool {
        self.count() * (words.len() as u64 + 1) <= EVERY_SHEET
    }

    /// The sheets in the limits whose six numbers are among the values given for each place.
    fn among(&self, values: impl Fn(usize) -> Vec<u32>) -> Vec<Sheet> {
        let mut sheets = vec![self.least];
        for place in LIMITED {
            let values = values(place);
            let with = |sheet: Sheet| values.iter().map(move |&value| (sheet, value));
            let all = sheets.into_iter().flat_map(with);
            sheets = all.map(|(sheet, value)| sheet.with(place, value)).collect();
        }
        sheets
    }

    /// The corners: each of the six numbers at its least or at its greatest, equal sheets once.
    pub fn corners(&self) -> Vec<Sheet> {
        self.among(|place| match self.ends(place) {
            (least, greatest) if least == greatest => vec![least],
            (least, greatest) => vec![least, greatest],
        })
    }

    /// Every sheet in the limits.
    pub fn sheets(&self) -> Vec<Sheet> {
        self.among(|place| {
            let (least, greatest) = self.ends(place);
            (least..=greatest).collect()
        })
    }

    /// A sheet in the limits, none of which is refused, on which the trace is in breach.
    fn judge<P: Past>(&self, words: &[u32]) -> Option<Shown> {
        let mut corners = self.corners().into_iter();
        let found = corners.find_map(|sheet| shown::<P>(sheet, words));
        if self.narrow(words) {
            let mut sheets = self.sheets().into_iter();
            let any = sheets.any(|sheet| shown::<Summary>(sheet, words).is_some());
            assert_eq!(found.is_some(), any, "corners and sheets differ: {self:?}");
        }
        found
    }

    /// What is wrong with a sheet and its breach, where there are some in the limits; none if they are
    /// as right as any.
    pub fn fault<P: Past>(&self, words: &[u32], told: &Shown) -> Option<String> {
        if !self.hold(&told.sheet) {
            return Some("the sheet shown is not in the limits".to_string());
        }
        match shown::<P>(told.sheet, words) {
            None => Some("the trace is accepted on the sheet shown".to_string()),
            Some(own) => (own != *told).then(|| {
                let Shown { clock, number, .. } = own;
                format!("on the sheet shown it is breach {clock} {number}")
            }),
        }
    }
}

/// The sheet, which is an accepted one, with the breach on it, if there is one.
pub fn shown<P: Past>(sheet: Sheet, words: &[u32]) -> Option<Shown> {
    assert_eq!(sheet.refusal(), None, "a refused sheet in the limits");
    match judge::<P>(&sheet, words) {
        Verdict::Accepted => None,
        Verdict::Breach { clock, number } => Some(Shown {
            clock,
            number,
            sheet,
        }),
    }
}

/// The whole check on every sheet from the first to the second: a sheet on which the trace is in breach,
/// or none if it is accepted always; or the first refusal that stands.
pub fn check_within<P: Past>(
    least: Sheet,
    greatest: Sheet,
    words: &[u32],
) -> Result<Option<Shown>, u32> {
    let limits = Limits { least, greatest };
    match limits.refusals(words.len()).first() {
        Some((number, _)) => Err(*number),
        None => Ok(limits.judge::<P>(words)),
    }
}
