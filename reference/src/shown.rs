//! The lines of a check within limits. Any sheet in the limits on which the trace is in breach is right
//! with its verdict, so a line may be as right as ours and not the same.

use crate::both::Both;
use crate::expected::Answers;
use crate::limits::{shown, Limits, Shown};
use crate::lines;
use crate::script::Call;
use crate::sheet::{Sheet, LIMITED};
use crate::summary::Summary;

/// The limits and the trace of a call.
type Within<'a> = (Limits, &'a [u32]);

impl Answers {
    /// A program's text in which each line that is as right as ours is put as ours.
    pub fn as_ours(&self, text: &str) -> String {
        self.put(text, |within, line, ours| {
            let as_right = line != ours && fault(within, line).is_none();
            if as_right { ours } else { line }.to_string()
        })
    }

    /// Our own text with other sheets shown, which are as right.
    pub fn otherwise(&self) -> String {
        self.put(&self.text, |within, _, ours| {
            let corner = told(ours).expect("a sheet and its breach");
            line_of(&inner(within, corner))
        })
    }

    /// What is wrong with a program's line in this place; none where it is right, or no line but ours is.
    pub fn fault(&self, place: usize, line: &str) -> Option<String> {
        let ours = self.text.lines().nth(place)?;
        let within = self.choice(place, ours)?;
        let fault = fault(within, line)?;
        let [least, greatest] = [within.0.least, within.0.greatest].map(|sheet| sheet.numbers());
        Some(format!("{fault}, from {least:?} to {greatest:?}"))
    }

    /// The limits and the trace of the call that our line answers, if it shows a sheet.
    fn choice(&self, place: usize, ours: &str) -> Option<Within<'_>> {
        let call = self.call_of(place);
        let Call::CheckWithin(greatest, words) = self.calls.get(call)? else {
            return None;
        };
        let limits = Limits {
            least: self.configurations[call],
            greatest: Sheet::from_numbers(*greatest),
        };
        told(ours).map(|_| (limits, &words[..]))
    }

    /// A text with other lines wherever ours shows a sheet, each made from the line there and from ours.
    fn put(&self, text: &str, other: impl Fn(Within, &str, &str) -> String) -> String {
        let mut ours = self.text.lines();
        let mut put = String::new();
        for (place, whole) in text.split_inclusive('\n').enumerate() {
            let line = whole.strip_suffix('\n').unwrap_or(whole);
            let ours = ours.next().unwrap_or("");
            match self.choice(place, ours) {
                Some(within) => put += &(other(within, line, ours) + &whole[line.len()..]),
                None => put += whole,
            }
        }
        put
    }
}

/// The line of a sheet and its breach, without its end.
fn line_of(shown: &Shown) -> String {
    lines::shown(shown).trim_end().to_string()
}

/// The sheet and its breach that a line tells; none for a line of any other form.
fn told(line: &str) -> Option<Shown> {
    let (verdict, sheet) = line.strip_prefix("breach ")?.split_once(" on ")?;
    let (clock, number) = verdict.split_once(' ')?;
    let numbers = sheet.split(' ').map(|number| number.parse().ok());
    let numbers: Vec<u32> = numbers.collect::<Option<_>>()?;
    let told = Shown {
        clock: clock.parse().ok()?,
        number: number.parse().ok()?,
        sheet: Sheet::from_numbers(numbers.try_into().ok()?),
    };
    // A number with a sign or a 0 before it can be read, and is not how it should be written.
    (line_of(&told) == line).then_some(told)
}

/// What is wrong with a line where the trace is in breach on some sheet in the limits.
fn fault((limits, words): Within, line: &str) -> Option<String> {
    match told(line) {
        Some(told) => limits.fault::<Both>(words, &told),
        None => Some("it shows no sheet with its breach".to_string()),
    }
}

/// A sheet further inside the limits: each number in the middle, where the trace is still in breach.
fn inner((limits, words): Within, corner: Shown) -> Shown {
    LIMITED.fold(corner, |last, place| {
        let (least, greatest) = limits.ends(place);
        let middle = last.sheet.with(place, (least + greatest) / 2);
        shown::<Summary>(middle, words).unwrap_or(last)
    })
}
