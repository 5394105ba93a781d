//! What the arguments ask for.

use crate::files::STANDARD;
use std::ffi::{OsStr, OsString};
use trace::{Given, PERIODS};

pub const USAGE: &str = "usage:
  trace assemble [--wiring 4|8] [TEXT [TRACE]]                                    from text to words
  trace list [--bl 2|4] [--organisation 8|16] [--wiring 4|8] [--period PS] [--data] [--cl 3|4|5] [--force] [TRACE [TEXT]]
                                                                                  from words to text
  trace --help | --version
A file that is left out, or is -, is standard input or output. BL 4, by 16, eight banks, 5000 ps unless given; PS is from 3750 to 8500.
With --data or --cl each LAL has the clocks of its data behind it, at CL 4 unless given.
Where the input of list is text, and no trace, it is listed with --force alone.";

/// What the arguments ask for.
pub enum Asked {
    Usage,
    Version,
    Run(Call),
}

/// A call that reads and writes.
pub struct Call {
    pub listing: bool,
    pub given: Given,
    pub period: Option<u32>,
    /// Whether data are shown; they are too where a CL is given.
    pub data: bool,
    pub cl: Option<u32>,
    /// Whether text is listed too.
    pub force: bool,
    pub input: OsString,
    pub output: OsString,
}

/// Reads the arguments; none if they are not as the usage has them.
pub fn asked(arguments: &[OsString]) -> Option<Asked> {
    let listing = match arguments.first()?.to_str()? {
        "assemble" => false,
        "list" => true,
        "-h" | "--help" => return Some(Asked::Usage),
        "--version" => return Some(Asked::Version),
        _ => return None,
    };
    match arguments.iter().any(|argument| argument == "--help") {
        true => Some(Asked::Usage),
        false => call(listing, &arguments[1..]).map(Asked::Run),
    }
}

/// Reads the arguments behind the command.
fn call(listing: bool, arguments: &[OsString]) -> Option<Call> {
    let mut call = Call {
        listing,
        given: Given::default(),
        period: None,
        data: false,
        cl: None,
        force: false,
        input: STANDARD.into(),
        output: STANDARD.into(),
    };
    let mut arguments = arguments.iter();
    let mut files = Vec::new();
    while let Some(argument) = arguments.next() {
        if !argument.as_encoded_bytes().starts_with(b"--") {
            files.push(argument.clone());
            continue;
        }
        let name = argument.to_str()?;
        if let Some(place) = flag(name, &mut call) {
            if std::mem::replace(place, true) {
                return None;
            }
            continue;
        }
        let (place, fits) = option(name, &mut call)?;
        let value = number(arguments.next()?).filter(fits)?;
        if place.replace(value).is_some() {
            return None;
        }
    }
    let mut files = files.into_iter();
    call.input = files.next().unwrap_or(call.input);
    call.output = files.next().unwrap_or(call.output);
    files.next().is_none().then_some(call)
}

/// The place of an option that has no value; none if the command has no such option.
fn flag<'a>(name: &str, call: &'a mut Call) -> Option<&'a mut bool> {
    match name {
        "--data" if call.listing => Some(&mut call.data),
        "--force" if call.listing => Some(&mut call.force),
        _ => None,
    }
}

/// The place of an option's value, and which values there are; none if the command has no such option.
fn option<'a>(name: &str, call: &'a mut Call) -> Option<(&'a mut Option<u32>, fn(&u32) -> bool)> {
    let (place, fits): (_, fn(&u32) -> bool) = match name {
        "--bl" if call.listing => (&mut call.given.bl, |n| [2, 4].contains(n)),
        "--cl" if call.listing => (&mut call.cl, |n| [3, 4, 5].contains(n)),
        "--organisation" if call.listing => (&mut call.given.organisation, |n| [8, 16].contains(n)),
        "--period" if call.listing => (&mut call.period, |n| PERIODS.contains(n)),
        "--wiring" => (&mut call.given.wiring, |n| [4, 8].contains(n)),
        _ => return None,
    };
    Some((place, fits))
}

/// The number that a text is, if it is written as the program writes one.
fn number(text: &OsStr) -> Option<u32> {
    let number: u32 = text.to_str()?.parse().ok()?;
    (text == number.to_string().as_str()).then_some(number)
}
