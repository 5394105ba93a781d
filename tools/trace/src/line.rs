//! One line of the text: a command, or an instruction to the assembler.

use crate::command::Command;
use crate::fields::{Fields, Outcome};
use crate::format::Format;
use crate::LONGEST;

/// What a line says.
#[derive(Debug, PartialEq, Eq)]
pub enum Line {
    /// The command, so many times.
    Words(Command, u64),
    /// DESL up to a clock.
    At(u64),
    /// A byte behind the last whole word.
    Byte(u8),
    Bl(u32),
    Organisation(u32),
    Wiring(u32),
}

/// Reads a line; none if it is blank or holds a comment alone.
pub fn parse(text: &str, format: Format) -> Outcome<Option<Line>> {
    let text = text.split('#').next().unwrap_or("");
    let tokens: Vec<&str> = text.split_whitespace().collect();
    if tokens.is_empty() {
        return Ok(None);
    }
    instruction(&tokens, format).map(Some)
}

/// Reads a line by its first token, which in some lines is a field itself.
fn instruction(tokens: &[&str], format: Format) -> Outcome<Line> {
    let (name, rest) = (tokens[0], &tokens[1..]);
    match name.to_ascii_lowercase().as_str() {
        "bl" => own(tokens, |own| own.one_of("bl", &[2, 4]).map(Line::Bl)),
        "organisation" => own(tokens, |own| {
            own.one_of("organisation", &[8, 16]).map(Line::Organisation)
        }),
        "wiring" => own(tokens, |own| {
            own.one_of("wiring", &[4, 8]).map(Line::Wiring)
        }),
        "at" => own(tokens, |own| own.needed("at", 0..=LONGEST).map(Line::At)),
        "byte" => own(tokens, |own| {
            Ok(Line::Byte(own.needed("BYTE", 0..=0xFF)? as u8))
        }),
        "word" => own(tokens, |own| {
            let word = own.needed("WORD", 0..=0xFFFF_FFFF)? as u32;
            Ok(Line::Words(Command::Word(word), own.count()?))
        }),
        "mrs" => mode(rest),
        _ => command(name, rest, format),
    }
}

/// Reads a line whose first token is a field.
fn own(tokens: &[&str], read: impl Fn(&mut Fields) -> Outcome<Line>) -> Outcome<Line> {
    let mut fields = Fields::new(tokens)?;
    let line = read(&mut fields)?;
    fields.end(tokens[0])?;
    Ok(line)
}

/// Reads one of the maker's commands other than MRS, or a word with PD low.
fn command(name: &str, rest: &[&str], format: Format) -> Outcome<Line> {
    let mut fields = Fields::new(rest)?;
    let command = match name.to_ascii_uppercase().as_str() {
        "DESL" => Command::Desl,
        "PD" => Command::PowerDown,
        "REF" => Command::Ref,
        "RDA" => {
            let (bank, row) = fields.bank_and_row(format)?;
            Command::Rda { bank, row }
        }
        "WRA" => {
            let (bank, row) = fields.bank_and_row(format)?;
            Command::Wra { bank, row }
        }
        "LAL" => Command::Lal {
            column: fields.number("column", format.last_column())?,
            lower: fields.lane("lower", format)?,
            upper: fields.upper(format)?,
        },
        _ => return Err(format!("{name} is no command")),
    };
    repeated(fields, command, name)
}

/// Reads an MRS of either register. `regular` is a name without a value, and stands anywhere among the fields.
fn mode(rest: &[&str]) -> Outcome<Line> {
    if let Some(place) = field(rest, "regular") {
        return regular(&[&rest[..place], &rest[place + 1..]].concat());
    }
    if field(rest, "extended").is_none() {
        return Err("MRS wants regular or extended".to_string());
    }
    let mut fields = Fields::new(rest)?;
    let command = Command::Extended(fields.needed("extended", 0..=63)? as u32);
    repeated(fields, command, "MRS extended")
}

/// The place of a name, the tokens before it being fields with values.
fn field(tokens: &[&str], name: &str) -> Option<usize> {
    (0..tokens.len())
        .step_by(2)
        .find(|&place| tokens[place].eq_ignore_ascii_case(name))
}

/// Reads the fields of a regular MRS.
fn regular(tokens: &[&str]) -> Outcome<Line> {
    let mut fields = Fields::new(tokens)?;
    let command = Command::Regular {
        cl: fields.needed("cl", 0..=7)? as u32,
        bl: fields.one_of("bl", &[2, 4])?,
        a3: fields.number("a3", 1)?,
    };
    repeated(fields, command, "MRS regular")
}

/// The command with the repeat count; the line has nothing else.
fn repeated(mut fields: Fields, command: Command, name: &str) -> Outcome<Line> {
    let count = fields.count()?;
    fields.end(name)?;
    Ok(Line::Words(command, count))
}
