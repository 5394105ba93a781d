//! From text to words.

use crate::command::Command;
use crate::format::{Format, Given};
use crate::line::{parse, Line};
use crate::lines::Lines;
use crate::remarks::Remarks;
use crate::runs::Trace;
use crate::warning::{self, Open};
use crate::LONGEST;
use std::io::{self, BufRead};

/// What a text without a wrong line gives, and the lines of it that deserve a warning.
#[derive(Debug)]
pub struct Assembled {
    pub trace: Trace,
    pub warnings: Remarks,
}

/// Why a text gives nothing.
#[derive(Debug)]
pub enum Failure {
    Unreadable(io::Error),
    Wrong(Remarks),
}

impl From<io::Error> for Failure {
    fn from(error: io::Error) -> Failure {
        Failure::Unreadable(error)
    }
}

/// What is wrong: a line, or the text from a line on.
enum Wrong {
    Line(String),
    Rest(String),
}

impl From<String> for Wrong {
    fn from(what: String) -> Wrong {
        Wrong::Line(what)
    }
}

/// What a line is worth a warning for, or what is wrong.
type Outcome = Result<Option<String>, Wrong>;

/// Assembles a text, for a wiring if one is asked for. A text with a wrong line gives nothing, and no more is read once enough lines are
/// found wrong.
pub fn assemble(text: impl BufRead, wiring: Option<u32>) -> Result<Assembled, Failure> {
    let mut lines = Lines::new(text);
    let mut assembler = Assembler {
        asked: wiring,
        ..Assembler::default()
    };
    let (mut faults, mut warnings) = (Remarks::default(), Remarks::default());
    while !faults.more() && lines.advance()? {
        assembler.number = lines.number();
        let line = lines.line().map_err(Wrong::Rest);
        match line.and_then(|line| assembler.line(line)) {
            Ok(None) => {}
            Ok(Some(warning)) => warnings.add(lines.number(), &warning),
            Err(Wrong::Line(what)) => faults.add(lines.number(), &what),
            Err(Wrong::Rest(what)) => {
                faults.add(lines.number(), &what);
                break;
            }
        }
    }
    match faults.is_empty() {
        true => Ok(Assembled {
            trace: assembler.trace,
            warnings,
        }),
        false => Err(Failure::Wrong(faults)),
    }
}

/// What the call asks for, and what the lines so far have given.
#[derive(Default)]
struct Assembler {
    /// The wiring, if it is asked for.
    asked: Option<u32>,
    /// The format, as far as lines say it.
    said: Given,
    /// The clock of the next word.
    clock: u64,
    /// The pair that is open.
    open: Option<Open>,
    /// The number of the line that is read.
    number: u64,
    trace: Trace,
}

impl Assembler {
    /// Does what a line says; a wrong line does nothing.
    fn line(&mut self, line: &[u8]) -> Outcome {
        let line = std::str::from_utf8(line).map_err(|_| "not UTF-8 text".to_string())?;
        match parse(line, self.format())? {
            None => {}
            Some(Line::Words(command, count)) => {
                return self.words(command.name().unwrap_or("WORD"), command, count)
            }
            Some(Line::At(clock)) => return self.at(clock),
            Some(Line::Byte(byte)) => self.byte(byte)?,
            Some(Line::Bl(bl)) => {
                self.before_all("bl", self.said.bl.is_some())?;
                self.said.bl = Some(bl);
            }
            Some(Line::Organisation(organisation)) => {
                self.before_all("organisation", self.said.organisation.is_some())?;
                self.said.organisation = Some(organisation);
            }
            Some(Line::Wiring(wiring)) => {
                self.before_all("wiring", self.said.wiring.is_some())?;
                self.as_asked(wiring)?;
                self.said.wiring = Some(wiring);
            }
        }
        Ok(None)
    }

    /// The format by the call and the lines so far.
    fn format(&self) -> Format {
        let wiring = self.said.wiring.or(self.asked);
        Given {
            wiring,
            ..self.said
        }
        .format()
    }

    /// A line on the format stands before all words, once.
    fn before_all(&self, name: &str, set: bool) -> Result<(), String> {
        if set {
            return Err(format!("{name} stands twice"));
        }
        if self.clock > 0 || self.trace.rest() > 0 {
            return Err(format!("{name} stands after the first word"));
        }
        Ok(())
    }

    /// A wiring that a line says is the one asked for, if one is.
    fn as_asked(&self, wiring: u32) -> Result<(), String> {
        match self.asked {
            Some(asked) if asked != wiring => {
                Err(format!("wiring {wiring} contradicts --wiring {asked}"))
            }
            _ => Ok(()),
        }
    }

    /// Adds a command, so many times; the line calls it by a name.
    fn words(&mut self, name: &str, command: Command, count: u64) -> Outcome {
        if self.trace.rest() > 0 {
            return Err("a word stands after BYTE".to_string().into());
        }
        if self.clock + count > LONGEST {
            let what = format!("the trace is longer than {LONGEST} words");
            return Err(Wrong::Rest(what));
        }
        let given = warning::Given {
            name,
            command,
            count,
            line: self.number,
        };
        let warning = given.warning(self.open, self.format());
        self.clock += count;
        self.open = given.leaves(self.open);
        self.trace.add(command.word(), count as u32);
        Ok(warning)
    }

    /// Adds DESL up to a clock.
    fn at(&mut self, clock: u64) -> Outcome {
        if clock < self.clock {
            let next = self.clock;
            return Err(format!("at {clock} is past, the next clock is {next}").into());
        }
        match clock - self.clock {
            0 => Ok(None),
            count => self.words("at", Command::Desl, count),
        }
    }

    /// Adds a byte behind the last word.
    fn byte(&mut self, byte: u8) -> Result<(), String> {
        if self.trace.rest() == 3 {
            return Err("a fourth BYTE would make a word".to_string());
        }
        self.trace.add_byte(byte);
        Ok(())
    }
}
