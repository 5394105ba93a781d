//! The command line: `trace assemble` and `trace list`.

mod arguments;
mod files;
mod standard;
mod whole;

use arguments::{asked, Asked, Call, USAGE};
use files::{Input, Output, STANDARD};
use std::ffi::OsString;
use std::io::{self, BufReader, Write};
use std::process::ExitCode;
use trace::{assemble, is_text, list, Failure, CL, LONGEST, PERIOD};

fn main() -> ExitCode {
    let arguments: Vec<OsString> = std::env::args_os().skip(1).collect();
    let Some(asked) = asked(&arguments) else {
        say(USAGE);
        return ExitCode::from(2);
    };
    let done = match asked {
        Asked::Usage => print(USAGE),
        Asked::Version => print(concat!("trace ", env!("CARGO_PKG_VERSION"))),
        Asked::Run(call) => run(&call),
    };
    match done {
        Ok(()) => ExitCode::SUCCESS,
        Err(what) => {
            say(&what);
            ExitCode::FAILURE
        }
    }
}

/// Says something on standard error; where that fails the status is all there is.
fn say(what: &str) {
    let _ = io::stderr().write_all(format!("{what}\n").as_bytes());
}

/// Prints something on standard output.
fn print(what: &str) -> Result<(), String> {
    standard::output_open()?;
    Output::new(STANDARD.as_ref()).write(|out| writeln!(out, "{what}"))
}

/// Does what is asked for; a failure is what is to be said of it.
fn run(call: &Call) -> Result<(), String> {
    standard::input_open()?;
    standard::output_open()?;
    let input = Input::open(&call.input)?;
    let output = Output::new(&call.output);
    if output.is(&input) {
        return Err(format!(
            "{}: input and output are the same file",
            output.name
        ));
    }
    match call.listing {
        true => run_list(call, &input, &output),
        false => run_assemble(&input, call.given.wiring, &output),
    }
}

/// From words to text. Words past the longest trace are not read: the input may have no end.
fn run_list(call: &Call, input: &Input, output: &Output) -> Result<(), String> {
    let name = &input.name;
    let bytes = input
        .bytes(4 * LONGEST + 4)
        .map_err(|error| format!("{name}: {error}"))?;
    if bytes.len() as u64 / 4 > LONGEST {
        return Err(format!("{name}: the trace is longer than {LONGEST} words"));
    }
    if is_text(&bytes) && !call.force {
        return Err(format!(
            "{name}: the input is text, and no trace; assemble takes text, and list --force lists it as it is"
        ));
    }
    let period = call.period.unwrap_or(PERIOD);
    let cl = call.cl.or(call.data.then_some(CL));
    output.write(|out| list(&bytes, call.given.format(), cl, period, out))
}

/// From text to words.
fn run_assemble(input: &Input, wiring: Option<u32>, output: &Output) -> Result<(), String> {
    let name = &input.name;
    let assembled =
        assemble(BufReader::new(&input.file), wiring).map_err(|failure| match failure {
            Failure::Unreadable(error) => format!("{name}: {error}"),
            Failure::Wrong(faults) => faults.messages(name, "wrong lines").join("\n"),
        })?;
    for warning in assembled.warnings.messages(name, "warnings") {
        say(&warning);
    }
    output.write(|out| assembled.trace.write(out))
}
