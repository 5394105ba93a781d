//! Plays the suites' scripts on the replay program and compares its text with this implementation's.

use reference::command_line::{end, keep, Arguments};
use reference::coverage::Coverage;
use reference::expected::{answers, Answers};
use reference::program::{run, Feed};
use reference::script::{bytes, script, Call, Packer};
use reference::suites::{Suite, SUITES};
use std::path::{Path, PathBuf};
use std::process::exit;
use std::time::{Duration, Instant};

/// The program under comparison: a file, or none to play the scripts on this implementation.
struct Program(Option<PathBuf>);

impl Program {
    /// What the program writes for a script.
    fn play(&self, script: &[u8]) -> Result<String, String> {
        let Some(path) = &self.0 else {
            return Ok(answers(script).otherwise());
        };
        let output = run(path, script, Feed::Pipe)?;
        String::from_utf8(output.bytes).map_err(|e| e.to_string())
    }
}

/// The counters of one suite's run.
#[derive(Default)]
struct Tally {
    scripts: usize,
    calls: usize,
    lines: usize,
    coverage: Coverage,
}

/// Plays one script, compares, counts. A difference ends the program.
fn try_script(program: &Program, suite: &Suite, script: &[u8], tally: &mut Tally) {
    let wanted = answers(script);
    let text = match program.play(script) {
        Ok(text) => text,
        Err(fault) => fail(script, &wanted, wanted.calls.len(), &fault),
    };
    if let Some((call, fault)) = difference(&wanted, &text) {
        fail(script, &wanted, call, &fault);
    }
    let lines: Vec<&str> = text.lines().collect();
    let mut start = 0;
    let calls = wanted.calls.iter().zip(&wanted.wirings);
    for ((call, &wiring), &end) in calls.zip(&wanted.ends) {
        tally.coverage.answer(call, wiring, &lines[start..end]);
        start = end;
    }
    for rest in &lines[start..] {
        tally.coverage.meet(rest);
    }
    if let Some(promise) = suite.promise {
        match promise(&wanted.calls, &text) {
            Ok(seen) => seen.iter().for_each(|name| tally.coverage.meet(name)),
            Err((call, fault)) => fail(script, &wanted, call, &fault),
        }
    }
    tally.scripts += 1;
    tally.calls += wanted.calls.len();
    tally.lines += lines.len();
}

/// The call that the first line at fault answers, and the fault; none if every line is as ours, or shows
/// another sheet and is as right.
fn difference(wanted: &Answers, text: &str) -> Option<(usize, String)> {
    let text = wanted.as_ours(text);
    if text == wanted.text {
        return None;
    }
    let both = wanted.text.lines().zip(text.lines());
    let line = both.take_while(|(ours, theirs)| ours == theirs).count();
    let of = |text: &str| text.lines().nth(line).unwrap_or("(no line)").to_string();
    let (ours, theirs) = (of(&wanted.text), of(&text));
    let mut fault = format!("line {line} differs\n  reference: {ours}\n  program:   {theirs}");
    if let Some(why) = wanted.fault(line, &theirs) {
        fault += &format!("\n  at fault:  {why}");
    }
    Some((wanted.call_of(line), fault))
}

/// Reports a fault at a call, writes the script that shows it, and ends the program.
fn fail(played: &[u8], wanted: &Answers, call: usize, fault: &str) -> ! {
    println!("FAILED at call {call}: {fault}");
    let mut shown = wanted
        .calls
        .get(call)
        .map_or("(end)".to_string(), |c| format!("{c:?}"));
    shown.truncate(400);
    println!("  call: {shown}");
    keep("script", "reference-difference.hex", &hex(played));
    // The calls since the last configuration show the same, if every group begins with one.
    let calls = &wanted.calls[..wanted.calls.len().min(call + 1)];
    let fresh = |call: &Call| call.sheet().is_some();
    let from = calls.iter().rposition(fresh).unwrap_or(0);
    let short = hex(&bytes(&script(&calls[from..])));
    keep(
        "from its configuration on",
        "reference-difference-short.hex",
        &short,
    );
    exit(1)
}

/// The words of a script as lines in hexadecimal.
fn hex(script: &[u8]) -> Vec<u8> {
    let digits = |byte: &u8| format!("{byte:02X}");
    let line = |word: &[u8]| word.iter().rev().map(digits).collect::<String>() + "\n";
    let lines: String = script.chunks(4).map(line).collect();
    lines.into_bytes()
}

/// Runs one suite and tells whether it met all that it promised.
fn run_suite(program: &Program, suite: &Suite, scale: u32) -> bool {
    let start = Instant::now();
    let mut tally = Tally::default();
    let mut own = Coverage::default();
    let mut send = |script: &[u8]| try_script(program, suite, script, &mut tally);
    let mut packer = Packer::new(&mut send);
    (suite.cases)(suite.seed, scale, &mut packer, &mut own);
    packer.finish();
    tally.coverage.add(own);
    println!(
        "suite {}: seed {:#x}, scale {scale}, {} scripts, {} calls, {} lines agree, {:.1} s",
        suite.name,
        suite.seed,
        tally.scripts,
        tally.calls,
        tally.lines,
        start.elapsed().as_secs_f64()
    );
    tally.coverage.report(&(suite.promised)())
}

/// Hands a script over so that a read may fail on the way: the program runs the whole of it, or nothing. Tells whether it met both.
fn run_unready(path: &Path) -> bool {
    let script = bytes(&[9; 300]);
    let wanted = answers(&script);
    let mut whole = 0;
    let mut silent = 0;
    for turn in 0..60 {
        // At times no read fails; at times the rest comes long after the program has met the failed read.
        let (first, pause) = match turn {
            0 => (600, Duration::from_secs(5)),
            1..=9 => (script.len(), Duration::ZERO),
            _ => (20 * turn, Duration::from_micros(25 * turn as u64)),
        };
        let text = run(path, &script, Feed::Unready(first, pause)).map(|output| output.bytes);
        match text {
            Ok(text) if text.is_empty() => silent += 1,
            Ok(text) if text == wanted.text.as_bytes() => whole += 1,
            Ok(_) => fail(&script, &wanted, 0, "part of a script was run"),
            Err(fault) => fail(&script, &wanted, 0, &fault),
        }
    }
    println!("scripts whose reading may fail: {whole} run whole, {silent} not at all");
    whole > 0 && silent > 0
}

fn main() {
    let suites = SUITES.map(|suite| suite.name);
    let usage = format!("compare --replay PATH|self [--scale N] {suites:?}");
    let mut arguments = Arguments::new(usage);
    let program = Program(arguments.program("--replay"));
    let scale = arguments.scale();
    let chosen = arguments.names(&suites);
    let wanted = |suite: &&Suite| chosen.is_empty() || chosen.iter().any(|n| n == suite.name);
    let mut sound = true;
    for suite in SUITES.iter().filter(wanted) {
        sound &= run_suite(&program, suite, scale);
        if let (Program(Some(path)), "scripts") = (&program, suite.name) {
            sound &= run_unready(path);
        }
    }
    end(sound)
}
