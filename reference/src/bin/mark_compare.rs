//! Runs the marker program on traces and compares the bytes it writes with this implementation's.

use reference::both::Both;
use reference::command_line::{end, keep, Arguments};
use reference::coverage::Coverage;
use reference::hand_in::marker_line;
use reference::program::{run, Feed, Output};
use reference::random::Random;
use reference::suites::marks;
use reference::summary::Summary;
use std::path::PathBuf;
use std::process::exit;
use std::time::{Duration, Instant};

const USAGE: &str = "mark_compare --marker PATH|self [--scale N]";
const SEED: u64 = 0x5EED_0005;

/// The program under comparison, and what was met so far.
struct Marker {
    /// The program's file, or none to put this implementation in its place.
    program: Option<PathBuf>,
    /// Where an input is written that the program is given as a file.
    file: PathBuf,
    /// Draws the ways in which inputs are handed over.
    random: Random,
    inputs: u32,
    coverage: Coverage,
}

impl Marker {
    /// What the program writes for an input.
    fn output(&self, input: &[u8], feed: Feed) -> Result<Output, String> {
        match &self.program {
            Some(path) => run(path, input, feed),
            None => Ok(Output {
                bytes: marker_line::<Summary>(input).into_bytes(),
                code: 0,
            }),
        }
    }

    /// Some way to hand over an input of a length.
    fn feed(&self, length: usize) -> (Feed<'_>, &'static str) {
        let pieces = self.random.between(3, 20) as usize;
        match self.random.below(6) {
            0 => (Feed::File(&self.file), "from a file"),
            1 => (Feed::Pieces((length / pieces) | 1), "in pieces"),
            _ => (Feed::Pipe, "at once"),
        }
    }

    /// Runs the program on one input, compares, counts. A difference ends this program.
    fn compare(&mut self, input: &[u8]) {
        let (feed, manner) = self.feed(input.len());
        let wanted = marker_line::<Both>(input);
        let output = match self.output(input, feed) {
            Ok(output) => output,
            Err(fault) => fail(input, feed, &wanted, &fault),
        };
        if output.bytes != wanted.as_bytes() {
            let written = format!("{:?}", String::from_utf8_lossy(&output.bytes));
            fail(input, feed, &wanted, &written);
        }
        self.inputs += 1;
        self.coverage.meet(&format!("input handed over {manner}"));
        self.coverage.meet(&format!("exit code {}", output.code));
        self.count(input, &wanted);
    }

    /// Hands over a trace whose last word is a breach so that a read may fail on the way. A line is that of the whole trace.
    fn unready(&mut self, words: usize) {
        let mut input = [0, 0, 12, 0].repeat(words);
        input.extend([0; 4]);
        let first = 4 * self.random.below(words as u32) as usize;
        // At times so long that the program has met the failed read before the rest comes.
        let pause = match words % 100 {
            0 => Duration::from_secs(5),
            _ => Duration::from_micros(self.random.below(1_000).into()),
        };
        let feed = Feed::Unready(first, pause);
        let wanted = marker_line::<Both>(&input);
        let output = match self.output(&input, feed) {
            Ok(output) => output,
            Err(fault) => fail(&input, feed, &wanted, &fault),
        };
        if output.bytes.is_empty() {
            self.coverage.meet("no line after a failed read");
        } else if output.bytes != wanted.as_bytes() {
            let written = format!("{:?}", String::from_utf8_lossy(&output.bytes));
            fail(&input, feed, &wanted, &written);
        }
        self.inputs += 1;
    }

    /// Counts an answer: a breach without its clock, a refusal with the bytes over whole words.
    fn count(&mut self, input: &[u8], line: &str) {
        let rest = input.len() % 4;
        match line.split_whitespace().collect::<Vec<_>>()[..] {
            ["breach", clock, number] => {
                self.coverage.meet(&format!("breach {number}"));
                if clock == "16383" {
                    self.coverage.meet("breach at the last clock");
                }
            }
            ["refused", number] => {
                let name = format!("refused {number}, {rest} bytes over whole words");
                self.coverage.meet(&name);
            }
            ["accepted", "16384"] => self.coverage.meet("accepted, as long as allowed"),
            _ => self.coverage.meet("accepted"),
        }
    }
}

/// Reports a difference, keeps the input and ends the program.
fn fail(input: &[u8], feed: Feed, wanted: &str, written: &str) -> ! {
    println!("FAILED on {} bytes, handed over as {feed:?}", input.len());
    println!("  reference: {wanted:?}");
    println!("  marker:    {written}");
    keep("input", "marker-difference.bin", input);
    exit(1)
}

fn main() {
    let mut arguments = Arguments::new(USAGE.to_string());
    let program = arguments.program("--marker");
    let scale = arguments.scale();
    arguments.names(&[]);
    let file = format!("marker-input-{}.bin", std::process::id());
    let mut marker = Marker {
        program,
        file: std::env::temp_dir().join(file),
        random: Random::new(SEED + 1),
        inputs: 0,
        coverage: Coverage::default(),
    };
    let start = Instant::now();
    let mut met = Coverage::default();
    marks::inputs(SEED, scale, &mut met, &mut |input| marker.compare(input));
    marker.coverage.add(met);
    let mut promised = marks::promised();
    if marker.program.is_some() {
        for words in 1..=300 * scale as usize {
            marker.unready(10 * words);
        }
        promised.push("no line after a failed read".to_string());
    }
    println!(
        "marker: seed {SEED:#x}, scale {scale}, {} inputs agree, {:.1} s",
        marker.inputs,
        start.elapsed().as_secs_f64()
    );
    end(marker.coverage.report(&promised))
}
