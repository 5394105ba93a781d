//! The words of an assembled trace.

use std::io::{self, Write};

/// A trace: runs of one word, each with its length, and up to three bytes behind the last word.
#[derive(Debug, Default, PartialEq, Eq)]
pub struct Trace {
    runs: Vec<(u32, u32)>,
    rest: Vec<u8>,
}

/// Words of one run that are written at once.
const PIECE: u32 = 16_384;

impl Trace {
    /// Adds a word, so many times.
    pub fn add(&mut self, word: u32, count: u32) {
        match self.runs.last_mut() {
            Some((last, length)) if *last == word => *length += count,
            _ => self.runs.push((word, count)),
        }
    }

    /// Adds a byte behind the last word.
    pub fn add_byte(&mut self, byte: u8) {
        self.rest.push(byte);
    }

    /// The number of bytes behind the last word.
    pub fn rest(&self) -> usize {
        self.rest.len()
    }

    /// Writes the words, the lowest byte of each first.
    pub fn write(&self, out: &mut impl Write) -> io::Result<()> {
        for &(word, count) in &self.runs {
            let piece = word.to_le_bytes().repeat(count.min(PIECE) as usize);
            for _ in 0..count / PIECE {
                out.write_all(&piece)?;
            }
            out.write_all(&piece[..4 * (count % PIECE) as usize])?;
        }
        out.write_all(&self.rest)
    }

    /// The bytes of the trace.
    pub fn bytes(&self) -> Vec<u8> {
        let mut bytes = Vec::new();
        self.write(&mut bytes).expect("memory takes all bytes");
        bytes
    }
}
