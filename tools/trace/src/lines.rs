//! A text by lines, of which each and all together have a greatest length: the text may have no end, and no line feed.

use crate::LONGEST;
use std::io::{self, BufRead, Read, Take};

/// The most bytes of a text: 80 for each word of the longest trace, more than a listing has, with data too.
pub const LONGEST_TEXT: u64 = 80 * LONGEST;

/// The most bytes of a line, without its line feed.
pub const LONGEST_LINE: u64 = 1 << 20;

/// What some editors put before a text.
const BYTE_ORDER_MARK: &[u8] = "\u{FEFF}".as_bytes();

/// A text and the last line read of it.
pub struct Lines<R> {
    text: Take<R>,
    line: Vec<u8>,
    number: u64,
}

impl<R: BufRead> Lines<R> {
    /// A text of which no line is read yet.
    pub fn new(text: R) -> Lines<R> {
        Lines {
            text: text.take(LONGEST_TEXT + 1),
            line: Vec::new(),
            number: 0,
        }
    }

    /// Reads the next line, of one that is too long a byte too many; false at the end of the text.
    pub fn advance(&mut self) -> io::Result<bool> {
        self.number += 1;
        self.line.clear();
        let mut line = self.text.by_ref().take(LONGEST_LINE + 1);
        Ok(line.read_until(b'\n', &mut self.line)? > 0)
    }

    /// The number of the line, from 1 on.
    pub fn number(&self) -> u64 {
        self.number
    }

    /// The line without what ends it and without a byte order mark, or what is too long.
    pub fn line(&self) -> Result<&[u8], String> {
        if self.text.limit() == 0 {
            return Err(format!("the text is longer than {LONGEST_TEXT} bytes"));
        }
        let line = self.line.strip_suffix(b"\n").unwrap_or(&self.line);
        if line.len() as u64 > LONGEST_LINE {
            return Err(format!("the line is longer than {LONGEST_LINE} bytes"));
        }
        match line.strip_prefix(BYTE_ORDER_MARK) {
            Some(text) if self.number == 1 => Ok(text),
            _ => Ok(line),
        }
    }
}
