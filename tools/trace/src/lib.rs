//! Traces as text, one command a line, and as files of little-endian 32-bit words (docs/TRACES.md).

mod assemble;
mod command;
mod data;
mod fields;
mod format;
mod kind;
mod line;
mod lines;
mod list;
mod pins;
mod remarks;
mod runs;
mod text;
mod time;
mod warning;

pub use assemble::{assemble, Assembled, Failure};
pub use data::CL;
pub use format::{Format, Given};
pub use lines::{LONGEST_LINE, LONGEST_TEXT};
pub use list::list;
pub use remarks::Remarks;
pub use runs::Trace;
pub use text::is_text;
pub use time::{PERIOD, PERIODS};

/// The most words of a trace that is assembled or listed: four times the longest that is checked.
pub const LONGEST: u64 = 67_108_864;
