//! An independent implementation of the scope paper, for comparison with the verified crates.
//! It shares no code with them: it is written from the papers, plainly, and judges a trace by
//! scanning its whole history.

pub mod both;
pub mod checker;
pub mod command_line;
pub mod controller;
pub mod counts;
pub mod coverage;
pub mod data;
pub mod expected;
pub mod ground;
pub mod hand_in;
pub mod history;
pub mod judge;
pub mod limits;
pub mod lines;
pub mod pair;
pub mod past;
pub mod phase;
pub mod program;
pub mod promises;
pub mod queue;
pub mod random;
pub mod script;
pub mod sheet;
pub mod shown;
pub mod state;
pub mod suites;
pub mod summary;
pub mod time;
pub mod walk;
pub mod wiring;
pub mod word;
pub mod written;
