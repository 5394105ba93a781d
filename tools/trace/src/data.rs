//! The clocks of the data that belong to a pair.

use crate::kind::Kind;

/// The institute's own CL.
pub const CL: u32 = 4;

/// The first clock of the data of a LAL at a clock, and how many clocks they last; none for a word that is no LAL.
pub fn data(kind: Kind, clock: u64, cl: u32, bl: u32) -> Option<(u64, u64)> {
    let latency = match kind {
        Kind::ReadLal => cl,
        Kind::WriteLal => cl - 1,
        _ => return None,
    };
    Some((clock + u64::from(latency), u64::from(bl / 2)))
}
