//! The data clocks of a pair: how long after its LAL its data begin, and for how long they last.

use crate::pair::Kind;
use crate::sheet::Sheet;

/// When the data of a pair stand, in clocks; both are 0 for a pair without data.
#[derive(Clone, Copy, Debug, Default, PartialEq, Eq)]
pub struct DataClocks {
    /// From LAL to the first data.
    pub latency: u32,
    /// The length of the data. Lanes that write fewer words leave it as it is.
    pub length: u32,
}

impl DataClocks {
    /// Those of a pair of the kind, on an accepted sheet.
    pub fn of(sheet: &Sheet, kind: Kind) -> DataClocks {
        let latency = match kind {
            Kind::Read => sheet.cl,
            Kind::Write => sheet.wl(),
            Kind::Regular | Kind::Extended | Kind::Refresh => return DataClocks::default(),
        };
        let length = sheet.bl / 2;
        DataClocks { latency, length }
    }
}
