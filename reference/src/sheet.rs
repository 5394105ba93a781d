//! The sheet: the numbers that a trace is judged by, their refusals and the figures derived from them.

/// How many numbers a sheet has, and how many one has that was stored without its wiring.
pub const NUMBERS: usize = 11;
pub const WITHOUT_WIRING: usize = 10;

/// The places of the six numbers that a setter may know within limits: the period and the five counts.
pub const LIMITED: std::ops::Range<usize> = 4..10;

/// The numbers of a sheet as the setter wrote them, accepted or not.
#[derive(Clone, Copy, Debug, PartialEq, Eq)]
pub struct Sheet {
    pub grade: u32,
    pub cl: u32,
    pub bl: u32,
    pub org: u32,
    /// The clock period in picoseconds; every other figure below is a count of clocks.
    pub period: u32,
    pub rbd: u32,
    pub rwd: u32,
    pub wrd: u32,
    pub rsc: u32,
    pub refc: u32,
    /// The number of banks that the board's bank pins tell apart.
    pub wiring: u32,
}

/// The institute's own sheet.
pub const SHEET_E: Sheet = Sheet {
    grade: 37,
    cl: 4,
    bl: 4,
    org: 16,
    period: 5000,
    rbd: 2,
    rwd: 3,
    wrd: 1,
    rsc: 7,
    refc: 18,
    wiring: 8,
};

/// Sheet E on a board of the older part, with four banks.
pub const SHEET_E_OF_FOUR: Sheet = Sheet {
    wiring: 4,
    ..SHEET_E
};

/// The greatest clock period of either grade, in picoseconds.
pub const GREATEST_PERIOD: u32 = 8500;

/// The ranges of the five counts, in the order RBD, RWD, WRD, RSC, REFC.
pub const COUNT_RANGES: [(u32, u32); 5] = [(2, 7), (1, 7), (1, 7), (2, 15), (15, 63)];

/// The least REFC at CL 4, which is above the least of its range.
pub const LEAST_REFC_AT_CL_4: u32 = 18;

/// The maker's table of least periods; none for a grade or CL that the table does not have.
pub fn least_period(grade: u32, cl: u32) -> Option<u32> {
    match (grade, cl) {
        (37, 3) => Some(5500),
        (37, 4) => Some(4500),
        (37, 5) => Some(3750),
        (50, 3) => Some(6000),
        (50, 4) => Some(5500),
        (50, 5) => Some(5000),
        _ => None,
    }
}

impl Sheet {
    /// A sheet from its numbers in the paper's order.
    pub fn from_numbers(n: [u32; NUMBERS]) -> Sheet {
        Sheet {
            grade: n[0],
            cl: n[1],
            bl: n[2],
            org: n[3],
            period: n[4],
            rbd: n[5],
            rwd: n[6],
            wrd: n[7],
            rsc: n[8],
            refc: n[9],
            wiring: n[10],
        }
    }

    /// A sheet stored without its wiring, which means eight banks.
    pub fn of_eight(n: [u32; WITHOUT_WIRING]) -> Sheet {
        let mut numbers = [8; NUMBERS];
        numbers[..WITHOUT_WIRING].copy_from_slice(&n);
        Sheet::from_numbers(numbers)
    }

    /// The numbers in the paper's order.
    pub fn numbers(&self) -> [u32; NUMBERS] {
        [
            self.grade,
            self.cl,
            self.bl,
            self.org,
            self.period,
            self.rbd,
            self.rwd,
            self.wrd,
            self.rsc,
            self.refc,
            self.wiring,
        ]
    }

    /// The numbers but for the wiring.
    pub fn without_wiring(&self) -> [u32; WITHOUT_WIRING] {
        self.numbers()[..WITHOUT_WIRING].try_into().unwrap()
    }

    /// The sheet with another value of the number at a place.
    pub fn with(&self, place: usize, value: u32) -> Sheet {
        let mut numbers = self.numbers();
        numbers[place] = value;
        Sheet::from_numbers(numbers)
    }

    /// The five counts of clocks in the paper's order.
    pub fn counts(&self) -> [u32; 5] {
        [self.rbd, self.rwd, self.wrd, self.rsc, self.refc]
    }

    /// Whether grade, CL, BL and organisation are among those there are.
    fn part_fits(&self) -> bool {
        let grade_fits = self.grade == 37 || self.grade == 50;
        let cl_fits = self.cl == 3 || self.cl == 4 || self.cl == 5;
        let bl_fits = self.bl == 2 || self.bl == 4;
        let org_fits = self.org == 16 || self.org == 8;
        grade_fits && cl_fits && bl_fits && org_fits
    }

    /// Whether there is such a wiring.
    fn wiring_fits(&self) -> bool {
        self.wiring == 4 || self.wiring == 8
    }

    /// Whether the period is in its range; a grade or CL outside the table has no least one.
    fn period_fits(&self) -> bool {
        let least = least_period(self.grade, self.cl).unwrap_or(0);
        self.period >= least && self.period <= GREATEST_PERIOD
    }

    /// Whether each count is in its range.
    fn counts_fit(&self) -> bool {
        let mut ranged = self.counts().into_iter().zip(COUNT_RANGES);
        ranged.all(|(count, (low, high))| count >= low && count <= high)
    }

    /// Whether REFC is below what CL 4 asks for.
    fn refresh_short(&self) -> bool {
        self.cl == 4 && self.refc < LEAST_REFC_AT_CL_4
    }

    /// The sheet's own refusals that stand, in the order in which they are tried: 20 grade, CL, BL
    /// or organisation; 34 wiring; 21 period; 22 a count; 33 a REFC too short at CL 4.
    pub fn refusals(&self) -> impl Iterator<Item = u32> {
        let grounds = [
            (!self.part_fits(), 20),
            (!self.wiring_fits(), 34),
            (!self.period_fits(), 21),
            (!self.counts_fit(), 22),
            (self.refresh_short(), 33),
        ];
        let standing = grounds.into_iter().filter(|(stands, _)| *stands);
        standing.map(|(_, number)| number)
    }

    /// The sheet's own refusal, the first that stands.
    pub fn refusal(&self) -> Option<u32> {
        self.refusals().next()
    }

    /// RC, the spacing of two reads or writes of one bank. Of accepted sheets only, as all below.
    pub fn rc(&self) -> u32 {
        match self.cl {
            3 | 4 => 5,
            _ => 6,
        }
    }

    /// WL, the write latency.
    pub fn wl(&self) -> u32 {
        self.cl - 1
    }

    /// D, the greatest number of clocks from one REF word to the next, on the average over eight.
    pub fn d(&self) -> u32 {
        3_900_000 / self.period
    }

    /// W, the least number of clocks over eight refresh intervals.
    pub fn w(&self) -> u32 {
        3_200_000 / self.period + 1
    }

    /// S, the longest spacing between two reads or writes.
    pub fn s(&self) -> u32 {
        self.rc().max(self.rbd).max(self.rwd + 1).max(self.wrd + 1)
    }
}
