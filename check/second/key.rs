//! The units key, and the split of an amount among a station's generators.

/// Actual, capacity and installed power of a generator in a block, or their sums over a station.
#[derive(Clone, Copy, Default)]
pub struct Load {
    pub actual: u64,
    pub capacity: u64,
    pub installed: u64,
}

impl Load {
    pub fn add(&mut self, other: Load) {
        self.actual += other.actual;
        self.capacity += other.capacity;
        self.installed += other.installed;
    }
}

/// Which of its three numbers is a generator's weight. The station's sums decide.
#[derive(Clone, Copy)]
pub enum Basis {
    Actual,
    Capacity,
    Installed,
}

impl Basis {
    pub fn of(station: Load) -> Self {
        match station {
            Load { actual: 1.., .. } => Basis::Actual,
            Load { capacity: 1.., .. } => Basis::Capacity,
            _ => Basis::Installed,
        }
    }

    pub fn weight(self, load: Load) -> u64 {
        match self {
            Basis::Actual => load.actual,
            Basis::Capacity => load.capacity,
            Basis::Installed => load.installed,
        }
    }
}

/// An amount that is split in generator order, by weights that add up to `all`.
pub struct Split {
    magnitude: u64,
    negative: bool,
    all: u64,
    given: u64,
}

impl Split {
    pub fn new(amount: i64, all: u64) -> Self {
        Split { magnitude: amount.unsigned_abs(), negative: amount < 0, all, given: 0 }
    }

    /// The share of the next generator; `so_far` is the weight of all up to it and with it.
    pub fn share(&mut self, so_far: u64) -> i64 {
        if self.magnitude == 0 {
            return 0;
        }
        // At most 38 x 6,400,000 paise times 6,400,000 kW, far below 2^63.
        let together = self.magnitude * so_far / self.all;
        let share = (together - self.given) as i64;
        self.given = together;
        if self.negative { -share } else { share }
    }
}
