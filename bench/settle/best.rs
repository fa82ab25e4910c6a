//! The quickest plain Rust for posting a day that we know: generator by generator, and of each block's divisions,
//! which are all by the same number, each a multiplication.
use crate::plain::{Load, Pages, STATION_KW, charge, run_by, weight};
use crate::{BLOCKS, Day, Outcome};

/// A number by which others are divided again and again.
#[derive(Clone, Copy, Default)]
struct Divisor {
    by: u64,
    /// 2^64 / `by`, at most one too small.
    inverse: u64,
}

impl Divisor {
    fn new(by: u64) -> Divisor {
        Divisor { by, inverse: u64::MAX / by }
    }

    /// `n / by`, rounded down: the guess is right or one too small.
    fn quotient(self, n: u64) -> u64 {
        let guess = ((u128::from(n) * u128::from(self.inverse)) >> 64) as u64;
        guess + u64::from(n - guess * self.by >= self.by)
    }
}

/// An amount that is split over weights one after another.
#[derive(Clone, Copy, Default)]
struct Split {
    magnitude: u64,
    sign: i64,
    /// What the weights so far get together.
    part: u64,
}

impl Split {
    fn new(amount: i64) -> Split {
        Split { magnitude: amount.unsigned_abs(), sign: amount.signum(), part: 0 }
    }

    /// What the weight gets with which the weights so far come to `sum`.
    fn share(&mut self, sum: u64, total: Divisor) -> i64 {
        let part = total.quotient(self.magnitude * sum);
        let share = part - self.part;
        self.part = part;
        self.sign * share as i64
    }
}

/// What is split in a block.
#[derive(Clone, Copy, Default)]
struct Block {
    station: Load,
    total: Divisor,
    sum: u64,
    money: Split,
    energy: Split,
}

/// Posts a station's day to its generators' accounts, and answers its charges.
fn post(pages: &mut Pages, t: usize, first: usize, count: usize) -> i64 {
    let mut blocks = [Block::default(); BLOCKS];
    for generator in first..first + count {
        for (block, of) in blocks.iter_mut().enumerate() {
            let load = pages.load(generator, block);
            of.station.actual += load.actual;
            of.station.capacity += load.capacity;
            of.station.installed += load.installed;
        }
    }
    let mut charges = 0;
    for (block, of) in blocks.iter_mut().enumerate() {
        let schedule = pages.schedules[BLOCKS * t + block].min(STATION_KW);
        let deviation = i64::from(of.station.actual) - i64::from(schedule);
        let owed = charge(deviation, of.station.capacity);
        // Each weight is the generator's part of one of the three sums, so their sum is that sum.
        of.total = Divisor::new(u64::from(weight(&of.station, &of.station)));
        of.money = Split::new(owed);
        of.energy = Split::new(deviation);
        charges += owed;
    }
    for generator in first..first + count {
        let mut money = 0;
        let mut energy = 0;
        for (block, of) in blocks.iter_mut().enumerate() {
            of.sum += u64::from(weight(&pages.load(generator, block), &of.station));
            money += of.money.share(of.sum, of.total);
            energy += of.energy.share(of.sum, of.total);
        }
        pages.account(generator, money, energy);
    }
    charges
}

/// Opens `books` books, settles each where `settle` says so, and reports the last.
pub fn run(day: &Day, books: usize, settle: bool) -> Outcome {
    run_by(post, day, books, settle)
}
