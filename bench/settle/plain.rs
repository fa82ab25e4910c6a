//! The same task in plain Rust: bands from 10 percent, shares by units.
use crate::{BLOCKS, Day, GENERATORS, Outcome, STATION_GENERATORS, STATIONS, Shares};
use std::hint::black_box;

pub const STATION_KW: u32 = 6_400_000;
const GENERATOR_KW: u32 = 200_000;

#[derive(Clone, Copy)]
struct Account {
    installed: u32,
    money: i64,
    energy: i64,
}

impl Account {
    fn opened(installed: u32) -> Account {
        Account { installed, money: 0, energy: 0 }
    }
}

pub struct Pages {
    pub schedules: Vec<u32>,
    capacities: Vec<u32>,
    readings: Vec<Option<u32>>,
    accounts: Vec<Account>,
}

#[derive(Clone, Copy, PartialEq)]
enum Phase {
    Filing,
    Running,
    Metering,
    Settled,
}

#[derive(Clone, Copy)]
struct Station {
    phase: Phase,
    filed: u128,
    first: usize,
    count: usize,
    charges: i64,
}

struct Book {
    stations: Vec<Station>,
}

/// A generator, or a station in all, in one block.
#[derive(Clone, Copy, Default)]
pub struct Load {
    pub actual: u32,
    pub capacity: u32,
    pub installed: u32,
}

impl Pages {
    fn blank() -> Pages {
        Pages {
            schedules: vec![0; BLOCKS * STATIONS],
            capacities: vec![0; BLOCKS * GENERATORS],
            readings: vec![None; BLOCKS * GENERATORS],
            accounts: vec![Account::opened(0); GENERATORS],
        }
    }

    /// The pages as a day begins.
    fn begin(&mut self, installed: &[u32]) {
        self.schedules.fill(0);
        self.readings.fill(None);
        for (page, power) in self.capacities.chunks_exact_mut(BLOCKS).zip(installed) {
            page.fill(*power);
        }
        for (account, power) in self.accounts.iter_mut().zip(installed) {
            *account = Account::opened(*power);
        }
    }

    /// Pages that hold the day's numbers.
    fn of_day(day: &Day) -> Pages {
        Pages {
            schedules: day.schedules.clone(),
            capacities: day.capacities.clone(),
            readings: day.readings.iter().map(|kw| Some(*kw)).collect(),
            accounts: day.installed.iter().map(|power| Account::opened(*power)).collect(),
        }
    }

    /// Puts a day's sums into a generator's account.
    pub fn account(&mut self, generator: usize, money: i64, energy: i64) {
        let account = &mut self.accounts[generator];
        account.money = money;
        account.energy = energy;
    }

    pub fn load(&self, generator: usize, block: usize) -> Load {
        let at = BLOCKS * generator + block;
        let installed = self.accounts[generator].installed.clamp(1_000, 200_000);
        Load {
            actual: self.readings[at].unwrap_or(0).min(GENERATOR_KW),
            capacity: self.capacities[at].min(installed),
            installed,
        }
    }
}

/// The charge for a deviation, by bands that begin at 10, 20 and 30 percent of the capacity.
pub fn charge(deviation: i64, capacity: u32) -> i64 {
    let error = 100 * deviation.unsigned_abs();
    let capacity = u64::from(capacity);
    let part = |low: u64, high: u64| error.min(high).saturating_sub(low);
    let low = 50 * part(10 * capacity, 20 * capacity);
    let middle = 100 * part(20 * capacity, 30 * capacity);
    let high = 150 * error.saturating_sub(30 * capacity);
    ((low + middle + high + 200) / 400) as i64
}

/// A generator's weight: its actual, its capacity where nothing was delivered, its installed power where nothing was declared.
pub fn weight(own: &Load, station: &Load) -> u32 {
    if station.actual > 0 {
        own.actual
    } else if station.capacity > 0 {
        own.capacity
    } else {
        own.installed
    }
}

/// Adds each weight's share of the amount to its sum: the first shares together are rounded down.
fn split(amount: i64, weights: &[u32], total: u32, sums: &mut [i64]) {
    let magnitude = amount.unsigned_abs();
    let mut sum = 0;
    let mut before = 0;
    for (weight, into) in weights.iter().zip(sums) {
        sum += weight;
        let upto = magnitude * u64::from(sum) / u64::from(total);
        let share = (upto - before) as i64;
        *into += if amount < 0 { -share } else { share };
        before = upto;
    }
}

/// Posts a station's day to its generators' accounts, and answers its charges: of station `t`, whose `count` generators
/// stand from `first` on.
pub type Post = fn(pages: &mut Pages, t: usize, first: usize, count: usize) -> i64;

/// Block by block, with a division for each share.
fn post(pages: &mut Pages, t: usize, first: usize, count: usize) -> i64 {
    let mut charges = 0;
    let mut money = [0; STATION_GENERATORS];
    let mut energy = [0; STATION_GENERATORS];
    for block in 0..BLOCKS {
        let mut loads = [Load::default(); STATION_GENERATORS];
        let mut station = Load::default();
        for (k, load) in loads[..count].iter_mut().enumerate() {
            *load = pages.load(first + k, block);
            station.actual += load.actual;
            station.capacity += load.capacity;
            station.installed += load.installed;
        }
        let schedule = pages.schedules[BLOCKS * t + block].min(STATION_KW);
        let deviation = i64::from(station.actual) - i64::from(schedule);
        let owed = charge(deviation, station.capacity);
        let mut weights = [0; STATION_GENERATORS];
        for (into, load) in weights.iter_mut().zip(&loads[..count]) {
            *into = weight(load, &station);
        }
        let weights = &weights[..count];
        let total = weights.iter().sum();
        split(owed, weights, total, &mut money);
        split(deviation, weights, total, &mut energy);
        charges += owed;
    }
    for k in 0..count {
        pages.account(first + k, money[k], energy[k]);
    }
    charges
}

impl Book {
    fn open(pages: &mut Pages, installed: &[u32]) -> Book {
        pages.begin(installed);
        let station = |t| Station {
            phase: Phase::Filing,
            filed: 0,
            first: STATION_GENERATORS * t,
            count: STATION_GENERATORS,
            charges: 0,
        };
        Book { stations: (0..STATIONS).map(station).collect() }
    }

    fn file(&mut self, pages: &mut Pages, t: usize, kw: u32) {
        assert!(self.stations[t].phase == Phase::Filing);
        self.stations[t].filed = (1 << BLOCKS) - 1;
        pages.schedules[BLOCKS * t..BLOCKS * (t + 1)].fill(kw);
    }

    fn issue(&mut self, t: usize) {
        assert!(self.stations[t].phase == Phase::Filing);
        assert!(self.stations[t].filed == (1 << BLOCKS) - 1);
        self.stations[t].phase = Phase::Running;
    }

    fn close(&mut self, t: usize) {
        assert!(self.stations[t].phase == Phase::Running);
        self.stations[t].phase = Phase::Metering;
    }

    /// Every reading is there, and the station's day is posted.
    fn settle(&mut self, pages: &mut Pages, t: usize, post: Post) {
        let station = &mut self.stations[t];
        assert!(station.phase == Phase::Metering);
        let end = station.first + station.count;
        assert!(pages.readings[BLOCKS * station.first..BLOCKS * end].iter().all(Option::is_some));
        station.charges = post(pages, t, station.first, station.count);
        station.phase = Phase::Settled;
    }
}

/// Opens `books` books, settles each where `settle` says so, and reports the last.
pub fn run(day: &Day, books: usize, settle: bool) -> Outcome {
    run_by(post, day, books, settle)
}

/// The same, where a day is posted so.
pub fn run_by(post: Post, day: &Day, books: usize, settle: bool) -> Outcome {
    let mut blank = Pages::blank();
    let mut pages = Pages::of_day(day);
    let mut last = None;
    for _ in 0..books {
        let mut book = Book::open(&mut blank, &day.installed);
        for t in 0..STATIONS {
            book.file(&mut blank, t, 0);
            book.issue(t);
            book.close(t);
        }
        // The pages are written as the library writes them, though nothing reads them afterwards.
        black_box(&blank);
        if settle {
            for t in 0..STATIONS {
                book.settle(&mut pages, t, post);
            }
        }
        last = Some(book);
    }
    let shares = |account: &Account| Shares { money: account.money, energy: account.energy };
    Outcome {
        dues: last.expect("a book").stations.iter().map(|station| station.charges).collect(),
        shares: pages.accounts.iter().map(shares).collect(),
    }
}
