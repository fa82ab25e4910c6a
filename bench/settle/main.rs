//! Times settling full books: the proved library, linked as `libsettle_bench.a`, and plain Rust in two ways, on the same data.
mod best;
mod plain;
mod proved;

use std::hint::black_box;
use std::process::ExitCode;
use std::time::Instant;

const BLOCKS: usize = 96;
const STATIONS: usize = 16;
const STATION_GENERATORS: usize = 32;
const GENERATORS: usize = STATIONS * STATION_GENERATORS;

/// Days on which the outcomes are compared.
const DAYS: u64 = 200;
/// Books that are settled in one measured run.
const BOOKS: usize = 200;
/// How often each side is measured, in turn with the other.
const TURNS: usize = 15;
/// How many times the time of plain Rust the library may take.
const ALLOWED: f64 = 1.0;
/// How many times the time of plain Rust, and of the quickest that we know, it is to take at most.
const AIM_OF_PLAIN: f64 = 0.75;
const AIM_OF_BEST: f64 = 1.7;

/// A day's numbers: 96 schedules a station, 96 capacities and readings a generator.
pub struct Day {
    pub installed: Vec<u32>,
    pub schedules: Vec<u32>,
    pub capacities: Vec<u32>,
    pub readings: Vec<u32>,
}

/// What a generator gets of a day: of the charges, in paise, and of the deviations.
#[repr(C)]
#[derive(Clone, Copy, Debug, Default, PartialEq, Eq)]
pub struct Shares {
    pub money: i64,
    pub energy: i64,
}

/// What the stations owe, and what the generators got.
#[derive(Debug, PartialEq, Eq)]
pub struct Outcome {
    pub dues: Vec<i64>,
    pub shares: Vec<Shares>,
}

/// A linear congruential generator, of which the upper bits are used.
struct Numbers(u64);

impl Numbers {
    /// A number from `low` to `high`.
    fn within(&mut self, low: u32, high: u32) -> u32 {
        self.0 = self.0.wrapping_mul(6364136223846793005).wrapping_add(1442695040888963407);
        low + (self.0 >> 33) as u32 % (high - low + 1)
    }
}

impl Day {
    /// A day of a full book. In some blocks a station delivers nothing, and in some of these it has no
    /// capacity either. Numbers lie beyond what is allowed by `excess` at most.
    fn of_seed(seed: u64, excess: u32) -> Day {
        let mut numbers = Numbers(seed);
        let station_blocks = STATIONS * BLOCKS;
        let schedules = (0..station_blocks).map(|_| numbers.within(0, 6_400_000 + excess)).collect();
        let states: Vec<u32> = (0..station_blocks).map(|_| numbers.within(0, 19)).collect();
        let installed: Vec<u32> = (0..GENERATORS).map(|_| numbers.within(1_000, 200_000)).collect();
        let mut capacities = Vec::new();
        let mut readings = Vec::new();
        for (generator, power) in installed.iter().enumerate() {
            for block in 0..BLOCKS {
                let capacity = numbers.within(power / 2, power + excess);
                let reading = numbers.within(0, 200_000 + excess);
                let state = states[BLOCKS * (generator / STATION_GENERATORS) + block];
                capacities.push(if state < 1 { 0 } else { capacity });
                readings.push(if state < 2 { 0 } else { reading });
            }
        }
        Day { installed, schedules, capacities, readings }
    }
}

type Run = fn(&Day, usize, bool) -> Outcome;

/// How many microseconds a run takes for each of its books.
fn time(run: Run, day: &Day, settle: bool) -> f64 {
    let start = Instant::now();
    black_box(run(black_box(day), BOOKS, settle));
    start.elapsed().as_secs_f64() * 1e6 / BOOKS as f64
}

/// The times of one side, a book each, in microseconds.
#[derive(Default)]
struct Times {
    /// Opening and settling.
    whole: Vec<f64>,
    /// Settling alone: the whole less a run that only opens.
    settling: Vec<f64>,
}

impl Times {
    fn measure(&mut self, run: Run, day: &Day) {
        let opening = time(run, day, false);
        let whole = time(run, day, true);
        self.whole.push(whole);
        self.settling.push(whole - opening);
    }
}

fn least(times: &[f64]) -> f64 {
    times.iter().copied().fold(f64::INFINITY, f64::min)
}

fn median(times: &[f64]) -> f64 {
    let mut sorted = times.to_vec();
    sorted.sort_by(f64::total_cmp);
    sorted[sorted.len() / 2]
}

/// Prints what the library takes beside both ways of plain Rust, and answers how much longer than these it does.
fn compare_times(what: &str, plain: f64, best: f64, proved: f64) -> (f64, f64) {
    let (of_plain, of_best) = (proved / plain, proved / best);
    println!("{what}: proved library {proved:.1} us; plain Rust {plain:.1} us, ratio {of_plain:.2}; best {best:.1} us, ratio {of_best:.2}");
    (of_plain, of_best)
}

/// All come to the same dues and shares on every day, with and without numbers that are not allowed.
fn compare_outcomes() {
    for seed in 0..DAYS {
        let day = Day::of_seed(seed, if seed % 2 == 0 { 0 } else { 20_000 });
        let outcome = plain::run(&day, 1, true);
        assert_eq!(outcome, best::run(&day, 1, true), "seed {seed}");
        assert_eq!(outcome, proved::run(&day, 1, true), "seed {seed}");
    }
    println!("{DAYS} days: the same dues and shares by all three");
}

fn main() -> ExitCode {
    compare_outcomes();
    let day = Day::of_seed(DAYS, 0);
    let mut plain = Times::default();
    let mut best = Times::default();
    let mut proved = Times::default();
    for _ in 0..TURNS {
        plain.measure(plain::run, &day);
        best.measure(best::run, &day);
        proved.measure(proved::run, &day);
    }
    println!("a full book, {TURNS} turns of {BOOKS} books each:");
    let by = |of: fn(&Times) -> f64| (of(&plain), of(&best), of(&proved));
    let (p, b, l) = by(|times| median(&times.whole));
    compare_times("opening and settling, median", p, b, l);
    let (p, b, l) = by(|times| least(&times.settling));
    compare_times("settling, least", p, b, l);
    let (p, b, l) = by(|times| median(&times.settling));
    let (of_plain, of_best) = compare_times("settling, median", p, b, l);
    let reached = |ratio, aim| if ratio <= aim { "reached" } else { "not reached" };
    println!("aim of {AIM_OF_PLAIN} of plain Rust: {}", reached(of_plain, AIM_OF_PLAIN));
    println!("aim of {AIM_OF_BEST} of the best: {}", reached(of_best, AIM_OF_BEST));
    if of_plain <= ALLOWED { ExitCode::SUCCESS } else { ExitCode::FAILURE }
}
