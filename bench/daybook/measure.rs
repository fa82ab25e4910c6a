//! Measures two programs on the same input: `measure TURNS INPUT LONG DAYBOOK SECOND`.
//! INPUT is the day that is timed, LONG an input with one line of 100 MB.
//! Ends with status 1 where `daybook` takes too much time beside the second program, or too much memory.

use std::error::Error;
use std::fs::File;
use std::path::{Path, PathBuf};
use std::process::{Command, ExitCode, Stdio};
use std::time::Duration;

const MOST_RATIO: f64 = 2.0;
const MOST_KILOBYTES: u64 = 4096;

/// What a finished process took: processor time, and memory at its peak.
#[derive(Clone, Copy)]
struct Usage {
    time: Duration,
    kilobytes: u64,
}

/// The system's report on a process that ended.
mod system {
    #[repr(C)]
    #[derive(Default)]
    pub struct Time {
        pub seconds: i64,
        pub microseconds: i64,
    }

    /// As Linux on 64 bits lays it out: what comes behind the memory is not of interest here.
    #[repr(C)]
    #[derive(Default)]
    pub struct Report {
        pub user: Time,
        pub system: Time,
        pub most_kilobytes: i64,
        pub others: [i64; 13],
    }

    unsafe extern "C" {
        /// Waits for a process: its number, where its status goes, options, where the report goes.
        pub safe fn wait4(process: i32, status: &mut i32, options: i32, report: &mut Report) -> i32;
    }
}

/// Runs a program on an input, without its output, and waits for its end.
fn usage(program: &Path, input: &Path) -> Result<Usage, Box<dyn Error>> {
    let child = Command::new(program).stdin(File::open(input)?).stdout(Stdio::null()).spawn()?;
    let process = i32::try_from(child.id())?;
    let mut status = 0;
    let mut report = system::Report::default();
    if system::wait4(process, &mut status, 0, &mut report) != process || status != 0 {
        return Err(format!("{} ended with status {status:#x}", program.display()).into());
    }
    Ok(Usage {
        time: length(&report.user)? + length(&report.system)?,
        kilobytes: report.most_kilobytes.try_into()?,
    })
}

fn length(time: &system::Time) -> Result<Duration, std::num::TryFromIntError> {
    Ok(Duration::from_secs(time.seconds.try_into()?) + Duration::from_micros(time.microseconds.try_into()?))
}

/// The median of the times, and the highest peak of memory.
fn summary(usages: &[Usage]) -> Usage {
    let mut times: Vec<Duration> = usages.iter().map(|usage| usage.time).collect();
    times.sort_unstable();
    Usage { time: times[times.len() / 2], kilobytes: peak(usages) }
}

fn peak(usages: &[Usage]) -> u64 {
    usages.iter().map(|usage| usage.kilobytes).max().unwrap_or(0)
}

struct Measurement {
    turns: usize,
    input: PathBuf,
    long: PathBuf,
    daybook: PathBuf,
    second: PathBuf,
}

impl Measurement {
    fn from_words(mut words: impl Iterator<Item = String>) -> Result<Self, Box<dyn Error>> {
        let mut next = || words.next().ok_or("usage: measure TURNS INPUT LONG DAYBOOK SECOND");
        let turns = next()?.parse::<usize>()?.max(1);
        let (input, long, daybook, second) = (next()?.into(), next()?.into(), next()?.into(), next()?.into());
        Ok(Measurement { turns, input, long, daybook, second })
    }

    /// Takes turns, prints what came out, and answers whether it is within the limits.
    fn run(&self) -> Result<bool, Box<dyn Error>> {
        let (mut daybook, mut second) = (Vec::new(), Vec::new());
        for _ in 0..self.turns {
            daybook.push(usage(&self.daybook, &self.input)?);
            second.push(usage(&self.second, &self.input)?);
        }
        let (daybook, second) = (summary(&daybook), summary(&second));
        let long = [&self.daybook, &self.second].map(|program| usage(program, &self.long));
        let [daybook_long, second_long] = long;
        let (daybook_long, second_long) = (daybook_long?, second_long?);
        let ratio = daybook.time.as_secs_f64() / second.time.as_secs_f64();
        println!("{:<32} {:>10} {:>10}", "", "daybook", "second");
        print("processor time, median of turns", "ms", [daybook.time.as_millis(), second.time.as_millis()]);
        print("peak memory", "kB", [daybook.kilobytes.into(), second.kilobytes.into()]);
        print(
            "long line: processor time",
            "ms",
            [daybook_long.time.as_millis(), second_long.time.as_millis()],
        );
        print("long line: peak memory", "kB", [daybook_long.kilobytes.into(), second_long.kilobytes.into()]);
        println!("ratio of the processor times {ratio:.2}, at most {MOST_RATIO:.2} is allowed");
        let most = daybook.kilobytes.max(daybook_long.kilobytes);
        println!("peak memory of daybook {most} kB, at most {MOST_KILOBYTES} kB is allowed");
        Ok(ratio <= MOST_RATIO && most <= MOST_KILOBYTES)
    }
}

fn print(what: &str, unit: &str, [daybook, second]: [u128; 2]) {
    println!("{what:<32} {daybook:>7} {unit} {second:>7} {unit}");
}

fn main() -> ExitCode {
    match Measurement::from_words(std::env::args().skip(1)).and_then(|measurement| measurement.run()) {
        Ok(true) => ExitCode::SUCCESS,
        Ok(false) => ExitCode::FAILURE,
        Err(error) => {
            eprintln!("measure: {error}");
            ExitCode::FAILURE
        }
    }
}
