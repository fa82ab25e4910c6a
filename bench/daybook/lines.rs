//! Writes a day of 1,000,000 lines, the same each time: four stations of eight generators, from the
//! first schedule to the last draw, with refused calls and damaged lines among the others.

#[allow(dead_code)]
#[path = "../../check/days/random.rs"]
mod random;

use random::Random;
use std::io::{self, BufWriter, Write, stdout};
use std::process::ExitCode;

const STATIONS: u64 = 4;
const GENERATORS: u64 = 32;
const LINES: usize = 1_000_000;

/// What the stations do at a time, and for how many lines.
#[derive(Clone, Copy)]
enum Time {
    Filing,
    Running,
    Metering,
    Settled,
}

const TIMES: [(Time, usize); 4] =
    [(Time::Filing, 250_000), (Time::Running, 100_000), (Time::Metering, 400_000), (Time::Settled, 250_000)];

struct Maker<W> {
    random: Random,
    out: W,
    written: usize,
}

impl<W: Write> Maker<W> {
    fn day(&mut self) -> io::Result<()> {
        let installed: Vec<String> =
            (0..GENERATORS).map(|generator| (2000 + 100 * generator).to_string()).collect();
        self.line(&format!("(open (0 1 0 1) (8 8 8 8) ({}))", installed.join(" ")))?;
        let mut end = 0;
        for (time, lines) in TIMES {
            end += lines;
            self.begin(time)?;
            while self.written < end {
                let line = self.call(time);
                let line = if self.random.percent(3) { self.damaged(line) } else { line };
                self.line(&line)?;
            }
        }
        self.out.flush()
    }

    fn line(&mut self, line: &str) -> io::Result<()> {
        self.written += 1;
        writeln!(self.out, "{line}")
    }

    /// Takes all stations to the phase of this time.
    fn begin(&mut self, time: Time) -> io::Result<()> {
        for station in 0..STATIONS {
            match time {
                Time::Filing => {}
                Time::Running => {
                    self.line(&format!("(file {station} 0 95 14000)"))?;
                    self.line(&format!("(issue {station})"))?;
                }
                Time::Metering => self.line(&format!("(close {station})"))?,
                Time::Settled => {
                    for member in 0..8 {
                        self.line(&format!("(read {} 0 95 {})", 8 * station + member, 1500 + 70 * member))?;
                    }
                    self.line(&format!("(settle {station})"))?;
                }
            }
        }
        Ok(())
    }

    fn call(&mut self, time: Time) -> String {
        match (time, self.random.below(100)) {
            (_, 0..8) => self.any_call(),
            (Time::Filing, 8..50) => self.file(),
            (Time::Filing, _) => self.on_blocks("declare", 2000),
            (Time::Running, 8..30) => self.revise(),
            (Time::Running, _) => self.on_blocks("declare", 2000),
            (Time::Metering, 8..12) => format!("(settle {})", self.station()),
            (Time::Metering, _) => self.on_blocks("read", 4000),
            (Time::Settled, 8..9) => self.correct(),
            (Time::Settled, 9..60) => self.money("pay", 2_000_000),
            (Time::Settled, _) => self.money("draw", 2_500_000),
        }
    }

    /// A call of any kind, most of which are refused in this phase.
    fn any_call(&mut self) -> String {
        match self.random.below(10) {
            0 => self.file(),
            1 => self.on_blocks("declare", 2000),
            2 => format!("(issue {})", 4 + self.station()),
            3 => self.revise(),
            4 => format!("(close {})", 4 + self.station()),
            5 => self.on_blocks("read", 210_000),
            6 => format!("(settle {})", 4 + self.station()),
            7 => format!("(correct {} 96 0)", self.generator()),
            8 => self.money("pay", 2_000_000_000_000),
            _ => self.money("draw", 2_000_000_000_000),
        }
    }

    /// The last block is filed by `begin`, so that no station is issued before its time.
    fn file(&mut self) -> String {
        let from = self.random.within(0, 94);
        format!(
            "(file {} {from} {} {})",
            self.station(),
            self.random.within(from, 94),
            self.random.within(0, 20_000)
        )
    }

    /// The last block is left to `begin`, so that no station is settled before its time.
    fn on_blocks(&mut self, head: &str, most: u64) -> String {
        let from = self.random.within(0, 94);
        let to = if self.random.percent(60) { from } else { self.random.within(from, 94) };
        format!("({head} {} {from} {to} {})", self.generator(), self.random.within(0, most))
    }

    fn revise(&mut self) -> String {
        let notice = self.random.within(22, 75);
        let values: Vec<String> =
            (notice + 3..96).map(|_| self.random.within(9000, 19_000).to_string()).collect();
        format!("(revise {} {} {notice} ({}))", self.station(), self.random.within(1, 6), values.join(" "))
    }

    fn correct(&mut self) -> String {
        format!(
            "(correct {} {} {})",
            self.generator(),
            self.random.within(0, 95),
            self.random.within(0, 3000)
        )
    }

    fn money(&mut self, head: &str, most: u64) -> String {
        format!("({head} {} {})", self.station(), self.random.within(1, most))
    }

    fn station(&mut self) -> u64 {
        self.random.within(0, STATIONS - 1)
    }

    fn generator(&mut self) -> u64 {
        self.random.within(0, GENERATORS - 1)
    }

    fn damaged(&mut self, mut line: String) -> String {
        let place = self.random.below(line.len());
        match self.random.below(6) {
            0 => line.truncate(place),
            1 => drop(line.remove(place)),
            2 => line.insert(place, ' '),
            3 => line.insert_str(1, "re"),
            4 => line.insert_str(line.len() - 1, " 7"),
            _ => line.insert(place, '0'),
        }
        line
    }
}

fn main() -> ExitCode {
    assert_eq!(TIMES.iter().map(|(_, lines)| lines).sum::<usize>(), LINES);
    let mut maker = Maker { random: Random::new(1, 0), out: BufWriter::new(stdout().lock()), written: 0 };
    match maker.day() {
        Ok(()) => ExitCode::SUCCESS,
        Err(error) => {
            eprintln!("lines: {error}");
            ExitCode::FAILURE
        }
    }
}
