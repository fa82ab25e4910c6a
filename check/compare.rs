//! Compares the program `daybook` with the second one: `compare PROGRAM SEED COUNT FOLDER`.
//! Both are given the same random days, and have to write the same bytes and end with the same status.
//! At the first difference the day and both outputs are left in FOLDER.

mod days;
mod second;

use second::Fault;
use std::collections::BTreeMap;
use std::error::Error;
use std::fs;
use std::io::{self, Write};
use std::path::{Path, PathBuf};
use std::process::{ChildStdin, Command, ExitCode, Stdio};
use std::thread;

/// So many days have to meet every refusal.
const ENOUGH_DAYS: u64 = 5000;

/// Every refusal that lines can meet, and where or of what kind if one number has several.
/// Number 22 is not among them: under the banded tariff no charge is below zero, so what a station may
/// draw is at most what it has paid and not drawn again, and the cash is the sum of that over all stations.
const REFUSALS: [(u64, &str); 26] = [
    (1, ""),
    (2, ""),
    (3, ""),
    (4, ""),
    (5, ""),
    (7, "call"),
    (7, "opening"),
    (8, "call"),
    (8, "opening"),
    (9, "call"),
    (9, "opening"),
    (10, "call"),
    (10, "opening"),
    (11, ""),
    (12, ""),
    (13, "blocks"),
    (13, "notice"),
    (14, ""),
    (15, ""),
    (16, ""),
    (17, ""),
    (18, "reading"),
    (18, "schedule"),
    (19, ""),
    (20, ""),
    (21, ""),
];

#[derive(Default)]
struct Tally {
    days: u64,
    lines: u64,
    accepted: u64,
    refused: BTreeMap<(u64, &'static str), u64>,
}

impl Tally {
    fn count(&mut self, answer: Result<(), Fault>, is_opening: bool) {
        self.lines += 1;
        match answer {
            Ok(()) => self.accepted += 1,
            Err(fault) => {
                *self.refused.entry((fault.refusal().number, kind(fault, is_opening))).or_default() += 1
            }
        }
    }

    fn print(&self) {
        println!(
            "{} days the same, with {} answered lines, {} of them accepted",
            self.days, self.lines, self.accepted
        );
        for ((number, kind), count) in &self.refused {
            println!("refusal {number:>2} {kind:<8} {count:>7}");
        }
    }

    /// The refusals that no line met.
    fn unmet(&self) -> Vec<String> {
        let unmet = REFUSALS.iter().filter(|refusal| !self.refused.contains_key(refusal));
        unmet.map(|(number, kind)| format!("{number} {kind}").trim_end().to_string()).collect()
    }
}

fn kind(fault: Fault, is_opening: bool) -> &'static str {
    match fault {
        Fault::LongLine { .. } | Fault::NotForm { .. } | Fault::UnknownHead | Fault::BadArgument { .. } => {
            if is_opening {
                "opening"
            } else {
                "call"
            }
        }
        Fault::BadBlocks { .. } => "blocks",
        Fault::BadNotice { .. } => "notice",
        Fault::Unfiled { .. } => "schedule",
        Fault::MissingReading { .. } => "reading",
        _ => "",
    }
}

/// What a program wrote, and whether it ended with status 0.
#[derive(PartialEq, Eq)]
struct Outcome {
    output: Vec<u8>,
    status: Option<i32>,
}

struct Comparison {
    program: PathBuf,
    seed: u64,
    count: u64,
    folder: PathBuf,
}

impl Comparison {
    fn from_words(mut words: impl Iterator<Item = String>) -> Result<Self, Box<dyn Error>> {
        let mut next = || words.next().ok_or("usage: compare PROGRAM SEED COUNT FOLDER");
        let (program, seed, count, folder) = (next()?, next()?, next()?, next()?);
        Ok(Comparison {
            program: program.into(),
            seed: seed.parse()?,
            count: count.parse()?,
            folder: folder.into(),
        })
    }

    /// Compares day after day. Answers whether all went well.
    fn run(&self) -> Result<bool, Box<dyn Error>> {
        let mut tally = Tally::default();
        for number in 0..self.count {
            let day = days::day(self.seed, number);
            let wanted = second_outcome(&day, &mut tally)?;
            let found = outcome(&self.program, &day, piece(number))?;
            if found != wanted {
                self.save(number, &day, &found, &wanted)?;
                return Ok(false);
            }
            tally.days += 1;
        }
        tally.print();
        let unmet = tally.unmet();
        if !unmet.is_empty() {
            println!("no line met these refusals: {}", unmet.join(", "));
        }
        Ok(unmet.is_empty() || self.count < ENOUGH_DAYS)
    }

    fn save(&self, number: u64, day: &[u8], found: &Outcome, wanted: &Outcome) -> io::Result<()> {
        fs::create_dir_all(&self.folder)?;
        let file = |what: &str| self.folder.join(format!("day-{}-{number}.{what}", self.seed));
        fs::write(file("lines"), day)?;
        fs::write(file("daybook"), &found.output)?;
        fs::write(file("second"), &wanted.output)?;
        println!("day {number} of seed {} differs", self.seed);
        println!("  the day:      {}", file("lines").display());
        println!("  daybook:      {} (status {:?})", file("daybook").display(), found.status);
        println!("  second:       {} (status {:?})", file("second").display(), wanted.status);
        if let Some(line) = first_difference(&found.output, &wanted.output) {
            println!("  first difference in line {line} of the outputs");
        }
        Ok(())
    }
}

fn first_difference(one: &[u8], other: &[u8]) -> Option<usize> {
    if one == other {
        return None;
    }
    let same = one.iter().zip(other).take_while(|(one, other)| one == other).count();
    Some(1 + one[..same].iter().filter(|&&byte| byte == b'\n').count())
}

fn second_outcome(day: &[u8], tally: &mut Tally) -> io::Result<Outcome> {
    let mut output = Vec::new();
    let mut is_opening = true;
    second::run(day, &mut output, |answer| {
        tally.count(answer, is_opening);
        is_opening = false;
    })?;
    Ok(Outcome { output, status: Some(0) })
}

/// Of every eight days two are handed over in small pieces.
fn piece(number: u64) -> usize {
    match number % 8 {
        0 => 61,
        1 => 1025,
        _ => usize::MAX,
    }
}

fn outcome(program: &Path, day: &[u8], piece: usize) -> io::Result<Outcome> {
    let mut child = Command::new(program).stdin(Stdio::piped()).stdout(Stdio::piped()).spawn()?;
    let input = child.stdin.take();
    let output = thread::scope(|scope| {
        scope.spawn(move || feed(input, day, piece));
        child.wait_with_output()
    })?;
    Ok(Outcome { output: output.stdout, status: output.status.code() })
}

/// Hands the day over. A program whose opening is refused ends before it has taken all of it.
fn feed(input: Option<ChildStdin>, day: &[u8], piece: usize) {
    let Some(mut input) = input else { return };
    for piece in day.chunks(piece) {
        if input.write_all(piece).is_err() {
            break;
        }
    }
}

fn main() -> ExitCode {
    let done = Comparison::from_words(std::env::args().skip(1)).and_then(|comparison| comparison.run());
    match done {
        Ok(true) => ExitCode::SUCCESS,
        Ok(false) => ExitCode::FAILURE,
        Err(error) => {
            eprintln!("compare: {error}");
            ExitCode::FAILURE
        }
    }
}
