//! Talks with the program `daybook` line by line: `talk PROGRAM LINES ANSWERS`.
//! Each line of the file LINES is sent once the line before it has its answer, so that one which is held back is missed.
//! Then the input ends, and the rest of the file ANSWERS has to follow.

use std::error::Error;
use std::fs;
use std::io::{BufRead, BufReader, Write};
use std::process::{Child, ChildStdin, ChildStdout, Command, ExitCode, Stdio};
use std::sync::mpsc::{self, Receiver, RecvTimeoutError};
use std::thread;
use std::time::{Duration, Instant};

/// The whole talk may last so long.
const LIMIT: Duration = Duration::from_secs(10);

/// What came from the program in place of a line.
enum Missed {
    Late,
    Ended,
}

struct Talk {
    program: Child,
    input: Option<ChildStdin>,
    answers: Receiver<String>,
    end: Instant,
}

impl Talk {
    fn start(program: &str) -> Result<Self, Box<dyn Error>> {
        let mut program = Command::new(program).stdin(Stdio::piped()).stdout(Stdio::piped()).spawn()?;
        let input = program.stdin.take();
        let output = program.stdout.take().ok_or("the program has no output")?;
        Ok(Talk { program, input, answers: lines_of(output), end: Instant::now() + LIMIT })
    }

    fn send(&mut self, line: &str) -> Result<(), Box<dyn Error>> {
        let input = self.input.as_mut().ok_or("the program has no input")?;
        writeln!(input, "{line}").map_err(|error| format!("it could not be sent: {error}"))?;
        Ok(())
    }

    fn answer(&self) -> Result<String, Missed> {
        let left = self.end.saturating_duration_since(Instant::now());
        self.answers.recv_timeout(left).map_err(|error| match error {
            RecvTimeoutError::Timeout => Missed::Late,
            RecvTimeoutError::Disconnected => Missed::Ended,
        })
    }

    /// The next line of the program has to be the one that is wanted.
    fn expect(&self, wanted: &str) -> Result<(), Box<dyn Error>> {
        match self.answer() {
            Ok(found) if found == wanted => Ok(()),
            Ok(found) => Err(format!("{found} came in place of {wanted}").into()),
            Err(Missed::Late) => Err(format!("{wanted} did not come within {LIMIT:?}").into()),
            Err(Missed::Ended) => Err(format!("the output ended before {wanted}").into()),
        }
    }

    /// The output has to end, and the program well.
    fn finish(&mut self) -> Result<(), Box<dyn Error>> {
        match self.answer() {
            Ok(found) => return Err(format!("{found} came behind the end").into()),
            Err(Missed::Late) => return Err(format!("the output did not end within {LIMIT:?}").into()),
            Err(Missed::Ended) => {}
        }
        while Instant::now() < self.end {
            if let Some(status) = self.program.try_wait()? {
                return if status.success() {
                    Ok(())
                } else {
                    Err(format!("it ended with {status}").into())
                };
            }
            thread::sleep(Duration::from_millis(5));
        }
        Err(format!("it did not end within {LIMIT:?}").into())
    }

    fn run(&mut self, lines: &str, answers: &str) -> Result<(), Box<dyn Error>> {
        let mut answers = answers.lines();
        for (k, line) in lines.lines().enumerate() {
            let wanted = answers.next().ok_or("there are fewer answers than lines")?;
            let answered = self.send(line).and_then(|()| self.expect(wanted));
            answered.map_err(|error| format!("line {}, {line}: {error}", k + 1))?;
        }
        self.input = None;
        for wanted in answers {
            self.expect(wanted).map_err(|error| format!("at the end of the input: {error}"))?;
        }
        self.finish()
    }
}

impl Drop for Talk {
    /// A program that is still waiting is not left behind.
    fn drop(&mut self) {
        self.input = None;
        let _ = self.program.kill();
        let _ = self.program.wait();
    }
}

/// The lines of the output as they come: they are read apart, so that waiting for one can end.
fn lines_of(output: ChildStdout) -> Receiver<String> {
    let (sender, receiver) = mpsc::channel();
    thread::spawn(move || {
        for line in BufReader::new(output).lines() {
            let Ok(line) = line else { break };
            if sender.send(line).is_err() {
                break;
            }
        }
    });
    receiver
}

fn talk(words: &[String]) -> Result<(), Box<dyn Error>> {
    let [program, lines, answers] = words else {
        return Err("usage: talk PROGRAM LINES ANSWERS".into());
    };
    let (lines, answers) = (fs::read_to_string(lines)?, fs::read_to_string(answers)?);
    Talk::start(program)?.run(&lines, &answers)?;
    println!("{} lines answered one by one", lines.lines().count());
    Ok(())
}

fn main() -> ExitCode {
    let words: Vec<String> = std::env::args().skip(1).collect();
    match talk(&words) {
        Ok(()) => ExitCode::SUCCESS,
        Err(error) => {
            eprintln!("talk: {error}");
            ExitCode::FAILURE
        }
    }
}
