//! From the lines of a day to its answers and statements.

mod book;
mod call;
mod fault;
mod form;
mod input;
mod key;
mod opening;
mod output;
mod posting;
mod station;
mod tariff;

pub use fault::Fault;

use book::Book;
use form::Form;
use input::Lines;
use output::Output;
use std::io::{self, Read, Write};

/// The largest number of bytes of a line.
const LINE_BYTES: usize = 1024;

/// The book, once it is open, and the form of the line in hand.
struct Daybook {
    book: Option<Book>,
    form: Form,
}

impl Daybook {
    /// The first line opens the book; each later line is a call.
    fn take(&mut self, line: &[u8]) -> Result<(), Fault> {
        match &mut self.book {
            Some(book) => book.apply(call::read_call(&mut self.form, line)?),
            None => {
                let opening = call::read_opening(&mut self.form, line)?;
                self.book = Some(Book::open(&opening)?);
                Ok(())
            }
        }
    }
}

/// Reads a day from `input` and writes its answers and statements to `output`.
/// `seen` is told what became of each line.
pub fn run(input: impl Read, output: impl Write, mut seen: impl FnMut(Result<(), Fault>)) -> io::Result<()> {
    let mut lines = Lines::new(input);
    let mut output = Output::new(output);
    let mut daybook = Daybook { book: None, form: Form::new() };
    loop {
        while let Some(line) = lines.next() {
            let answer = daybook.take(line);
            seen(answer);
            output.answer(answer)?;
            if daybook.book.is_none() {
                return output.flush();
            }
        }
        if lines.over() {
            break;
        }
        output.flush()?;
        lines.fill()?;
    }
    if let Some(book) = &daybook.book {
        book.statements().try_for_each(|statement| output.statement(&statement))?;
    }
    output.flush()
}
