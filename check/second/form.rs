//! The form of a line: a head word and its arguments.

use super::{Fault, LINE_BYTES};

const WORD_LETTERS: usize = 8;
const NUMBER_DIGITS: usize = 13;
const LIST_NUMBERS: usize = 96;

#[derive(Clone, Copy)]
enum Argument {
    Number(u64),
    /// A list is `values[from..to]` of its form.
    List {
        from: usize,
        to: usize,
    },
}

/// The arguments of the line that was read last. Its memory serves every line.
pub struct Form {
    arguments: Vec<Argument>,
    values: Vec<u64>,
}

impl Form {
    pub fn new() -> Self {
        Form { arguments: Vec::new(), values: Vec::new() }
    }

    /// Reads a line as a form: its head and its arguments.
    pub fn read<'a>(&'a mut self, line: &'a [u8]) -> Result<(&'a [u8], Arguments<'a>), Fault> {
        if line.len() > LINE_BYTES {
            return Err(Fault::LongLine { length: line.len() as u64 });
        }
        self.arguments.clear();
        self.values.clear();
        let mut cursor = Cursor { line, place: 0 };
        match self.parse(&mut cursor) {
            Some(head) if cursor.place == line.len() => {
                Ok((head, Arguments { arguments: &self.arguments, values: &self.values, taken: 0 }))
            }
            _ => Err(Fault::NotForm { start: cursor.place as u64 }),
        }
    }

    /// Where this answers `None`, the bytes before the cursor are the longest start of a form.
    fn parse<'a>(&mut self, cursor: &mut Cursor<'a>) -> Option<&'a [u8]> {
        cursor.pass(b'(')?;
        let head = cursor.word()?;
        while cursor.pass(b' ').is_some() {
            let argument = match cursor.pass(b'(') {
                Some(()) => self.list(cursor)?,
                None => Argument::Number(cursor.number()?),
            };
            self.arguments.push(argument);
        }
        cursor.pass(b')')?;
        Some(head)
    }

    /// A list behind its opening parenthesis.
    fn list(&mut self, cursor: &mut Cursor) -> Option<Argument> {
        let from = self.values.len();
        self.values.push(cursor.number()?);
        while self.values.len() - from < LIST_NUMBERS && cursor.pass(b' ').is_some() {
            self.values.push(cursor.number()?);
        }
        cursor.pass(b')')?;
        Some(Argument::List { from, to: self.values.len() })
    }
}

/// A line and how far it was read.
struct Cursor<'a> {
    line: &'a [u8],
    place: usize,
}

impl<'a> Cursor<'a> {
    fn pass(&mut self, wanted: u8) -> Option<()> {
        if self.line.get(self.place) != Some(&wanted) {
            return None;
        }
        self.place += 1;
        Some(())
    }

    fn word(&mut self) -> Option<&'a [u8]> {
        let rest = &self.line[self.place..];
        let length = rest.iter().take(WORD_LETTERS).take_while(|byte| byte.is_ascii_lowercase()).count();
        self.place += length;
        if length == 0 { None } else { Some(&rest[..length]) }
    }

    fn number(&mut self) -> Option<u64> {
        if self.pass(b'0').is_some() {
            return Some(0);
        }
        let rest = &self.line[self.place..];
        let mut number = 0;
        let mut length = 0;
        while length < NUMBER_DIGITS
            && let Some(digit @ b'0'..=b'9') = rest.get(length)
        {
            number = number * 10 + u64::from(digit - b'0');
            length += 1;
        }
        self.place += length;
        if length == 0 { None } else { Some(number) }
    }
}

/// The arguments of a form, taken one after another.
pub struct Arguments<'a> {
    arguments: &'a [Argument],
    values: &'a [u64],
    taken: usize,
}

impl<'a> Arguments<'a> {
    /// The next argument, which has to be a number.
    pub fn number(&mut self) -> Result<u64, Fault> {
        match self.arguments.get(self.taken) {
            Some(&Argument::Number(number)) => {
                self.taken += 1;
                Ok(number)
            }
            _ => Err(self.fault()),
        }
    }

    /// The next argument, which has to be a list.
    pub fn list(&mut self) -> Result<&'a [u64], Fault> {
        match self.arguments.get(self.taken) {
            Some(&Argument::List { from, to }) => {
                self.taken += 1;
                Ok(&self.values[from..to])
            }
            _ => Err(self.fault()),
        }
    }

    /// No argument may be left.
    pub fn end(&self) -> Result<(), Fault> {
        if self.taken < self.arguments.len() { Err(self.fault()) } else { Ok(()) }
    }

    fn fault(&self) -> Fault {
        Fault::BadArgument { position: self.taken as u64 + 1 }
    }
}
