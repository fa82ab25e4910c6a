//! Answers and statements as text, gathered before they are written.

use super::Fault;
use super::book::{Statement, Summary};
use std::io::{self, Write};

const BUFFER_BYTES: usize = 1 << 16;

/// An answer or a line of a statement is shorter than this.
const LONGEST_TEXT: usize = 256;

pub struct Output<W> {
    to: W,
    text: Vec<u8>,
}

impl<W: Write> Output<W> {
    pub fn new(to: W) -> Self {
        Output { to, text: Vec::with_capacity(BUFFER_BYTES) }
    }

    pub fn answer(&mut self, answer: Result<(), Fault>) -> io::Result<()> {
        match answer {
            Ok(()) => self.text.extend_from_slice(b"(ok)\n"),
            Err(fault) => {
                let refusal = fault.refusal();
                let (first, second) = refusal.place;
                self.text.extend_from_slice(b"(no");
                for number in [refusal.layer, refusal.number, first, second] {
                    self.number(number);
                }
                self.text.extend_from_slice(b")\n");
            }
        }
        self.make_room()
    }

    pub fn statement(&mut self, statement: &Statement) -> io::Result<()> {
        match statement {
            Statement::Station(Summary { station, code, charges, due, cash }) => {
                self.text.extend_from_slice(b"(station");
                self.number(*station as u64);
                self.number(*code);
                self.signed(*charges);
                self.signed(*due);
                self.signed(*cash);
            }
            Statement::Generator { generator, account } => {
                self.text.extend_from_slice(b"(generator");
                self.number(*generator as u64);
                self.signed(account.energy);
                self.signed(account.money);
            }
        }
        self.text.extend_from_slice(b")\n");
        self.make_room()
    }

    /// Writes all that was gathered.
    pub fn flush(&mut self) -> io::Result<()> {
        self.to.write_all(&self.text)?;
        self.text.clear();
        self.to.flush()
    }

    fn make_room(&mut self) -> io::Result<()> {
        if self.text.len() + LONGEST_TEXT > BUFFER_BYTES { self.flush() } else { Ok(()) }
    }

    /// A space and the number.
    fn number(&mut self, number: u64) {
        self.text.push(b' ');
        self.digits(number);
    }

    fn signed(&mut self, number: i64) {
        self.text.push(b' ');
        if number < 0 {
            self.text.push(b'-');
        }
        self.digits(number.unsigned_abs());
    }

    fn digits(&mut self, mut number: u64) {
        let mut digits = [0; 20];
        let mut from = digits.len();
        loop {
            from -= 1;
            digits[from] = b'0' + (number % 10) as u8;
            number /= 10;
            if number == 0 {
                break;
            }
        }
        self.text.extend_from_slice(&digits[from..]);
    }
}
