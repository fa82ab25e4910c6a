//! The ten calls and the opening, read from a line.

use super::Fault;
use super::form::Form;

pub enum Call<'a> {
    File { station: u64, from: u64, to: u64, kw: u64 },
    Declare { generator: u64, from: u64, to: u64, kw: u64 },
    Issue { station: u64 },
    Revise { station: u64, number: u64, notice: u64, values: &'a [u64] },
    Close { station: u64 },
    Read { generator: u64, from: u64, to: u64, kw: u64 },
    Settle { station: u64 },
    Correct { generator: u64, block: u64, kw: u64 },
    Pay { station: u64, amount: u64 },
    Draw { station: u64, amount: u64 },
}

pub struct Opening<'a> {
    pub kinds: &'a [u64],
    pub counts: &'a [u64],
    pub installed: &'a [u64],
}

/// Reads a line as a call. Arguments are taken from left to right, so the first bad one is named.
pub fn read_call<'a>(form: &'a mut Form, line: &'a [u8]) -> Result<Call<'a>, Fault> {
    let (head, mut next) = form.read(line)?;
    let call = match head {
        b"file" => Call::File {
            station: next.number()?,
            from: next.number()?,
            to: next.number()?,
            kw: next.number()?,
        },
        b"declare" => Call::Declare {
            generator: next.number()?,
            from: next.number()?,
            to: next.number()?,
            kw: next.number()?,
        },
        b"issue" => Call::Issue { station: next.number()? },
        b"revise" => Call::Revise {
            station: next.number()?,
            number: next.number()?,
            notice: next.number()?,
            values: next.list()?,
        },
        b"close" => Call::Close { station: next.number()? },
        b"read" => Call::Read {
            generator: next.number()?,
            from: next.number()?,
            to: next.number()?,
            kw: next.number()?,
        },
        b"settle" => Call::Settle { station: next.number()? },
        b"correct" => Call::Correct { generator: next.number()?, block: next.number()?, kw: next.number()? },
        b"pay" => Call::Pay { station: next.number()?, amount: next.number()? },
        b"draw" => Call::Draw { station: next.number()?, amount: next.number()? },
        _ => return Err(Fault::UnknownHead),
    };
    next.end()?;
    Ok(call)
}

/// Reads a line as an opening.
pub fn read_opening<'a>(form: &'a mut Form, line: &'a [u8]) -> Result<Opening<'a>, Fault> {
    let (head, mut next) = form.read(line)?;
    if head != b"open" {
        return Err(Fault::UnknownHead);
    }
    let opening = Opening { kinds: next.list()?, counts: next.list()?, installed: next.list()? };
    next.end()?;
    Ok(opening)
}
