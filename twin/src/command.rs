//! Commands: splitting them off a byte run and reading them.

use crate::fault::{Cause, Fault};
use crate::format::Format;
use crate::number;
use crate::text::Text;

pub const MAX_BYTES: usize = 64;
/// LDW and LWT take loads to this size, NOV values up to it.
const LARGEST: i64 = 1_599_999;
pub const MAX_VALUES: u8 = 64;

#[derive(Clone, Copy, Debug, PartialEq, Eq)]
pub enum Command {
    Blank,
    Select(u8),
    Entry(Entry),
    Query(Query),
}

#[derive(Clone, Copy, Debug, PartialEq, Eq)]
pub enum Entry {
    Format(Format),
    Averaging(u8),
    Nominal(i32),
    Step(u8),
    /// Entered in digits, or measured.
    DeadLoad(Option<i32>),
    FullLoad(Option<i32>),
    Tare,
    Gross(bool),
    Open(Text),
    Password(Text),
    Factory,
    Store,
    Restart,
}

impl Entry {
    pub fn needs_password(&self) -> bool {
        use Entry::*;
        matches!(self, Nominal(_) | DeadLoad(_) | FullLoad(_) | Factory)
    }
}

#[derive(Clone, Copy, Debug, PartialEq, Eq)]
pub enum Query {
    Format,
    Averaging,
    Nominal,
    Step,
    DeadLoad,
    FullLoad,
    Gross,
    Tare,
    /// How many values, and where the parameter stands that says so.
    Values {
        count: u8,
        place: usize,
    },
    Faults,
}

/// The first command of a byte run, and the bytes used with its end character.
pub fn split(run: &[u8]) -> Result<(&[u8], usize), Fault> {
    match run.iter().position(|&byte| byte == b'\n' || byte == b';') {
        Some(end) => Ok((&run[..end], end + 1)),
        None => Err(Fault::new(Cause::NoEnd, run.len())),
    }
}

fn is_flow(byte: u8) -> bool {
    byte == 0x11 || byte == 0x13
}

fn is_blank(byte: u8) -> bool {
    byte <= b' ' && !is_flow(byte)
}

/// Reads all the bytes as one command.
pub fn read(bytes: &[u8]) -> Result<Command, Fault> {
    if bytes.len() > MAX_BYTES {
        return Err(Fault::new(Cause::TooLong, MAX_BYTES));
    }
    if let Some(place) = bytes.iter().position(|&byte| is_flow(byte)) {
        return Err(Fault::new(Cause::UnknownCommand, place));
    }
    let Some(first) = bytes.iter().position(|&byte| !is_blank(byte)) else {
        return Ok(Command::Blank);
    };
    let end = bytes.iter().rposition(|&byte| !is_blank(byte)).map_or(first, |last| last + 1);
    let body = &bytes[first..end];
    if let [b'S' | b's', ten @ b'0'..=b'9', one @ b'0'..=b'9'] = body {
        return Ok(Command::Select((ten - b'0') * 10 + (one - b'0')));
    }
    let unknown = Fault::new(Cause::UnknownCommand, first);
    let [a, b, c, rest @ ..] = body else {
        return Err(unknown);
    };
    let initials = [a, b, c].map(u8::to_ascii_uppercase);
    let (query, rest) = match skip_blanks(rest) {
        [b'?', rest @ ..] => (true, skip_blanks(rest)),
        rest => (false, rest),
    };
    let parameter = Parameter { bytes: rest, place: end - rest.len(), length: bytes.len() };
    if query {
        read_query(&initials, parameter, unknown).map(Command::Query)
    } else {
        read_entry(&initials, parameter, unknown).map(Command::Entry)
    }
}

fn skip_blanks(bytes: &[u8]) -> &[u8] {
    let start = bytes.iter().position(|&byte| !is_blank(byte)).unwrap_or(bytes.len());
    &bytes[start..]
}

fn read_entry(initials: &[u8; 3], parameter: Parameter, unknown: Fault) -> Result<Entry, Fault> {
    Ok(match initials {
        b"COF" => {
            let number = parameter.number()?;
            Entry::Format(Format::from_number(number).ok_or(parameter.out_of_range())?)
        }
        b"ICR" => Entry::Averaging(parameter.within(0, 4)? as u8),
        b"NOV" => Entry::Nominal(parameter.within(0, LARGEST)? as i32),
        b"RSN" => match parameter.number()? {
            step @ (1 | 2 | 5 | 10 | 20 | 50 | 100) => Entry::Step(step as u8),
            _ => return Err(parameter.out_of_range()),
        },
        b"LDW" => Entry::DeadLoad(parameter.load()?),
        b"LWT" => Entry::FullLoad(parameter.load()?),
        b"TAR" => parameter.unwanted().map(|()| Entry::Tare)?,
        b"TAS" => Entry::Gross(parameter.within(0, 1)? == 1),
        b"SPW" => Entry::Open(parameter.text()?),
        b"DPW" => Entry::Password(parameter.text()?),
        b"TDD" => match parameter.within(0, 1)? {
            0 => Entry::Factory,
            _ => Entry::Store,
        },
        b"RES" => parameter.unwanted().map(|()| Entry::Restart)?,
        _ => return Err(unknown),
    })
}

fn read_query(initials: &[u8; 3], parameter: Parameter, unknown: Fault) -> Result<Query, Fault> {
    let query = match initials {
        b"COF" => Query::Format,
        b"ICR" => Query::Averaging,
        b"NOV" => Query::Nominal,
        b"RSN" => Query::Step,
        b"LDW" => Query::DeadLoad,
        b"LWT" => Query::FullLoad,
        b"TAS" => Query::Gross,
        b"TAV" => Query::Tare,
        b"ESR" => Query::Faults,
        b"MSV" => return parameter.values(),
        _ => return Err(unknown),
    };
    parameter.unwanted().map(|()| query)
}

/// What stands behind the initials and the question mark; empty for none.
#[derive(Clone, Copy)]
struct Parameter<'a> {
    bytes: &'a [u8],
    place: usize,
    /// Length of the whole command.
    length: usize,
}

impl Parameter<'_> {
    fn fault(&self, cause: Cause) -> Fault {
        Fault::new(cause, self.place)
    }

    fn out_of_range(&self) -> Fault {
        self.fault(Cause::OutOfRange)
    }

    fn unwanted(&self) -> Result<(), Fault> {
        if self.bytes.is_empty() {
            Ok(())
        } else {
            Err(self.fault(Cause::ParameterCount))
        }
    }

    fn needed(&self) -> Result<&[u8], Fault> {
        if self.bytes.is_empty() {
            Err(Fault::new(Cause::ParameterCount, self.length))
        } else {
            Ok(self.bytes)
        }
    }

    fn number(&self) -> Result<i64, Fault> {
        number::read(self.needed()?).ok_or(self.fault(Cause::Malformed))
    }

    fn within(&self, lowest: i64, highest: i64) -> Result<i64, Fault> {
        let number = self.number()?;
        if (lowest..=highest).contains(&number) {
            Ok(number)
        } else {
            Err(self.out_of_range())
        }
    }

    fn load(&self) -> Result<Option<i32>, Fault> {
        if self.bytes.is_empty() {
            return Ok(None);
        }
        self.within(-LARGEST, LARGEST).map(|digits| Some(digits as i32))
    }

    fn values(&self) -> Result<Query, Fault> {
        let count = if self.bytes.is_empty() { 1 } else { self.within(1, MAX_VALUES.into())? };
        Ok(Query::Values { count: count as u8, place: self.place })
    }

    fn text(&self) -> Result<Text, Fault> {
        Text::read(self.needed()?).ok_or(self.fault(Cause::Malformed))
    }
}
