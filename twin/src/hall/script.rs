//! Scripts: requests line by line, and which lines are refused.

use super::escape;
use crate::recording::Record;

/// The largest room for answers.
pub const MAX_ROOM: u64 = 65_536;

#[derive(Clone, Copy, Debug, PartialEq, Eq)]
pub enum Kind {
    Dials,
    Recording,
}

#[derive(Clone, Debug, PartialEq, Eq)]
pub enum Request {
    Bank(Kind),
    Fit { port: u8, factor: u16 },
    Set { port: u8, digits: i32, conversions: u16 },
    Record(Record),
    Join { level: u8, below: u8, above: u8 },
    Gauges(u8),
    Waiting(u8),
    Take(u8),
    Obey { room: usize, bytes: Vec<u8> },
    Serve { room: usize, bytes: Vec<u8> },
    Split(Vec<u8>),
}

/// The order in which requests stand; splits stand anywhere.
#[derive(Clone, Copy, Debug, PartialEq, Eq, PartialOrd, Ord)]
pub enum Stage {
    Kind,
    Fitting,
    Joining(u8),
    Bank,
    Terminal,
}

impl Request {
    pub fn stage(&self) -> Option<Stage> {
        Some(match self {
            Request::Bank(_) => Stage::Kind,
            Request::Fit { .. } | Request::Set { .. } | Request::Record(_) => Stage::Fitting,
            Request::Join { level, .. } => Stage::Joining(*level),
            Request::Gauges(_) | Request::Waiting(_) | Request::Take(_) => Stage::Bank,
            Request::Obey { .. } | Request::Serve { .. } => Stage::Terminal,
            Request::Split(_) => return None,
        })
    }

    fn suits(&self, kind: Kind) -> bool {
        !matches!(
            (self, kind),
            (Request::Set { .. }, Kind::Recording) | (Request::Record(_), Kind::Dials)
        )
    }
}

/// Why a line is refused.
#[derive(Clone, Copy, Debug, PartialEq, Eq)]
pub enum Refusal {
    Unknown,
    Malformed,
    OutOfOrder,
    WrongBank,
}

impl Refusal {
    pub fn words(self) -> &'static str {
        match self {
            Refusal::Unknown => "unknown request",
            Refusal::Malformed => "malformed",
            Refusal::OutOfOrder => "out of order",
            Refusal::WrongBank => "no such request for this bank",
        }
    }
}

/// A line that prints: its number, and its request or why it is refused.
pub type Line = (usize, Result<Request, Refusal>);

pub struct Script {
    pub kind: Kind,
    pub lines: Vec<Line>,
}

/// Whether a line prints nothing.
pub fn is_silent(line: &[u8]) -> bool {
    line.first() == Some(&b'#') || line.iter().all(|&byte| byte == b' ')
}

/// Reads a whole script. What is refused hangs on the lines alone, not on
/// what the bank answers.
pub fn read(script: &[u8]) -> Script {
    let mut kind = Kind::Dials;
    let mut reached = None;
    let mut lines = Vec::new();
    for (index, line) in script.split(|&byte| byte == b'\n').enumerate() {
        if is_silent(line) {
            continue;
        }
        let request = read_line(line).and_then(|request| in_order(request, &mut reached, kind));
        if let Ok(Request::Bank(named)) = request {
            kind = named;
        }
        lines.push((index + 1, request));
    }
    Script { kind, lines }
}

/// Passes a request that stands in order and suits the bank.
fn in_order(request: Request, reached: &mut Option<Stage>, kind: Kind) -> Result<Request, Refusal> {
    let Some(stage) = request.stage() else {
        return Ok(request);
    };
    let too_late = match *reached {
        None => false,
        // The kind of bank comes first or not at all.
        Some(reached) => stage < reached || stage == Stage::Kind,
    };
    if too_late {
        return Err(Refusal::OutOfOrder);
    }
    if !request.suits(kind) {
        return Err(Refusal::WrongBank);
    }
    *reached = Some(stage);
    Ok(request)
}

fn read_line(line: &[u8]) -> Result<Request, Refusal> {
    let (name, rest) = match line.iter().position(|&byte| byte == b' ') {
        Some(space) => (&line[..space], Some(&line[space + 1..])),
        None => (line, None),
    };
    let request = match name {
        b"bank" => read_kind(rest),
        b"fit" => read_fit(rest),
        b"set" => read_set(rest),
        b"record" => read_record(rest),
        b"join" => read_join(rest),
        b"gauges" => read_port(rest).map(Request::Gauges),
        b"waiting" => read_port(rest).map(Request::Waiting),
        b"take" => read_port(rest).map(Request::Take),
        b"obey" => read_call(rest).map(|(room, bytes)| Request::Obey { room, bytes }),
        b"serve" => read_call(rest).map(|(room, bytes)| Request::Serve { room, bytes }),
        b"split" => rest.and_then(escape::read).map(Request::Split),
        _ => return Err(Refusal::Unknown),
    };
    request.ok_or(Refusal::Malformed)
}

type Rest<'a> = Option<&'a [u8]>;

fn read_kind(rest: Rest) -> Option<Request> {
    match rest? {
        b"dials" => Some(Request::Bank(Kind::Dials)),
        b"recording" => Some(Request::Bank(Kind::Recording)),
        _ => None,
    }
}

fn read_fit(rest: Rest) -> Option<Request> {
    let [port, factor] = words(rest)?;
    Some(Request::Fit { port: small(port)?, factor: small(factor)? })
}

fn read_set(rest: Rest) -> Option<Request> {
    let [port, digits, conversions] = words(rest)?;
    Some(Request::Set {
        port: small(port)?,
        digits: read_digits(digits)?,
        conversions: small(conversions)?,
    })
}

fn read_record(rest: Rest) -> Option<Request> {
    let [port, digits] = words(rest)?;
    Some(Request::Record(Record { port: small(port)?, digits: read_digits(digits)? }))
}

fn read_join(rest: Rest) -> Option<Request> {
    let [level, below, above] = words(rest)?;
    let level = small(level).filter(|level| (1..=4).contains(level))?;
    Some(Request::Join { level, below: small(below)?, above: small(above)? })
}

fn read_port(rest: Rest) -> Option<u8> {
    let [port] = words(rest)?;
    small(port)
}

fn read_call(rest: Rest) -> Option<(usize, Vec<u8>)> {
    let rest = rest?;
    let space = rest.iter().position(|&byte| byte == b' ')?;
    let room = number(&rest[..space]).filter(|&room| room <= MAX_ROOM)?;
    Some((room as usize, escape::read(&rest[space + 1..])?))
}

/// Exactly so many words, parted by one space each.
fn words<const N: usize>(rest: Rest<'_>) -> Option<[&[u8]; N]> {
    let mut words = rest?.split(|&byte| byte == b' ');
    let mut found = [&[][..]; N];
    for word in &mut found {
        *word = words.next()?;
    }
    words.next().is_none().then_some(found)
}

fn number(word: &[u8]) -> Option<u64> {
    if word.is_empty() || !word.iter().all(u8::is_ascii_digit) {
        return None;
    }
    let ten =
        |value: u64, digit: &u8| value.saturating_mul(10).saturating_add(u64::from(digit - b'0'));
    Some(word.iter().fold(0, ten))
}

fn small<T: TryFrom<u64>>(word: &[u8]) -> Option<T> {
    T::try_from(number(word)?).ok()
}

fn read_digits(word: &[u8]) -> Option<i32> {
    let (sign, size) = match word {
        [b'-', size @ ..] => (-1, size),
        size => (1, size),
    };
    let size = number(size)?.min(1 << 40) as i64;
    i32::try_from(sign * size).ok()
}
