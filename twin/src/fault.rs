//! Faults: what was refused, at which layer and at which place.

use std::fmt;

/// The sixteen causes of refusal; the discriminant is the number shown.
#[derive(Clone, Copy, Debug, PartialEq, Eq)]
#[repr(u8)]
pub enum Cause {
    NoEnd = 1,
    ShortBuffer = 2,
    TooLong = 3,
    UnknownCommand = 4,
    Malformed = 5,
    ParameterCount = 6,
    OutOfRange = 7,
    Closed = 8,
    WrongPassword = 9,
    NominalValueSet = 10,
    NoDeadLoad = 11,
    NoSpan = 12,
    NoReading = 13,
    NoPort = 14,
    CornerFactor = 15,
    NinthGauge = 16,
}

impl Cause {
    pub fn number(self) -> u8 {
        self as u8
    }

    /// L line, C command, W weighing, B bank.
    pub fn layer(self) -> u8 {
        match self.number() {
            1..=3 => b'L',
            4..=7 => b'C',
            8..=12 => b'W',
            _ => b'B',
        }
    }
}

/// A cause and its place: a byte, a length, an address or a port.
#[derive(Clone, Copy, Debug, PartialEq, Eq)]
pub struct Fault {
    pub cause: Cause,
    pub place: usize,
}

impl Fault {
    pub fn new(cause: Cause, place: usize) -> Self {
        Fault { cause, place }
    }

    pub fn at_port(cause: Cause, port: u8) -> Self {
        Fault::new(cause, usize::from(port))
    }
}

impl fmt::Display for Fault {
    fn fmt(&self, f: &mut fmt::Formatter<'_>) -> fmt::Result {
        let layer = char::from(self.cause.layer());
        write!(f, "{:03},{},{:03}", self.cause.number(), layer, self.place)
    }
}

impl std::error::Error for Fault {}
