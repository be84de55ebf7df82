//! Gauge banks: ports 0 to 31, each with gauges and readings that wait.

use crate::fault::{Cause, Fault};

pub const PORTS: usize = 32;
pub const MAX_GAUGES: u8 = 8;

/// Digits beyond this are taken as this end.
const LAST_DIGIT: i32 = 1_638_399;
/// Digits beyond this overdrive the gauge (2.5 mV/V).
const OVERDRIVEN_ABOVE: i32 = 1_250_000;

/// A load in thousandths of a digit, marked when a gauge was overdriven.
#[derive(Clone, Copy, Debug, PartialEq, Eq, Default)]
pub struct Reading {
    pub load: i64,
    pub overdriven: bool,
}

pub trait Bank {
    /// How many gauges the port has.
    fn gauges(&self, port: u8) -> Result<u8, Fault>;

    /// How many readings wait at the port.
    fn waiting(&self, port: u8) -> Result<u16, Fault>;

    /// Takes the first reading of a port at which one is known to wait.
    fn draw(&mut self, port: u8) -> Reading;

    /// Takes the first reading that waits at the port.
    fn take(&mut self, port: u8) -> Result<Reading, Fault> {
        if self.waiting(port)? == 0 {
            return Err(Fault::at_port(Cause::NoReading, port));
        }
        Ok(self.draw(port))
    }
}

/// The index of a port, refused above 31.
pub fn port_index(port: u8) -> Result<usize, Fault> {
    let index = usize::from(port);
    if index < PORTS {
        Ok(index)
    } else {
        Err(Fault::at_port(Cause::NoPort, port))
    }
}

/// The corner factors of a bank with one gauge a port; 0 where none is fitted.
#[derive(Clone, Debug, Default)]
pub(crate) struct Corners {
    factors: [u16; PORTS],
}

impl Corners {
    pub fn fit(&mut self, port: u8, factor: u16) -> Result<(), Fault> {
        let index = port_index(port)?;
        if !(500..=1500).contains(&factor) {
            return Err(Fault::at_port(Cause::CornerFactor, port));
        }
        self.factors[index] = factor;
        Ok(())
    }

    pub fn has_gauge(&self, index: usize) -> bool {
        self.factors[index] != 0
    }

    /// What the gauge reads from these digits.
    pub fn reading(&self, index: usize, digits: i32) -> Reading {
        let held = digits.clamp(-LAST_DIGIT, LAST_DIGIT);
        Reading {
            load: i64::from(held) * i64::from(self.factors[index]),
            overdriven: !(-OVERDRIVEN_ABOVE..=OVERDRIVEN_ABOVE).contains(&digits),
        }
    }
}
