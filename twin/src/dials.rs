//! A bank of dials: the same digits as often as conversions are left.

use crate::bank::{port_index, Bank, Corners, Reading, PORTS};
use crate::fault::Fault;

#[derive(Clone, Copy, Debug, Default)]
struct Dial {
    digits: i32,
    conversions: u16,
}

#[derive(Clone, Debug, Default)]
pub struct Dials {
    corners: Corners,
    dials: [Dial; PORTS],
}

impl Dials {
    pub fn new() -> Self {
        Self::default()
    }

    /// Gives the port a gauge with this corner factor in thousandths.
    pub fn fit(&mut self, port: u8, factor: u16) -> Result<(), Fault> {
        self.corners.fit(port, factor)
    }

    /// Sets the dial of the port.
    pub fn set(&mut self, port: u8, digits: i32, conversions: u16) -> Result<(), Fault> {
        self.dials[port_index(port)?] = Dial { digits, conversions };
        Ok(())
    }
}

impl Bank for Dials {
    fn gauges(&self, port: u8) -> Result<u8, Fault> {
        Ok(u8::from(self.corners.has_gauge(port_index(port)?)))
    }

    fn waiting(&self, port: u8) -> Result<u16, Fault> {
        let index = port_index(port)?;
        if self.corners.has_gauge(index) {
            Ok(self.dials[index].conversions)
        } else {
            Ok(0)
        }
    }

    fn draw(&mut self, port: u8) -> Reading {
        let index = usize::from(port);
        let dial = &mut self.dials[index];
        dial.conversions -= 1;
        self.corners.reading(index, dial.digits)
    }
}
