//! Junction boxes: join the gauges of several ports into one port.

use crate::bank::{port_index, Bank, Reading, MAX_GAUGES, PORTS};
use crate::fault::{Cause, Fault};

/// A port above and what feeds it.
#[derive(Clone, Copy, Debug, Default)]
struct Above {
    gauges: u8,
    /// One bit for each port below that has a gauge and feeds this one.
    feeders: u32,
}

/// A box on a bank. The bank is fitted before the box stands on it, so the
/// box counts gauges once and for all.
#[derive(Clone, Debug)]
pub struct JunctionBox<B> {
    bank: B,
    /// For each port below, the port above that it feeds.
    feeds: [u8; PORTS],
    above: [Above; PORTS],
}

impl<B: Bank> JunctionBox<B> {
    /// A new box: each port feeds the port of its own number.
    pub fn new(bank: B) -> Self {
        let mut feeds = [0; PORTS];
        let mut above = [Above::default(); PORTS];
        for port in 0..PORTS as u8 {
            let index = usize::from(port);
            let gauges = bank.gauges(port).unwrap_or(0);
            feeds[index] = port;
            above[index] = Above { gauges, feeders: u32::from(gauges > 0) << port };
        }
        JunctionBox { bank, feeds, above }
    }

    /// A new box with these joins, port below and port above, and how many
    /// of them were refused.
    pub fn wire(bank: B, joins: &[(u8, u8)]) -> (Self, usize) {
        let mut made = JunctionBox::new(bank);
        let refused =
            joins.iter().filter(|&&(below, above)| made.join(below, above).is_err()).count();
        (made, refused)
    }

    /// Makes a port below feed a port above.
    pub fn join(&mut self, below: u8, above: u8) -> Result<(), Fault> {
        let from = port_index(below)?;
        let to = port_index(above)?;
        let old = usize::from(self.feeds[from]);
        if old == to {
            return Ok(());
        }
        let gauges = self.bank.gauges(below)?;
        if self.above[to].gauges + gauges > MAX_GAUGES {
            return Err(Fault::at_port(Cause::NinthGauge, above));
        }
        self.feeds[from] = above;
        if gauges > 0 {
            self.above[old].gauges -= gauges;
            self.above[old].feeders &= !(1 << below);
            self.above[to].gauges += gauges;
            self.above[to].feeders |= 1 << below;
        }
        Ok(())
    }

    /// The bank that the box stands on.
    pub fn bank(&self) -> &B {
        &self.bank
    }
}

/// The ports whose bits are set, in the order of their numbers.
fn ports_of(mut feeders: u32) -> impl Iterator<Item = u8> {
    std::iter::from_fn(move || {
        if feeders == 0 {
            return None;
        }
        let port = feeders.trailing_zeros() as u8;
        feeders &= feeders - 1;
        Some(port)
    })
}

impl<B: Bank> Bank for JunctionBox<B> {
    fn gauges(&self, port: u8) -> Result<u8, Fault> {
        Ok(self.above[port_index(port)?].gauges)
    }

    fn waiting(&self, port: u8) -> Result<u16, Fault> {
        let mut shortest = None;
        for below in ports_of(self.above[port_index(port)?].feeders) {
            let waiting = self.bank.waiting(below)?;
            if waiting == 0 {
                return Ok(0);
            }
            shortest = Some(shortest.map_or(waiting, |least: u16| least.min(waiting)));
        }
        Ok(shortest.unwrap_or(0))
    }

    fn draw(&mut self, port: u8) -> Reading {
        let mut sum = Reading::default();
        for below in ports_of(self.above[usize::from(port)].feeders) {
            let reading = self.bank.draw(below);
            sum.load += reading.load;
            sum.overdriven |= reading.overdriven;
        }
        sum
    }
}
