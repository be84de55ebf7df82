//! The joins of a script, and what is asked of the topmost box.

use crate::building::{Builder, Gauge, BAD_PORTS};

impl Builder<'_> {
    /// Joins over four levels that gather gauges at one or a few ports.
    pub fn join(&mut self) {
        if self.rng.chance(15) || self.gauges.is_empty() {
            return;
        }
        let wanted = *self.rng.pick(&[1, 1, 2, 2, 3]);
        let targets: Vec<u8> = (0..wanted).map(|_| self.rng.below(32) as u8).collect();
        let busy = *self.rng.pick(&[10, 30, 60, 90]);
        for level in 1..=4 {
            self.join_level(level, &targets, busy);
        }
    }

    fn join_level(&mut self, level: u8, targets: &[u8], busy: usize) {
        let mut feeds: [u8; 32] = std::array::from_fn(|port| port as u8);
        for port in self.ports() {
            if self.rng.chance(4) {
                self.odd_join(level, port);
            }
            if !self.rng.chance(busy) {
                continue;
            }
            let above = if self.rng.chance(70) {
                *self.rng.pick(targets)
            } else {
                self.rng.below(32) as u8
            };
            self.line(format!("join {level} {port} {above}"));
            let would_feed =
                |gauge: &&Gauge| gauge.at == port || feeds[usize::from(gauge.at)] == above;
            if self.gauges.iter().filter(would_feed).count() <= 8 {
                feeds[usize::from(port)] = above;
            }
        }
        for gauge in &mut self.gauges {
            gauge.at = feeds[usize::from(gauge.at)];
        }
    }

    /// Joins that are refused, or that move no gauge.
    fn odd_join(&mut self, level: u8, port: u8) {
        let bad = *self.rng.pick(BAD_PORTS);
        let free = (0..32).find(|free| !self.ports().contains(free)).unwrap_or(0);
        let text = match self.rng.below(5) {
            0 => format!("join {level} {bad} {port}"),
            1 => format!("join {level} {port} {bad}"),
            2 => format!("join {level} {bad} 77"),
            3 => format!("join {level} {port} {port}"),
            _ => format!("join {level} {free} {port}"),
        };
        self.line(text);
    }

    pub fn bank_requests(&mut self, present: &[u8]) {
        for _ in 0..*self.rng.pick(&[0, 0, 1, 3, 8]) {
            let name = *self.rng.pick(&["gauges", "waiting", "take", "take"]);
            let port = match self.rng.below(10) {
                0 => *self.rng.pick(BAD_PORTS),
                1 => self.rng.below(32) as u8,
                _ => *self.rng.pick(present),
            };
            self.line(format!("{name} {port}"));
        }
        // A long list of records is worth asking every port.
        if self.lines.len() > 60_000 || self.rng.chance(20) {
            for port in 0..33 {
                self.line(format!("gauges {port}"));
                self.line(format!("waiting {port}"));
            }
        }
    }
}
