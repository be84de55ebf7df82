//! The hall of a script: its bank, gauges, readings and joins.

use crate::rng::Rng;

const EDGE_DIGITS: &[i32] = &[
    0,
    1,
    -1,
    250_125,
    250_124,
    1_000_000,
    -1_000_000,
    1_249_999,
    1_250_000,
    1_250_001,
    -1_249_999,
    -1_250_000,
    -1_250_001,
    1_638_398,
    1_638_399,
    1_638_400,
    -1_638_398,
    -1_638_399,
    -1_638_400,
    i32::MAX,
    i32::MAX - 1,
    i32::MIN,
    i32::MIN + 1,
    2_000_000,
    -2_000_000,
];
const GOOD_FACTORS: &[u16] = &[500, 501, 999, 1000, 1000, 1000, 1001, 1499, 1500];
const BAD_FACTORS: &[u16] = &[499, 1501, 0, 1, 65_535];
pub const BAD_PORTS: &[u8] = &[32, 33, 64, 128, 255];

/// How the digits of a script are chosen.
#[derive(Clone, Copy)]
pub enum Digits {
    Edges,
    Platform,
    Anywhere,
    /// Each gauge stays within a few digits.
    Steady,
}

pub struct Building {
    pub lines: Vec<Vec<u8>>,
    /// Addresses of present scales; a few absent ones if there are none.
    pub present: Vec<u8>,
    /// What the scale of each address reads, to a few digits, where that
    /// stays so.
    pub loads: [Option<i64>; 32],
}

/// A fitted gauge.
#[derive(Clone, Copy)]
pub struct Gauge {
    /// The port that it stands at, and the one that it has come to.
    port: u8,
    pub at: u8,
    factor: u16,
    digits: i32,
}

pub struct Builder<'a> {
    pub rng: &'a mut Rng,
    pub lines: Vec<Vec<u8>>,
    pub gauges: Vec<Gauge>,
    digits: Digits,
    /// Whether all corner factors are 1,000.
    plain: bool,
}

pub fn build(rng: &mut Rng) -> Building {
    let digits = match rng.below(6) {
        0 => Digits::Edges,
        1 | 2 => Digits::Platform,
        3 => Digits::Anywhere,
        _ => Digits::Steady,
    };
    let plain = rng.chance(40);
    let mut builder = Builder { rng, lines: Vec::new(), gauges: Vec::new(), digits, plain };
    let recording = builder.bank();
    let start = builder.lines.len();
    builder.fit();
    if recording {
        builder.record();
    } else {
        builder.set();
    }
    if builder.rng.chance(25) {
        builder.shuffle(start);
    }
    builder.join();
    let mut present = builder.ports();
    if present.is_empty() {
        present = vec![0, 1, 31];
    }
    builder.bank_requests(&present);
    let known = !recording || matches!(builder.digits, Digits::Steady);
    let loads = if known { builder.loads() } else { [None; 32] };
    Building { lines: builder.lines, present, loads }
}

impl Builder<'_> {
    pub fn line(&mut self, text: String) {
        self.lines.push(text.into_bytes());
    }

    /// The ports that gauges have come to, in order.
    pub fn ports(&self) -> Vec<u8> {
        let mut ports: Vec<u8> = self.gauges.iter().map(|gauge| gauge.at).collect();
        ports.sort_unstable();
        ports.dedup();
        ports
    }

    fn loads(&self) -> [Option<i64>; 32] {
        let mut thousandths = [0; 32];
        for gauge in &self.gauges {
            let digits = gauge.digits.clamp(-1_638_399, 1_638_399);
            thousandths[usize::from(gauge.at)] += i64::from(digits) * i64::from(gauge.factor);
        }
        thousandths.map(|load| Some(load / 1000))
    }

    /// Fitting, setting and recording may stand in any order.
    fn shuffle(&mut self, start: usize) {
        for at in (start + 1..self.lines.len()).rev() {
            let other = start + self.rng.below(at - start + 1);
            self.lines.swap(at, other);
        }
    }

    fn bank(&mut self) -> bool {
        let recording = self.rng.chance(50);
        if recording {
            self.line("bank recording".into());
        } else if self.rng.chance(60) {
            self.line("bank dials".into());
        }
        recording
    }

    fn fit(&mut self) {
        let count = *self.rng.pick(&[1, 1, 2, 3, 4, 4, 5, 6, 8, 9, 10, 12, 16]);
        let count = if self.rng.chance(2) { 0 } else { count };
        for _ in 0..count {
            let port = if self.rng.chance(15) {
                *self.rng.pick(&[0, 31])
            } else {
                self.rng.below(32) as u8
            };
            if self.rng.chance(4) {
                let (bad, factor) = (*self.rng.pick(BAD_PORTS), *self.rng.pick(BAD_FACTORS));
                self.line(format!("fit {bad} {factor}"));
            }
            if self.rng.chance(4) {
                let factor = *self.rng.pick(BAD_FACTORS);
                self.line(format!("fit {port} {factor}"));
            }
            let factor = if self.plain {
                1000
            } else if self.rng.chance(40) {
                self.rng.within(500, 1500) as u16
            } else {
                *self.rng.pick(GOOD_FACTORS)
            };
            self.line(format!("fit {port} {factor}"));
            self.gauges.retain(|gauge| gauge.port != port);
            self.gauges.push(Gauge { port, at: port, factor, digits: 0 });
        }
    }

    fn some_digits(&mut self) -> i32 {
        match self.digits {
            Digits::Edges => *self.rng.pick(EDGE_DIGITS),
            Digits::Platform => match self.rng.below(10) {
                0 => *self.rng.pick(EDGE_DIGITS),
                1 => self.rng.within(-200_000, 0) as i32,
                _ => self.rng.within(0, 600_000) as i32,
            },
            Digits::Steady => self.rng.within(-400_000, 400_000) as i32,
            Digits::Anywhere => self.rng.within(-1_700_000, 1_700_000) as i32,
        }
    }

    fn set(&mut self) {
        let most = *self.rng.pick(&[5, 30, 64, 200, 1024, 1024, 3000, 20_000, 65_535, 65_535]);
        for index in 0..self.gauges.len() {
            let conversions = match self.rng.below(20) {
                0 => self.rng.below(70),
                1..=3 => most - self.rng.below(3),
                _ => most,
            };
            let digits = self.some_digits();
            let gauge = &mut self.gauges[index];
            gauge.digits = digits;
            let port = gauge.port;
            self.line(format!("set {port} {digits} {conversions}"));
        }
        if self.rng.chance(15) {
            let free = (0..32).find(|&port| self.gauges.iter().all(|gauge| gauge.port != port));
            let bad = *self.rng.pick(BAD_PORTS);
            let port = free.filter(|_| self.rng.chance(50)).unwrap_or(bad);
            let digits = self.some_digits();
            self.line(format!("set {port} {digits} 9"));
        }
    }

    fn record(&mut self) {
        let per_gauge = *self.rng.pick(&[2, 10, 30, 30, 60, 60, 150, 150, 400, 1100]);
        let ports = self.ports();
        let steady = matches!(self.digits, Digits::Steady);
        for index in 0..self.gauges.len() {
            self.gauges[index].digits = self.some_digits();
        }
        for _ in 0..per_gauge {
            for Gauge { port, digits, .. } in self.gauges.clone() {
                if self.rng.chance(97) {
                    let near = digits + self.rng.below(4) as i32;
                    let digits = if steady { near } else { self.some_digits() };
                    self.line(format!("record {port} {digits}"));
                }
            }
            if self.rng.chance(1) {
                let port = if self.rng.chance(50) { *self.rng.pick(BAD_PORTS) } else { 7 };
                self.line(format!("record {port} 5"));
            }
        }
        // Very seldom more records than count.
        if self.rng.below(200) == 0 {
            for _ in 0..65_600 {
                let port = if ports.is_empty() { 0 } else { *self.rng.pick(&ports) };
                self.line(format!("record {port} {}", self.lines.len()));
            }
        }
    }
}
