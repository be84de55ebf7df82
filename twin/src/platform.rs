//! The platform: four gauges joined at port 1 and a fifth by itself, served
//! one run.

use crate::dials::Dials;
use crate::fault::Fault;
use crate::junction::JunctionBox;
use crate::terminal::{Stop, Terminal};

const FACTOR: u16 = 1000;
/// The digits of the dials at ports 1 to 5.
const DIGITS: [i32; 5] = [250_125, 250_124, 250_126, 250_125, 500_000];
const JOINS: [(u8, u8); 3] = [(2, 1), (3, 1), (4, 1)];

/// The numbers of a platform that one run may not tell from others.
#[derive(Clone, Copy, Debug)]
pub struct Platform {
    /// Input beyond so many bytes is not read.
    pub most_read: usize,
    pub conversions: u16,
}

impl Platform {
    /// The platform of the page.
    pub const PAGE: Platform = Platform { most_read: 4096, conversions: 100 };

    /// The answers to the input, one after another.
    pub fn play(self, input: &[u8]) -> Result<Vec<u8>, Fault> {
        let (hall, _) = JunctionBox::wire(self.dials()?, &JOINS);
        let mut terminal = Terminal::new(hall);
        let mut run = &input[..input.len().min(self.most_read)];
        let mut buffer = vec![0; 1 << 14];
        let mut answers = Vec::new();
        loop {
            let served = terminal.serve(run, &mut buffer);
            answers.extend(&buffer[..served.written]);
            run = &run[served.used..];
            if served.stop != Stop::NoRoom {
                return Ok(answers);
            }
        }
    }

    fn dials(self) -> Result<Dials, Fault> {
        let mut dials = Dials::new();
        for (port, digits) in (1..).zip(DIGITS) {
            dials.fit(port, FACTOR)?;
            dials.set(port, digits, self.conversions)?;
        }
        Ok(dials)
    }
}
