//! One scale: what it remembers and how it obeys.

use crate::answer::Answer;
use crate::bank::Bank;
use crate::command::{Entry, Query};
use crate::fault::{Cause, Fault};
use crate::format::Shape;
use crate::settings::{nearest, Settings, PARTS};
use crate::text::Text;

/// The longest single value, that of format 9 with its line end.
const LONGEST_VALUE: usize = 17;

/// The bytes of a value that a scale keeps to be handed out once.
#[derive(Clone, Copy, Debug)]
struct Held {
    bytes: [u8; LONGEST_VALUE],
    length: u8,
}

/// A measured load in 1/16,000 digit.
struct Measured {
    load: i64,
    overdriven: bool,
}

#[derive(Clone, Debug)]
pub struct Scale {
    address: u8,
    in_force: Settings,
    stored: Settings,
    waiting_dead_load: Option<i64>,
    open: bool,
    held: Option<Held>,
    fault: Option<Fault>,
}

impl Scale {
    pub fn new(address: u8) -> Self {
        Scale {
            address,
            in_force: Settings::FACTORY,
            stored: Settings::FACTORY,
            waiting_dead_load: None,
            open: false,
            held: None,
            fault: None,
        }
    }

    pub fn remember(&mut self, fault: Fault) {
        self.fault = Some(fault);
    }

    /// Hands out the held value, if there is one.
    pub fn hand_out(&mut self, out: &mut Answer) {
        if let Some(held) = self.held.take() {
            out.bytes(&held.bytes[..usize::from(held.length)]);
        }
    }

    /// Obeys an entry.
    pub fn enter<B: Bank>(&mut self, entry: &Entry, bank: &mut B) -> Result<(), Fault> {
        if entry.needs_password() && !self.open {
            return Err(self.refusal(Cause::Closed));
        }
        match *entry {
            Entry::Format(format) => self.in_force.format = format,
            Entry::Averaging(power) => self.in_force.averaging = power,
            Entry::Nominal(nominal) => self.in_force.nominal = nominal,
            Entry::Step(step) => self.in_force.step = step,
            Entry::Gross(gross) => self.in_force.gross = gross,
            Entry::DeadLoad(digits) => return self.keep_dead_load(digits, bank),
            Entry::FullLoad(digits) => return self.calibrate(digits, bank),
            Entry::Tare => return self.tare(bank),
            Entry::Open(text) => return self.unlock(text),
            Entry::Password(text) => {
                self.in_force.password = text;
                self.stored.password = text;
                self.open = false;
            }
            Entry::Factory => {
                self.in_force = Settings::FACTORY;
                self.stored = Settings::FACTORY;
                self.waiting_dead_load = None;
            }
            Entry::Store => self.stored = self.in_force,
            Entry::Restart => {
                *self =
                    Scale { in_force: self.stored, stored: self.stored, ..Scale::new(self.address) }
            }
        }
        Ok(())
    }

    /// Answers a query of the selected scale.
    pub fn answer<B: Bank>(
        &mut self,
        query: &Query,
        bank: &mut B,
        out: &mut Answer,
    ) -> Result<(), Fault> {
        let settings = &self.in_force;
        match *query {
            Query::Values { count, .. } => return self.measure_block(count, bank, out),
            Query::Format => out.digits(u64::from(settings.format.number()), 3),
            Query::Averaging => out.digits(u64::from(settings.averaging), 1),
            Query::Nominal => out.signed(i64::from(settings.nominal), 8),
            Query::Step => out.digits(u64::from(settings.step), 3),
            Query::DeadLoad => out.signed(nearest(settings.dead_load, PARTS), 8),
            Query::FullLoad => out.signed(nearest(settings.full_load, PARTS), 8),
            Query::Gross => out.digits(u64::from(settings.gross), 1),
            Query::Tare => {
                let shown = settings.shown(settings.tare, Shape::Decimal);
                Shape::Decimal.write_bare(out, shown, settings.nominal);
            }
            Query::Faults => write_fault(self.fault.take(), out),
        }
        out.line_end();
        Ok(())
    }

    /// Obeys a query of a broadcast, which nobody answers.
    pub fn answer_unheard<B: Bank>(&mut self, query: &Query, bank: &mut B) -> Result<(), Fault> {
        match *query {
            Query::Values { count, place } if count > 1 => {
                return Err(Fault::new(Cause::OutOfRange, place));
            }
            Query::Values { .. } => {
                let mut bytes = [0; LONGEST_VALUE];
                let mut out = Answer::new(&mut bytes);
                self.measure_block(1, bank, &mut out)?;
                let length = out.written() as u8;
                self.held = Some(Held { bytes, length });
            }
            Query::Faults => self.fault = None,
            _ => {}
        }
        Ok(())
    }

    fn refusal(&self, cause: Cause) -> Fault {
        Fault::at_port(cause, self.address)
    }

    fn unlock(&mut self, text: Text) -> Result<(), Fault> {
        self.open = text == self.in_force.password;
        if self.open {
            Ok(())
        } else {
            Err(self.refusal(Cause::WrongPassword))
        }
    }

    fn keep_dead_load<B: Bank>(&mut self, digits: Option<i32>, bank: &mut B) -> Result<(), Fault> {
        if self.in_force.nominal > 0 {
            return Err(self.refusal(Cause::NominalValueSet));
        }
        self.waiting_dead_load = Some(self.entered_or_measured(digits, bank)?);
        Ok(())
    }

    fn calibrate<B: Bank>(&mut self, digits: Option<i32>, bank: &mut B) -> Result<(), Fault> {
        if self.in_force.nominal > 0 {
            return Err(self.refusal(Cause::NominalValueSet));
        }
        let Some(dead_load) = self.waiting_dead_load else {
            return Err(self.refusal(Cause::NoDeadLoad));
        };
        let full_load = self.entered_or_measured(digits, bank)?;
        if full_load <= dead_load {
            return Err(self.refusal(Cause::NoSpan));
        }
        for settings in [&mut self.in_force, &mut self.stored] {
            settings.dead_load = dead_load;
            settings.full_load = full_load;
        }
        self.waiting_dead_load = None;
        Ok(())
    }

    fn tare<B: Bank>(&mut self, bank: &mut B) -> Result<(), Fault> {
        self.check_waiting(1, bank)?;
        self.in_force.tare = self.measure(bank).load - self.in_force.dead_load;
        self.in_force.gross = false;
        Ok(())
    }

    fn entered_or_measured<B: Bank>(
        &self,
        digits: Option<i32>,
        bank: &mut B,
    ) -> Result<i64, Fault> {
        if let Some(digits) = digits {
            return Ok(i64::from(digits) * PARTS);
        }
        self.check_waiting(1, bank)?;
        Ok(self.measure(bank).load)
    }

    fn measure_block<B: Bank>(
        &self,
        count: u8,
        bank: &mut B,
        out: &mut Answer,
    ) -> Result<(), Fault> {
        self.check_waiting(count, bank)?;
        let Settings { format, nominal, .. } = self.in_force;
        for _ in 0..count {
            let measured = self.measure(bank);
            let value = self.in_force.value(measured.load, measured.overdriven);
            format.shape.write(out, &value, nominal, self.address);
            format.end_value(out);
        }
        format.end_block(out);
        Ok(())
    }

    /// Checks that readings for so many values wait.
    fn check_waiting<B: Bank>(&self, values: u8, bank: &B) -> Result<(), Fault> {
        let needed = u16::from(values) << self.in_force.averaging;
        if bank.waiting(self.address)? < needed {
            return Err(self.refusal(Cause::NoReading));
        }
        Ok(())
    }

    /// One measurement; its readings are known to wait.
    fn measure<B: Bank>(&self, bank: &mut B) -> Measured {
        let power = self.in_force.averaging;
        let mut sum = 0;
        let mut overdriven = false;
        for _ in 0..1 << power {
            let reading = bank.draw(self.address);
            sum += reading.load;
            overdriven |= reading.overdriven;
        }
        Measured { load: sum << (4 - power), overdriven }
    }
}

/// Number, layer and place of a fault, or that there is none.
fn write_fault(fault: Option<Fault>, out: &mut Answer) {
    let Some(fault) = fault else {
        return out.bytes(b"000,-,000");
    };
    out.digits(u64::from(fault.cause.number()), 3);
    out.bytes(&[b',', fault.cause.layer(), b',']);
    out.digits(fault.place as u64, 3);
}
