//! The terminal: who listens, and what a command does to whom.

use crate::answer::Answer;
use crate::bank::{Bank, PORTS};
use crate::command::{self, Command, Entry};
use crate::fault::{Cause, Fault};
use crate::scale::Scale;

/// A block of 64 values in format 9; every buffer must have that room.
pub const LONGEST_ANSWER: usize = 1088;

const BROADCAST: u8 = 98;

#[derive(Clone, Copy, Debug, PartialEq, Eq)]
enum Listening {
    Nobody,
    One(u8),
    All,
}

/// What obeying returns: bytes written, and the fault of a refused command.
#[derive(Clone, Copy, Debug, PartialEq, Eq)]
pub struct Obeyed {
    pub written: usize,
    pub fault: Option<Fault>,
}

/// Why serving stopped.
#[derive(Clone, Copy, Debug, PartialEq, Eq)]
pub enum Stop {
    UsedUp = 0,
    NoEnd = 1,
    NoRoom = 2,
}

#[derive(Clone, Copy, Debug, PartialEq, Eq)]
pub struct Served {
    pub used: usize,
    pub written: usize,
    pub stop: Stop,
}

#[derive(Clone, Debug)]
pub struct Terminal<B> {
    bank: B,
    listening: Listening,
    scales: [Scale; PORTS],
}

impl<B: Bank> Terminal<B> {
    pub fn new(bank: B) -> Self {
        Terminal {
            bank,
            listening: Listening::Nobody,
            scales: std::array::from_fn(|address| Scale::new(address as u8)),
        }
    }

    /// The bank whose gauges the scales read.
    pub fn bank(&self) -> &B {
        &self.bank
    }

    /// Obeys all the bytes as one command.
    pub fn obey(&mut self, bytes: &[u8], buffer: &mut [u8]) -> Obeyed {
        if buffer.len() < LONGEST_ANSWER {
            let fault = Fault::new(Cause::ShortBuffer, buffer.len());
            return Obeyed { written: 0, fault: Some(fault) };
        }
        let mut out = Answer::new(buffer);
        let fault = self.hear(command::read(bytes), &mut out);
        Obeyed { written: out.written(), fault }
    }

    /// Obeys the commands of a run in order, answers one after another.
    pub fn serve(&mut self, run: &[u8], buffer: &mut [u8]) -> Served {
        let mut used = 0;
        let mut written = 0;
        let stop = loop {
            let left = &run[used..];
            if left.is_empty() {
                break Stop::UsedUp;
            }
            let Ok((command, length)) = command::split(left) else {
                break Stop::NoEnd;
            };
            let room = &mut buffer[written..];
            if room.len() < LONGEST_ANSWER {
                break Stop::NoRoom;
            }
            written += self.obey(command, room).written;
            used += length;
        };
        Served { used, written, stop }
    }

    fn hear(&mut self, read: Result<Command, Fault>, out: &mut Answer) -> Option<Fault> {
        match read {
            Ok(Command::Blank) => return None,
            Ok(Command::Select(pair)) => {
                self.select(pair, out);
                return None;
            }
            _ => {}
        }
        match self.listening {
            Listening::Nobody => None,
            Listening::One(address) if self.is_present(address) => self.ask(address, &read, out),
            Listening::One(_) => None,
            Listening::All => {
                self.tell_all(&read);
                None
            }
        }
    }

    fn is_present(&self, address: u8) -> bool {
        self.bank.gauges(address).is_ok_and(|gauges| gauges > 0)
    }

    fn select(&mut self, pair: u8, out: &mut Answer) {
        self.listening = match pair {
            BROADCAST => Listening::All,
            address if usize::from(address) < PORTS => Listening::One(address),
            _ => Listening::Nobody,
        };
        if let Listening::One(address) = self.listening {
            if self.is_present(address) {
                self.scales[usize::from(address)].hand_out(out);
            }
        }
    }

    /// The selected scale obeys and answers.
    fn ask(
        &mut self,
        address: u8,
        read: &Result<Command, Fault>,
        out: &mut Answer,
    ) -> Option<Fault> {
        let scale = &mut self.scales[usize::from(address)];
        let bank = &mut self.bank;
        let outcome = match read {
            Ok(Command::Entry(entry)) => scale.enter(entry, bank).map(|()| {
                if *entry != Entry::Restart {
                    out.bytes(b"0\r\n");
                }
            }),
            Ok(Command::Query(query)) => scale.answer(query, bank, out),
            Ok(Command::Blank | Command::Select(_)) => Ok(()),
            Err(fault) => Err(*fault),
        };
        let fault = outcome.err()?;
        scale.remember(fault);
        out.bytes(b"?\r\n");
        Some(fault)
    }

    /// Every present scale obeys for itself, unheard.
    fn tell_all(&mut self, read: &Result<Command, Fault>) {
        for address in 0..PORTS as u8 {
            if !self.is_present(address) {
                continue;
            }
            let scale = &mut self.scales[usize::from(address)];
            let outcome = match read {
                Ok(Command::Entry(entry)) => scale.enter(entry, &mut self.bank),
                Ok(Command::Query(query)) => scale.answer_unheard(query, &mut self.bank),
                Ok(Command::Blank | Command::Select(_)) => Ok(()),
                Err(fault) => Err(*fault),
            };
            if let Err(fault) = outcome {
                scale.remember(fault);
            }
        }
    }
}
