//! The hall: plays a script of requests and prints a line for each.

pub mod escape;
pub mod script;

use crate::bank::{Bank, Reading};
use crate::command;
use crate::dials::Dials;
use crate::fault::Fault;
use crate::junction::JunctionBox;
use crate::recording::{Record, Recording};
use crate::terminal::Terminal;
use script::{Kind, Line, Request, Stage};
use std::io::Write;

/// Plays a script; the printed lines, each with its line feed.
pub fn play(script: &[u8]) -> Vec<u8> {
    let script = script::read(script);
    let records: Vec<Record> = script.lines.iter().filter_map(record_of).collect();
    let mut player = Player { lines: script.lines.into_iter().peekable(), printed: Vec::new() };
    while player.next(Stage::Kind).is_some() {
        player.print("ok");
    }
    match script.kind {
        Kind::Dials => {
            let dials = player.fit_dials();
            player.play_on(dials);
        }
        Kind::Recording => {
            let recording = player.fit_recording(Recording::new(&records));
            player.play_on(recording);
        }
    }
    player.printed
}

fn record_of(line: &Line) -> Option<Record> {
    match line {
        (_, Ok(Request::Record(record))) => Some(*record),
        _ => None,
    }
}

struct Player {
    lines: std::iter::Peekable<std::vec::IntoIter<Line>>,
    printed: Vec<u8>,
}

impl Player {
    /// The next request, if it is one of this stage. Refused lines and
    /// splits before it are printed on the way.
    fn next(&mut self, stage: Stage) -> Option<Request> {
        loop {
            match self.lines.peek()? {
                (number, Err(refusal)) => {
                    let text = format!("line {}: {}", number, refusal.words());
                    self.print(&text);
                }
                (_, Ok(Request::Split(bytes))) => print_split(bytes, &mut self.printed),
                (_, Ok(request)) if request.stage() == Some(stage) => {
                    return self.lines.next().and_then(|(_, request)| request.ok());
                }
                _ => return None,
            }
            self.lines.next();
        }
    }

    fn fit_dials(&mut self) -> Dials {
        let mut dials = Dials::new();
        while let Some(request) = self.next(Stage::Fitting) {
            let outcome = match request {
                Request::Fit { port, factor } => dials.fit(port, factor),
                Request::Set { port, digits, conversions } => dials.set(port, digits, conversions),
                _ => Ok(()),
            };
            self.print_outcome(outcome);
        }
        dials
    }

    fn fit_recording<'a>(&mut self, mut recording: Recording<'a>) -> Recording<'a> {
        while let Some(request) = self.next(Stage::Fitting) {
            let outcome = match request {
                Request::Fit { port, factor } => recording.fit(port, factor),
                _ => Ok(()),
            };
            self.print_outcome(outcome);
        }
        recording
    }

    /// Four boxes on the bank, then the bank requests, then the terminal.
    fn play_on<B: Bank>(&mut self, bank: B) {
        let first = self.join(1, bank);
        let second = self.join(2, first);
        let third = self.join(3, second);
        let mut top = self.join(4, third);
        while let Some(request) = self.next(Stage::Bank) {
            match request {
                Request::Gauges(port) => self.print_answer(top.gauges(port)),
                Request::Waiting(port) => self.print_answer(top.waiting(port)),
                Request::Take(port) => self.print_answer(top.take(port).map(in_words)),
                _ => {}
            }
        }
        self.play_terminal(Terminal::new(top));
    }

    fn join<B: Bank>(&mut self, level: u8, bank: B) -> JunctionBox<B> {
        let mut junction = JunctionBox::new(bank);
        while let Some(Request::Join { below, above, .. }) = self.next(Stage::Joining(level)) {
            let outcome = junction.join(below, above);
            self.print_outcome(outcome);
        }
        junction
    }

    fn play_terminal<B: Bank>(&mut self, mut terminal: Terminal<B>) {
        let mut buffer = vec![0; script::MAX_ROOM as usize];
        while let Some(request) = self.next(Stage::Terminal) {
            let written = match request {
                Request::Obey { room, bytes } => {
                    let obeyed = terminal.obey(&bytes, &mut buffer[..room]);
                    self.start(format_args!("written {}", obeyed.written));
                    if let Some(fault) = obeyed.fault {
                        self.start(format_args!(" fault {fault}"));
                    }
                    obeyed.written
                }
                Request::Serve { room, bytes } => {
                    let served = terminal.serve(&bytes, &mut buffer[..room]);
                    let stop = served.stop as u8;
                    self.start(format_args!(
                        "used {} written {} stopped {stop}",
                        served.used, served.written
                    ));
                    served.written
                }
                _ => 0,
            };
            print_bytes(&buffer[..written], &mut self.printed);
        }
    }

    fn start(&mut self, text: std::fmt::Arguments) {
        // Writing to a vector cannot fail.
        let _ = self.printed.write_fmt(text);
    }

    fn print(&mut self, text: &str) {
        self.printed.extend(text.as_bytes());
        self.printed.push(b'\n');
    }

    fn print_outcome(&mut self, outcome: Result<(), Fault>) {
        self.print_answer(outcome.map(|()| "ok"));
    }

    fn print_answer<T: std::fmt::Display>(&mut self, answer: Result<T, Fault>) {
        match answer {
            Ok(answer) => self.print(&answer.to_string()),
            Err(fault) => self.print(&format!("fault {fault}")),
        }
    }
}

fn in_words(reading: Reading) -> String {
    let mark = if reading.overdriven { "overdriven" } else { "in range" };
    format!("{} {mark}", reading.load)
}

fn print_split(bytes: &[u8], printed: &mut Vec<u8>) {
    match command::split(bytes) {
        Ok((command, used)) => {
            printed.extend(format!("used {used}").as_bytes());
            print_bytes(command, printed);
        }
        Err(fault) => printed.extend(format!("fault {fault}\n").as_bytes()),
    }
}

/// A colon, the bytes behind a space if there are any, and the line feed.
fn print_bytes(bytes: &[u8], printed: &mut Vec<u8>) {
    printed.push(b':');
    if !bytes.is_empty() {
        printed.push(b' ');
        escape::write(bytes, printed);
    }
    printed.push(b'\n');
}
