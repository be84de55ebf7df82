//! Counts what a run has met, so that its coverage shows.

use crate::generate::{call, joined};
use crate::printed::{find, number_behind, shown_bytes, three_digits};
use crate::shrink::parts;
use std::collections::BTreeMap;
use twin::command::{self, Command, Query};
use twin::hall::{self, script};

/// Scripts of more bytes than this are counted.
const LONG: usize = 65_536;

#[derive(Default)]
pub struct Tally {
    pub scripts: usize,
    long: usize,
    pub lines: usize,
    pub obeyed: usize,
    pub served: usize,
    faults: [usize; 17],
    remembered: [usize; 17],
    stops: [usize; 3],
    refused_lines: usize,
    held: usize,
    /// Commands answered well, refused, and without an answer.
    good: usize,
    refused: usize,
    silent: usize,
    /// Blocks of 64 values.
    full_blocks: usize,
    /// Status numbers 8 to 15, as decimal values of format 9 show them.
    statuses: [usize; 8],
    /// Overflow values in answers of one value, too high and too low.
    overflows: [usize; 2],
    /// Answers and values of `MSV?` by format.
    formats: BTreeMap<u8, (usize, usize)>,
}

impl Tally {
    pub fn commands(&self) -> usize {
        self.obeyed + self.served
    }

    /// Counts a script by what the twin printed for it. Serving runs are
    /// told apart by obeying their commands one by one, each after a
    /// `COF?`, which alters nothing; whether the answers are then the same.
    pub fn count(&mut self, lines: &[Vec<u8>], printed: &[u8]) -> bool {
        self.scripts += 1;
        self.long += usize::from(lines.iter().map(|line| line.len() + 1).sum::<usize>() > LONG);
        let mut one_by_one = Vec::new();
        let mut served_answers = Vec::new();
        let requests = lines.iter().filter(|line| !script::is_silent(line));
        let mut answers = printed.split(|&byte| byte == b'\n');
        for line in requests {
            let answer = answers.next().unwrap_or_default();
            self.lines += 1;
            match parts(line) {
                Some((name, room, bytes)) if name == "obey" && answer.starts_with(b"written") => {
                    self.obeyed += 1;
                    one_by_one.push(call("obey", 1088, b"COF?"));
                    one_by_one.push(call("obey", room, &bytes));
                }
                Some((name, _, bytes)) if name == "serve" && answer.starts_with(b"used") => {
                    let start = one_by_one.len();
                    self.served +=
                        unroll(&bytes[..number_behind(answer, "used ")], &mut one_by_one);
                    self.stops[number_behind(answer, " stopped ")] += 1;
                    served_answers.push((start, one_by_one.len(), shown_bytes(answer).to_vec()));
                }
                _ => {
                    self.count_other(answer);
                    // A refused line must not be let in by the lines before it.
                    let refused = answer.starts_with(b"line ");
                    one_by_one.push(if refused { b"split ;".to_vec() } else { line.clone() });
                }
            }
        }
        let printed = hall::play(&joined(&one_by_one));
        let answers: Vec<&[u8]> = printed.split(|&byte| byte == b'\n').collect();
        self.count_commands(&one_by_one, &answers);
        served_answers.iter().all(|(start, end, served)| {
            let obeyed = (*start..*end).skip(1).step_by(2).map(|at| shown_bytes(answers[at]));
            obeyed.flatten().eq(served)
        })
    }

    fn count_other(&mut self, answer: &[u8]) {
        if answer.starts_with(b"fault ") {
            self.faults[three_digits(&answer[6..])] += 1;
        } else if answer.starts_with(b"line ") {
            self.refused_lines += 1;
        }
    }

    fn count_commands(&mut self, lines: &[Vec<u8>], answers: &[&[u8]]) {
        let mut at = 0;
        while at < lines.len() {
            if !lines[at].starts_with(b"obey ") {
                at += 1;
                continue;
            }
            let format = three_digits(shown_bytes(answers[at])) as u8;
            let answer = answers[at + 1];
            let bytes = parts(&lines[at + 1]).map(|(_, _, bytes)| bytes).unwrap_or_default();
            self.count_command(&bytes, format, answer);
            at += 2;
        }
    }

    fn count_command(&mut self, bytes: &[u8], format: u8, answer: &[u8]) {
        let shown = shown_bytes(answer);
        if let Some(at) = find(answer, b" fault ") {
            self.faults[three_digits(&answer[at + 7..])] += 1;
            self.refused += 1;
        } else if shown.is_empty() {
            self.silent += 1;
        } else {
            self.good += 1;
            match command::read(bytes) {
                Ok(Command::Query(Query::Values { count, .. })) => {
                    let counts = self.formats.entry(format).or_default();
                    counts.0 += 1;
                    counts.1 += usize::from(count);
                    self.full_blocks += usize::from(count == 64);
                    self.count_values(format, shown);
                }
                Ok(Command::Query(Query::Faults)) => self.remembered[three_digits(shown)] += 1,
                Ok(Command::Select(_)) => self.held += 1,
                _ => {}
            }
        }
    }

    fn count_values(&mut self, format: u8, shown: &[u8]) {
        if format % 32 == 9 {
            for value in shown.windows(15).filter(|value| value[8] == b',' && value[11] == b',') {
                self.statuses[three_digits(&value[12..]).saturating_sub(8).min(7)] += 1;
            }
        }
        let (high, low): (&[u8], &[u8]) = match format % 32 {
            3 | 9 => (b"+1638400", b"-1638400"),
            0 | 8 => (b"\\x7F\\xFF\\xFF", b"\\x80\\x00\\x00"),
            2 => (b"\\x7F\\xFF", b"\\x80\\x00"),
            6 => (b"\\xFF\\x7F", b"\\x00\\x80"),
            _ => return,
        };
        self.overflows[0] += usize::from(shown.starts_with(high));
        self.overflows[1] += usize::from(shown.starts_with(low));
    }

    pub fn print(&self) {
        println!("{} scripts with {} requests", self.scripts, self.lines);
        println!("scripts of more than {LONG} bytes: {}", self.long);
        let (obeyed, served) = (self.obeyed, self.served);
        println!("{} commands: {obeyed} obeyed, {served} served in runs", self.commands());
        let (good, refused, silent) = (self.good, self.refused, self.silent);
        println!("of these {good} answered, {refused} refused, {silent} without an answer");
        for (number, count) in self.faults.iter().enumerate().skip(1) {
            let remembered = self.remembered[number];
            println!("fault {number:2}: {count:6} returned, {remembered:6} told by ESR?");
        }
        println!("no fault: {:4} told by ESR?", self.remembered[0]);
        for (number, count) in self.stops.iter().enumerate() {
            println!("stop {number}: {count:6}");
        }
        for (format, (answers, values)) in &self.formats {
            println!("format {format:2}: {answers:6} answers of MSV?, {values:6} values");
        }
        println!("values 64 in a block: {} answers", self.full_blocks);
        for (status, count) in self.statuses.iter().enumerate() {
            println!("status {:2}: {count:6} values of format 9", status + 8);
        }
        let [high, low] = self.overflows;
        println!("first values shown as overflow: {high} too high, {low} too low");
        println!("held values handed out: {}", self.held);
        println!("script lines refused: {}", self.refused_lines);
    }

    /// What a good run must have met and this one has not.
    pub fn gaps(&self) -> Vec<String> {
        let mut gaps = Vec::new();
        if self.long == 0 {
            gaps.push(format!("a script of more than {LONG} bytes"));
        }
        for (number, _) in self.faults.iter().enumerate().skip(1).filter(|(_, &count)| count == 0) {
            gaps.push(format!("fault {number}"));
        }
        for (number, _) in self.stops.iter().enumerate().filter(|(_, &count)| count == 0) {
            gaps.push(format!("stop {number}"));
        }
        for (status, _) in self.statuses.iter().enumerate().filter(|(_, &count)| count == 0) {
            gaps.push(format!("status {}", status + 8));
        }
        for base in [0, 2, 3, 4, 6, 8, 9, 12] {
            for format in [base, base + 32] {
                if !self.formats.contains_key(&format) {
                    gaps.push(format!("format {format}"));
                }
            }
        }
        gaps
    }
}

/// Turns the used part of a run into commands obeyed one by one.
fn unroll(run: &[u8], lines: &mut Vec<Vec<u8>>) -> usize {
    let mut left = run;
    let mut count = 0;
    while let Ok((command, used)) = command::split(left) {
        lines.push(call("obey", 1088, b"COF?"));
        lines.push(call("obey", 1088, command));
        left = &left[used..];
        count += 1;
    }
    count
}
