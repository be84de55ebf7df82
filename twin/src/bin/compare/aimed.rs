//! Inputs of the platform, aimed at its hundred readings and at the end of
//! what it reads.

use crate::generate::run_of;
use crate::phrase;
use crate::rng::Rng;
use crate::scenes::{self, Commands, Mind};

/// The scales that are present.
const PRESENT: &[u8] = &[1, 5];
/// What they read, in digits.
const LOADS: [(usize, i64); 2] = [(1, 1_000_500), (5, 500_000)];
/// What the platform reads, in bytes.
const READ: usize = 4096;
/// Commands that a present scale answers, whatever it has left.
const ANSWERED: &[&str] =
    &["ESR?", "COF?", "MSV?", "TAV?", "LWT?", "MSV?64", "x", "tas?", " RSN ?"];
/// Blanks before a command of these lengths make at most 64 bytes.
const MOST_BLANKS: usize = 56;

pub fn input(seed: u64) -> Vec<u8> {
    let mut rng = Rng::new(seed);
    let rng = &mut rng;
    let mut loads = [None; 32];
    for (address, load) in LOADS {
        loads[address] = Some(load);
    }
    let mut writer = Writer { mind: Mind::new(PRESENT, loads), thrifty: rng.chance(60), rng };
    let mut run = writer.start();
    match writer.rng.below(6) {
        0 => {
            let length = writer.rng.below(800);
            writer.write(&mut run, length);
        }
        1 => {
            let length = writer.rng.below(8_000);
            writer.write(&mut run, length);
        }
        2 => {
            writer.write(&mut run, READ + 100);
            run.truncate(*writer.rng.pick(&[READ - 1, READ, READ, READ + 1, READ + 2]));
        }
        _ => {
            let filled = *writer.rng.pick(&[0, 100, 1_000, 3_000, 3_900]);
            writer.write(&mut run, filled);
            writer.end_at(&mut run);
        }
    }
    run
}

struct Writer<'a> {
    rng: &'a mut Rng,
    mind: Mind<'a>,
    /// Whether readings are spared, so that some are left at the end.
    thrifty: bool,
}

impl Writer<'_> {
    /// Selects and opens a scale, or uses up about a hundred readings.
    fn start(&mut self) -> Vec<u8> {
        let mut commands = Commands::new();
        if self.rng.chance(25) {
            for address in PRESENT {
                commands.push(format!("S{address:02}").into_bytes());
                if self.rng.chance(50) {
                    let format = phrase::format(self.rng);
                    commands.push(phrase::spelled(self.rng, &format));
                }
                commands.push(b"MSV?64".to_vec());
                let rest = self.rng.below(4) + 34;
                commands.push(format!("MSV?{rest}").into_bytes());
                commands.extend([b"ESR?".to_vec(), b"MSV?".to_vec(), b"MSV?".to_vec()]);
            }
        }
        if self.rng.chance(95) {
            commands.push(phrase::select_of(self.rng, usize::from(self.mind.selected)));
        }
        if self.rng.chance(60) {
            commands.push(b"SPW\"AED\"".to_vec());
        }
        run_of(self.rng, &commands)
    }

    /// Commands until the run has so many bytes.
    fn write(&mut self, run: &mut Vec<u8>, length: usize) {
        while run.len() < length {
            let mut commands = scenes::next(self.rng, &mut self.mind);
            if self.thrifty {
                commands.retain(|command| !takes(command) || self.rng.chance(15));
            }
            for command in &mut commands {
                if self.rng.chance(2) {
                    phrase::damage(self.rng, command);
                }
            }
            run.extend(run_of(self.rng, &commands));
        }
    }

    /// Ends a command that is answered at the last byte that is read or one
    /// beside it, and sends more behind.
    fn end_at(&mut self, run: &mut Vec<u8>) {
        let end = *self.rng.pick(&[READ - 1, READ, READ, READ + 1, READ + 1, READ + 2]);
        let command = *self.rng.pick(ANSWERED);
        let select = format!(";S{:02};", self.rng.pick(PRESENT));
        run.truncate(end - command.len() - 1 - select.len());
        run.extend(select.bytes());
        let mut left = end - command.len() - 1 - run.len();
        while left > MOST_BLANKS {
            let blanks = self.rng.below(MOST_BLANKS);
            for _ in 0..blanks {
                run.push(phrase::blank(self.rng));
            }
            run.push(*self.rng.pick(b";\n"));
            left -= blanks + 1;
        }
        for _ in 0..left {
            run.push(phrase::blank(self.rng));
        }
        run.extend(command.bytes());
        run.push(*self.rng.pick(b";\n"));
        let behind = *self.rng.pick(&[0, 1, 2, 10, 300, 5_000]);
        run.extend(&b"x;COF?;"[..behind.min(7)]);
        let length = run.len() + behind;
        self.write(run, length);
    }
}

/// Whether the command may take readings, or make others take more.
fn takes(command: &[u8]) -> bool {
    let capitals = command.to_ascii_uppercase();
    ["MSV", "TAR", "ICR"].iter().any(|name| capitals.windows(3).any(|part| part == name.as_bytes()))
}
