//! Compares what the two print for inputs of the platform.

use crate::aimed;
use crate::proved::Proved;
use crate::rng::Rng;
use crate::shrink::Shrinker;
use crate::{text, Outcome, SHOWN};
use twin::hall::escape;
use twin::Platform;

const PAGE: Platform = Platform::PAGE;

/// Platforms of another number; a good run tells each from that of the page.
const OTHERS: &[(&str, Platform)] = &[
    ("4,095 bytes read", Platform { most_read: 4095, ..PAGE }),
    ("4,097 bytes read", Platform { most_read: 4097, ..PAGE }),
    ("8,192 bytes read", Platform { most_read: 8192, ..PAGE }),
    ("99 conversions", Platform { conversions: 99, ..PAGE }),
    ("101 conversions", Platform { conversions: 101, ..PAGE }),
];

/// More answers than this are counted.
const LONG: usize = 2048;

#[derive(Default)]
struct Met {
    inputs: usize,
    answered: usize,
    long: usize,
    told: [usize; OTHERS.len()],
}

impl Met {
    fn count(&mut self, input: &[u8], printed: &[u8]) {
        self.inputs += 1;
        self.answered += printed.len();
        self.long += usize::from(printed.len() > LONG);
        for (told, (_, other)) in self.told.iter_mut().zip(OTHERS) {
            *told += usize::from(twin_print(*other, input) != printed);
        }
    }

    fn print(&self) {
        let (inputs, answered, long) = (self.inputs, self.answered, self.long);
        println!("{inputs} inputs of the platform, answered by {answered} bytes");
        println!("answers of more than {LONG} bytes: {long} inputs");
        for (told, (name, _)) in self.told.iter().zip(OTHERS) {
            println!("{name}: other answers to {told} inputs");
        }
    }

    fn gaps(&self) -> Vec<String> {
        let untold = self.told.iter().zip(OTHERS).filter(|(&told, _)| told == 0);
        let mut gaps: Vec<String> = untold.map(|(_, (name, _))| name.to_string()).collect();
        if self.long == 0 {
            gaps.push(format!("answers of more than {LONG} bytes"));
        }
        gaps
    }
}

pub fn compare(proved: &Proved, seed: u64, count: u64) -> Outcome {
    let mut seeds = Rng::new(seed);
    let mut met = Met::default();
    let mut failed = 0;
    for index in 0..count {
        let input = aimed::input(seeds.next());
        let printed = twin_print(PAGE, &input);
        met.count(&input, &printed);
        if proved.play(&input) != printed {
            failed += 1;
            println!("input {index} of seed {seed} failed");
            if failed <= SHOWN {
                show(proved, input);
            }
        }
    }
    met.print();
    Outcome { compared: met.inputs, failed }.told(&met.gaps())
}

/// What the twin prints. It must not panic or refuse; if it does, that is a
/// mismatch.
fn twin_print(platform: Platform, input: &[u8]) -> Vec<u8> {
    match std::panic::catch_unwind(|| platform.play(input)) {
        Ok(Ok(answers)) => answers,
        Ok(Err(fault)) => format!("(fault {fault})\n").into_bytes(),
        Err(_) => b"(panic)\n".to_vec(),
    }
}

/// Shows a mismatch, shrunk, with both outputs.
fn show(proved: &Proved, input: Vec<u8>) {
    let differs = |pieces: &[Vec<u8>]| {
        let input = pieces.concat();
        proved.play(&input) != twin_print(PAGE, &input)
    };
    let input = Shrinker::new(&differs).shrink_input(input);
    println!("--- input of {} bytes\n{}", input.len(), shown(&input));
    println!("--- twin\n{}", shown(&twin_print(PAGE, &input)));
    println!("--- proved\n{}", shown(&proved.play(&input)));
    println!("---");
}

fn shown(bytes: &[u8]) -> String {
    let mut escaped = Vec::new();
    escape::write(bytes, &mut escaped);
    text(&escaped)
}
