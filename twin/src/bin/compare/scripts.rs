//! Compares what the two print for scripts of a hall.

use crate::generate::{self, joined, Lines};
use crate::proved::Proved;
use crate::rng::Rng;
use crate::shrink::Shrinker;
use crate::tally::Tally;
use crate::{text, Outcome, SHOWN};
use twin::hall;

pub fn compare(proved: &Proved, seed: u64, count: u64) -> Outcome {
    let mut seeds = Rng::new(seed);
    let mut tally = Tally::default();
    let mut failed = 0;
    for index in 0..count {
        let lines = generate::script(seeds.next());
        if !check(proved, &mut tally, &lines) {
            failed += 1;
            println!("script {index} of seed {seed} failed");
            if failed <= SHOWN {
                show(proved, lines);
            }
        }
    }
    tally.print();
    Outcome { compared: tally.scripts, failed }.told(&tally.gaps())
}

/// Plays a script on both sides; whether they agree, and whether the twin
/// serves as it obeys.
fn check(proved: &Proved, tally: &mut Tally, lines: &Lines) -> bool {
    let script = joined(lines);
    let printed = twin_print(&script);
    let consistent = tally.count(lines, &printed);
    if !consistent {
        println!("the twin serves a run otherwise than it obeys its commands");
    }
    consistent && proved.play(&script) == printed
}

/// What the twin prints. It must not panic; if it does, that is a mismatch.
fn twin_print(script: &[u8]) -> Vec<u8> {
    std::panic::catch_unwind(|| hall::play(script)).unwrap_or_else(|_| b"(panic)\n".to_vec())
}

/// Shows a mismatch, shrunk, with both outputs.
fn show(proved: &Proved, lines: Lines) {
    let differs = |lines: &[Vec<u8>]| {
        let script = joined(lines);
        proved.play(&script) != twin_print(&script)
    };
    let lines = Shrinker::new(&differs).shrink(lines);
    let script = joined(&lines);
    println!("--- script\n{}", text(&script));
    println!("--- twin\n{}", text(&twin_print(&script)));
    println!("--- proved\n{}", text(&proved.play(&script)));
    println!("---");
}
