//! Gives pseudo-random scripts and inputs to the twin and to the proved
//! programs and compares what they print.
//!
//! compare [SEED [SCRIPTS [INPUTS]]]

mod aimed;
mod building;
mod generate;
mod inputs;
mod keeping;
mod limits;
mod phrase;
mod printed;
mod proved;
mod rng;
mod scenes;
mod scripts;
mod shrink;
mod spell;
mod tally;
mod wiring;

use proved::Proved;
use std::process::ExitCode;

const DEFAULT_SEED: u64 = 20;
const DEFAULT_SCRIPTS: u64 = 5000;
const DEFAULT_INPUTS: u64 = 5000;
/// So many mismatches of a program are shrunk and shown; more are only
/// counted.
const SHOWN: usize = 5;

/// What the comparison with one program came to.
struct Outcome {
    compared: usize,
    failed: usize,
}

impl Outcome {
    /// What a run must have met and has not fails it.
    fn told(mut self, gaps: &[String]) -> Self {
        if !gaps.is_empty() {
            println!("never met: {}", gaps.join(", "));
            self.failed = self.failed.max(1);
        }
        self
    }

    fn passed(&self) -> usize {
        self.compared.saturating_sub(self.failed)
    }
}

fn main() -> ExitCode {
    let mut arguments = std::env::args().skip(1);
    let seed = number(arguments.next(), DEFAULT_SEED);
    let count = number(arguments.next(), DEFAULT_SCRIPTS);
    let inputs = number(arguments.next(), DEFAULT_INPUTS);
    let programs = (Proved::find("HALL", "hall"), Proved::find("PLATFORM", "platform"));
    let (Some(hall), Some(platform)) = programs else {
        println!("a proved program is not there: run `rt run` in crates/hall and crates/platform");
        println!("0 passed, 1 failed");
        return ExitCode::FAILURE;
    };
    println!("seed {seed}");
    let outcomes = [scripts::compare(&hall, seed, count), inputs::compare(&platform, seed, inputs)];
    let passed: usize = outcomes.iter().map(Outcome::passed).sum();
    let failed: usize = outcomes.iter().map(|outcome| outcome.failed).sum();
    println!("{passed} passed, {failed} failed");
    if failed == 0 {
        ExitCode::SUCCESS
    } else {
        ExitCode::FAILURE
    }
}

fn number(argument: Option<String>, default: u64) -> u64 {
    argument.and_then(|text| text.parse().ok()).unwrap_or(default)
}

fn text(bytes: &[u8]) -> String {
    String::from_utf8_lossy(bytes).into_owned()
}
