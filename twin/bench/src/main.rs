//! Gives the same run to the proved terminal and to its twin.
//!
//! `bench check` compares the bytes of every case; `bench time` measures commands per second;
//! `bench proved CASE N` and `bench twin CASE N` serve one run with N rounds, to be counted by callgrind.

mod cases;
mod halls;

use cases::{Case, CASES};
use std::time::Instant;

/// Which of the two serves.
#[derive(Clone, Copy)]
enum Side {
    Proved,
    Twin,
}

fn serve(side: Side, case: &Case, rounds: usize, answers: &mut [u8]) -> usize {
    let run = case.run(rounds);
    match side {
        Side::Proved => halls::serve_proved(case.hall, &run, answers),
        Side::Twin => halls::serve_twin(case.hall, &run, answers),
    }
}

/// Whether both write the same bytes.
fn agree(case: &Case) -> bool {
    let rounds = case.rounds;
    let mut proved = vec![0u8; case.room(rounds)];
    let mut twin = proved.clone();
    let count = serve(Side::Proved, case, rounds, &mut proved);
    count == serve(Side::Twin, case, rounds, &mut twin) && proved == twin && count > 0
}

/// The best of five: commands per second.
fn speed(side: Side, case: &Case) -> f64 {
    let run = case.run(case.rounds);
    let mut answers = vec![0u8; case.room(case.rounds)];
    let mut best = f64::MAX;
    for _ in 0..5 {
        let start = Instant::now();
        match side {
            Side::Proved => halls::serve_proved(case.hall, &run, &mut answers),
            Side::Twin => halls::serve_twin(case.hall, &run, &mut answers),
        };
        best = best.min(start.elapsed().as_secs_f64());
    }
    case.commands(case.rounds) as f64 / best
}

fn find(name: &str) -> &'static Case {
    CASES.iter().find(|case| case.name == name).unwrap_or_else(|| panic!("no case {name}"))
}

fn main() {
    let words: Vec<String> = std::env::args().skip(1).collect();
    let words: Vec<&str> = words.iter().map(String::as_str).collect();
    match words[..] {
        ["list"] => CASES.iter().for_each(|case| println!("{} {}", case.name, case.rounds)),
        ["check"] => {
            let wrong = CASES
                .iter()
                .filter(|case| !agree(case))
                .inspect(|case| println!("{}: the bytes differ", case.name))
                .count();
            println!("{} passed, {wrong} failed", CASES.len() - wrong);
            std::process::exit(i32::from(wrong > 0));
        }
        ["time"] => {
            for case in CASES {
                println!(
                    "{} {:.0} {:.0}",
                    case.name,
                    speed(Side::Proved, case),
                    speed(Side::Twin, case)
                );
            }
        }
        ["commands", name, rounds] => {
            println!("{}", find(name).commands(rounds.parse().expect("a number")))
        }
        [side, name, rounds] => {
            let case = find(name);
            let rounds = rounds.parse().expect("a number");
            let side = if side == "proved" { Side::Proved } else { Side::Twin };
            let mut answers = vec![0u8; case.room(rounds)];
            std::hint::black_box(serve(side, case, rounds, &mut answers));
        }
        _ => panic!("bench list | check | time | commands CASE N | proved CASE N | twin CASE N"),
    }
}
