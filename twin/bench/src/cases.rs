//! The runs that are measured.

use crate::halls::Hall;

/// A run: what it begins with, and what is sent again and again.
pub struct Case {
    pub name: &'static str,
    pub hall: Hall,
    start: &'static str,
    round: Round,
    /// How many rounds are served where nobody says otherwise.
    pub rounds: usize,
    /// The most bytes that a round is answered with.
    answer: usize,
}

/// What one round sends.
enum Round {
    Command(&'static str),
    /// All scales measure by a broadcast, and each is then selected.
    Poll,
}

const fn dials(boxes: u8, ports: u8) -> Hall {
    Hall::Dials { boxes, ports }
}

const fn values(name: &'static str, hall: Hall, start: &'static str) -> Case {
    Case { name, hall, start, round: Round::Command("MSV?;"), rounds: 20_000, answer: 17 }
}

pub const CASES: &[Case] = &[
    values("value-cof3", dials(0, 0), "S01;COF3;"),
    values("value-cof8", dials(0, 0), "S01;COF8;"),
    values("value-cof9-nov", dials(0, 0), "S01;SPW\"AED\";NOV3000;RSN5;"),
    Case {
        name: "block-64",
        hall: dials(0, 0),
        start: "S01;COF8;",
        round: Round::Command("MSV?64;"),
        rounds: 1_000,
        answer: 64 * 4 + 2,
    },
    Case {
        name: "poll-32",
        hall: dials(0, 0),
        start: "S98;COF8;",
        round: Round::Poll,
        rounds: 1_000,
        answer: 32 * 17,
    },
    Case {
        name: "entries",
        hall: dials(0, 0),
        start: "S01;",
        round: Round::Command("COF3; rsn 1.0 ;ICR?;TAS1;"),
        rounds: 5_000,
        answer: 40,
    },
    Case {
        name: "recording",
        hall: Hall::Recording,
        start: "S01;COF3;",
        round: Round::Command("MSV?;"),
        rounds: 65_535,
        answer: 17,
    },
    values("boxes-1", dials(1, 4), "S01;COF3;"),
    values("boxes-2", dials(2, 4), "S01;COF3;"),
    values("boxes-3", dials(3, 4), "S01;COF3;"),
    values("boxes-4", dials(4, 4), "S01;COF3;"),
];

impl Case {
    fn one(&self) -> String {
        match self.round {
            Round::Command(text) => text.to_string(),
            Round::Poll => {
                "S98;MSV?;".to_string()
                    + &(0..32).map(|address| format!("S{address:02};")).collect::<String>()
            }
        }
    }

    /// The bytes of a run of so many rounds.
    pub fn run(&self, rounds: usize) -> Vec<u8> {
        (self.start.to_string() + &self.one().repeat(rounds)).into_bytes()
    }

    /// How many commands it has.
    pub fn commands(&self, rounds: usize) -> usize {
        let ends = |text: &str| text.matches(';').count();
        ends(self.start) + ends(&self.one()) * rounds
    }

    /// Room for all its answers.
    pub fn room(&self, rounds: usize) -> usize {
        4_096 + self.answer * rounds
    }
}
