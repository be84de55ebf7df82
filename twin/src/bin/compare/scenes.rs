//! Scenes: short sequences of commands that bring a scale somewhere.

use crate::keeping;
use crate::limits;
use crate::phrase::{self, Phrase};
use crate::rng::Rng;
use crate::spell;

/// What the writer of a script has in mind.
pub struct Mind<'a> {
    /// Addresses of present scales, or at least of some scale.
    pub present: &'a [u8],
    /// The password each scale is believed to have.
    pub passwords: [&'static str; 32],
    /// The scale believed to listen.
    pub selected: u8,
    /// What each scale reads, where that is known.
    pub loads: [Option<i64>; 32],
}

impl<'a> Mind<'a> {
    pub fn new(present: &'a [u8], loads: [Option<i64>; 32]) -> Self {
        Mind { present, passwords: ["AED"; 32], selected: present[0], loads }
    }

    fn password(&self) -> &'static str {
        self.passwords[usize::from(self.selected)]
    }
}

pub type Commands = Vec<Vec<u8>>;

/// The next few commands.
pub fn next(rng: &mut Rng, mind: &mut Mind) -> Commands {
    match rng.below(34) {
        0 | 1 => select(rng, mind),
        2 | 3 => calibration(rng, mind),
        4 | 5 => keeping::broadcast(rng, mind),
        6 => keeping::storing(rng, mind),
        7 => keeping::factory(rng, mind),
        8 => keeping::new_password(rng, mind),
        9 | 10 => taring(rng),
        11 | 12 => sweep(rng),
        13..=15 => formats(rng, mind),
        16 | 17 => nominal_value(rng, mind),
        18..=20 => wrong(rng),
        21 => damaged(rng, mind),
        22 => stretched(rng, mind),
        23 => say(rng, vec![open(mind)]),
        24 | 25 => several(rng, phrase::values),
        26..=28 => {
            let make = if rng.chance(60) { limits::limit } else { limits::magnified };
            let phrases = make(rng, mind);
            say(rng, phrases)
        }
        _ => several(rng, phrase::any),
    }
}

pub fn say(rng: &mut Rng, phrases: Vec<Phrase>) -> Commands {
    phrases.iter().map(|phrase| phrase::spelled(rng, phrase)).collect()
}

fn several(rng: &mut Rng, make: fn(&mut Rng) -> Phrase) -> Commands {
    (0..rng.below(4) + 1)
        .map(|_| {
            let phrase = make(rng);
            phrase::spelled(rng, &phrase)
        })
        .collect()
}

pub fn open(mind: &Mind) -> Phrase {
    phrase::entry("SPW", spell::text(mind.password()))
}

pub fn digits(rng: &mut Rng, initials: &'static str, value: i64) -> Phrase {
    phrase::entry(initials, spell::number(rng, value))
}

fn select(rng: &mut Rng, mind: &mut Mind) -> Commands {
    let mut commands: Commands =
        (0..rng.below(2)).map(|_| phrase::select(rng, mind.present)).collect();
    if commands.is_empty() || rng.chance(85) {
        mind.selected = *rng.pick(mind.present);
        commands.push(phrase::select_of(rng, usize::from(mind.selected)));
    }
    commands
}

/// Dead load and full load, entered and measured, with spans of all kinds.
fn calibration(rng: &mut Rng, mind: &Mind) -> Commands {
    let mut phrases = Vec::new();
    if rng.chance(85) {
        phrases.push(open(mind));
    }
    if rng.chance(80) {
        phrases.push(digits(rng, "NOV", 0));
    }
    if rng.chance(10) {
        phrases.push(digits(rng, "ICR", 0));
    }
    match rng.below(5) {
        0 => {
            let dead = rng.within(-1_599_000, 1_599_000);
            let span = *rng.pick(&[-1, 0, 0, 1, 1, 2, 999, -500]);
            phrases.push(digits(rng, "LDW", dead));
            phrases.push(digits(rng, "LWT", dead + span));
        }
        1 => {
            let dead = rng.within(-500_000, 500_000);
            let span = rng.within(1, 1_000_000);
            phrases.push(digits(rng, "LDW", dead));
            phrases.push(digits(rng, "LWT", dead + span));
        }
        2 => {
            let low = rng.within(-1_599_999, 0);
            phrases.push(digits(rng, "LDW", low));
            phrases.push(phrase::entry("LWT", Vec::new()));
        }
        3 => {
            phrases.push(phrase::entry("LDW", Vec::new()));
            let high = rng.within(0, 1_599_999);
            phrases.push(digits(rng, "LWT", high));
        }
        _ => {
            phrases.push(phrase::load(rng, "LDW"));
            phrases.push(phrase::load(rng, "LWT"));
        }
    }
    for asked in ["LDW", "LWT", "MSV", "ESR"] {
        if rng.chance(50) {
            phrases.push(phrase::query(asked));
        }
    }
    say(rng, phrases)
}

fn taring(rng: &mut Rng) -> Commands {
    let mut phrases = vec![phrase::entry("TAR", Vec::new()), phrase::query("TAV")];
    for _ in 0..rng.below(4) {
        phrases.push(match rng.below(4) {
            0 => phrase::switch(rng, "TAS"),
            1 => phrase::query("TAS"),
            2 => phrase::query("TAV"),
            _ => phrase::values(rng),
        });
    }
    say(rng, phrases)
}

/// Asks for all settings, so that what is hidden shows.
pub fn sweep(rng: &mut Rng) -> Commands {
    let asked = ["COF", "ICR", "NOV", "RSN", "LDW", "LWT", "TAS", "TAV", "ESR"];
    let phrases = asked.into_iter().map(phrase::query).collect();
    say(rng, phrases)
}

fn formats(rng: &mut Rng, mind: &Mind) -> Commands {
    let mut phrases = Vec::new();
    if rng.chance(15) {
        phrases.push(open(mind));
        phrases.push(phrase::nominal(rng));
    }
    for _ in 0..rng.below(4) + 1 {
        phrases.push(phrase::format(rng));
        phrases.push(if rng.chance(50) { phrase::query("MSV") } else { phrase::values(rng) });
    }
    say(rng, phrases)
}

fn nominal_value(rng: &mut Rng, mind: &Mind) -> Commands {
    let mut phrases = Vec::new();
    if rng.chance(70) {
        phrases.push(open(mind));
    }
    phrases.push(phrase::nominal(rng));
    if rng.chance(60) {
        phrases.push(phrase::step(rng));
    }
    phrases.push(phrase::query("MSV"));
    if rng.chance(40) {
        phrases.push(phrase::query("TAV"));
    }
    say(rng, phrases)
}

fn wrong(rng: &mut Rng) -> Commands {
    let phrase = phrase::wrong(rng);
    let mut commands = vec![phrase::spelled(rng, &phrase)];
    if rng.chance(60) {
        commands.push(b"ESR?".to_vec());
    }
    commands
}

fn any_command(rng: &mut Rng, mind: &Mind) -> Vec<u8> {
    if rng.chance(20) {
        return phrase::select_of(rng, usize::from(mind.selected));
    }
    let phrase = phrase::any(rng);
    phrase::spelled(rng, &phrase)
}

fn damaged(rng: &mut Rng, mind: &Mind) -> Commands {
    let mut command = any_command(rng, mind);
    for _ in 0..rng.below(2) + 1 {
        phrase::damage(rng, &mut command);
    }
    vec![command, b"ESR?".to_vec()]
}

fn stretched(rng: &mut Rng, mind: &Mind) -> Commands {
    let mut command = if rng.chance(10) { Vec::new() } else { any_command(rng, mind) };
    phrase::stretch(rng, &mut command);
    if rng.chance(15) {
        phrase::damage(rng, &mut command);
    }
    vec![command, b"ESR?".to_vec()]
}
