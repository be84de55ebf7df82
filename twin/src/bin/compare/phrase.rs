//! Single commands: initials, question mark, parameter, and how they are
//! dressed in blanks and letters of either case, or damaged.

use crate::rng::Rng;
use crate::spell;

/// A command before it is spelled.
pub struct Phrase {
    pub initials: &'static str,
    pub query: bool,
    pub parameter: Vec<u8>,
}

const SETTINGS: &[&str] = &["COF", "ICR", "NOV", "RSN", "LDW", "LWT", "TAS", "TAV", "ESR"];
const ALL: &[&str] = &[
    "COF", "ICR", "NOV", "RSN", "LDW", "LWT", "TAR", "TAS", "TAV", "MSV", "SPW", "DPW", "TDD",
    "RES", "ESR",
];

const FORMATS: &[i64] = &[0, 2, 3, 4, 6, 8, 9, 12, 32, 34, 35, 36, 38, 40, 41, 44];
const NOT_FORMATS: &[i64] = &[1, 5, 7, 10, 11, 13, 31, 33, 37, 39, 42, 43, 45, 64, 73, -1, -9, 256];
const NOMINALS: &[i64] = &[
    0, 0, 0, 1, 2, 7, 3000, 10_000, 20_000, 29_999, 30_000, 30_001, 40_000, 125_000, 500_000,
    1_000_000, 1_599_998, 1_599_999,
];
const STEPS: &[i64] = &[1, 1, 2, 5, 10, 20, 50, 100];
const LOADS: &[i64] = &[
    0, 1, -1, 100, 1000, -1000, 250_000, 500_000, 999_999, 1_000_000, 1_000_001, -1_000_000,
    1_250_000, 1_599_998, 1_599_999, -1_599_999,
];
const BEYOND: &[i64] = &[1_600_000, -1_600_000, 1_600_001, 9_999_999, -9_999_999, 2_000_000_000];
const COUNTS: &[i64] = &[1, 1, 2, 2, 3, 4, 5, 8, 10, 16, 31, 63, 64];

pub fn entry(initials: &'static str, parameter: Vec<u8>) -> Phrase {
    Phrase { initials, query: false, parameter }
}

pub fn query(initials: &'static str) -> Phrase {
    Phrase { initials, query: true, parameter: Vec::new() }
}

/// An entry of a number, now and then one outside the range.
fn number(rng: &mut Rng, initials: &'static str, good: &[i64], bad: &[i64]) -> Phrase {
    let among = if rng.chance(6) { bad } else { good };
    let value = *rng.pick(among);
    entry(initials, spell::number(rng, value))
}

pub fn format(rng: &mut Rng) -> Phrase {
    number(rng, "COF", FORMATS, NOT_FORMATS)
}

pub fn averaging(rng: &mut Rng) -> Phrase {
    number(rng, "ICR", &[0, 0, 0, 1, 2, 3, 4], &[-1, 5, 10, 16])
}

pub fn nominal(rng: &mut Rng) -> Phrase {
    if rng.chance(15) {
        let value = rng.within(0, 1_599_999);
        return entry("NOV", spell::number(rng, value));
    }
    number(rng, "NOV", NOMINALS, &[-1, 1_600_000, 9_999_999, -3000])
}

pub fn step(rng: &mut Rng) -> Phrase {
    number(rng, "RSN", STEPS, &[0, -1, 3, 4, 15, 99, 101, 200, 500])
}

pub fn switch(rng: &mut Rng, initials: &'static str) -> Phrase {
    number(rng, initials, &[0, 1], &[2, -1, 10, 99])
}

pub fn load(rng: &mut Rng, initials: &'static str) -> Phrase {
    match rng.below(10) {
        0..=2 => entry(initials, Vec::new()),
        3..=5 => {
            let value = rng.within(-1_599_999, 1_599_999);
            entry(initials, spell::number(rng, value))
        }
        _ => number(rng, initials, LOADS, BEYOND),
    }
}

pub fn password(rng: &mut Rng, initials: &'static str) -> Phrase {
    let word = rng.pick(spell::PASSWORDS);
    entry(initials, spell::text(word))
}

/// A block of values; seldom more than a handful, for readings are spent.
pub fn values(rng: &mut Rng) -> Phrase {
    let mut asked = query("MSV");
    if rng.chance(55) {
        let count = match rng.below(10) {
            0 => *rng.pick(&[0, 65, -1, 100, 1000]),
            1 => 64,
            2..=6 => rng.within(1, 4),
            _ => *rng.pick(COUNTS),
        };
        asked.parameter = spell::number(rng, count);
    }
    asked
}

pub fn any_query(rng: &mut Rng) -> Phrase {
    let &initials = rng.pick(SETTINGS);
    query(initials)
}

/// Any good entry or query.
pub fn any(rng: &mut Rng) -> Phrase {
    match rng.below(20) {
        0 | 1 => format(rng),
        2 => averaging(rng),
        3 => nominal(rng),
        4 => step(rng),
        5 => load(rng, "LDW"),
        6 => load(rng, "LWT"),
        7 => entry("TAR", Vec::new()),
        8 => switch(rng, "TAS"),
        9..=12 => values(rng),
        13 => password(rng, "SPW"),
        14 => switch(rng, "TDD"),
        15 => entry("RES", Vec::new()),
        _ => any_query(rng),
    }
}

/// A command with something wrong about its form or its parameter.
pub fn wrong(rng: &mut Rng) -> Phrase {
    let initials = rng.pick(ALL);
    let mut made = Phrase { initials, query: rng.chance(40), parameter: Vec::new() };
    made.parameter = match rng.below(8) {
        0 => Vec::new(),
        1 => spell::odd_text(rng),
        2 => {
            let &word = rng.pick(spell::PASSWORDS);
            spell::text(word)
        }
        3 => {
            let value = *rng.pick(&[0, 1, 2, 64, 65, 100, 1_599_999, 1_600_000, -1]);
            spell::number(rng, value)
        }
        4 => (0..rng.below(4) + 1).map(|_| spell::byte(rng)).collect(),
        5 if matches!(*initials, "SPW" | "DPW") => spell::odd_text(rng),
        _ => spell::odd_number(rng),
    };
    made
}

pub fn select(rng: &mut Rng, present: &[u8]) -> Vec<u8> {
    let pair = match rng.below(12) {
        0..=6 => usize::from(*rng.pick(present)),
        7 => rng.below(32),
        8 | 9 => 98,
        10 => *rng.pick(&[31, 32, 33, 96, 97, 99, 0]),
        _ => rng.below(100),
    };
    select_of(rng, pair)
}

pub fn select_of(rng: &mut Rng, pair: usize) -> Vec<u8> {
    let letter = if rng.chance(20) { 's' } else { 'S' };
    format!("{letter}{pair:02}").into_bytes()
}

/// Spells a command: letters of either case, blanks in all places.
pub fn spelled(rng: &mut Rng, phrase: &Phrase) -> Vec<u8> {
    let mut bytes = Vec::new();
    let blanks = if rng.chance(15) { 30 } else { 0 };
    let mixed = rng.chance(15);
    pause(rng, &mut bytes, blanks);
    for letter in phrase.initials.bytes() {
        let lower = mixed && rng.chance(50);
        bytes.push(if lower { letter.to_ascii_lowercase() } else { letter });
    }
    pause(rng, &mut bytes, blanks);
    if phrase.query {
        bytes.push(b'?');
        pause(rng, &mut bytes, blanks);
    }
    bytes.extend(&phrase.parameter);
    pause(rng, &mut bytes, blanks);
    bytes
}

fn pause(rng: &mut Rng, bytes: &mut Vec<u8>, percent: usize) {
    while rng.chance(percent) {
        bytes.push(blank(rng));
    }
}

pub fn blank(rng: &mut Rng) -> u8 {
    *rng.pick(b"    \t\r\x00\x01\x1f\x10\x12\x14\x08\x0b")
}

/// A byte flipped, put in, left out or set to a flow byte.
pub fn damage(rng: &mut Rng, bytes: &mut Vec<u8>) {
    let at = rng.below(bytes.len() + 1);
    let inside = at < bytes.len();
    match rng.below(6) {
        0 if inside => bytes[at] ^= 1 << rng.below(8),
        1 if inside => bytes[at] = spell::byte(rng),
        2 if inside => drop(bytes.remove(at)),
        3 => bytes.insert(at, *rng.pick(b"\x11\x13")),
        4 => bytes.insert(at, blank(rng)),
        _ => bytes.insert(at, spell::byte(rng)),
    }
}

/// Blanks at an end until the command has 63, 64, 65 or more bytes.
pub fn stretch(rng: &mut Rng, bytes: &mut Vec<u8>) {
    let length = *rng.pick(&[63, 64, 64, 65, 65, 66, 100]);
    let front = rng.chance(50);
    while bytes.len() < length {
        let at = if front { 0 } else { bytes.len() };
        bytes.insert(at, blank(rng));
    }
}
