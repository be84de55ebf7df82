//! Scenes about what scales keep: settings, passwords, held values.

use crate::phrase;
use crate::rng::Rng;
use crate::scenes::{digits, open, say, sweep, Commands, Mind};
use crate::spell;

pub fn storing(rng: &mut Rng, mind: &Mind) -> Commands {
    let mut phrases = vec![phrase::any(rng), phrase::format(rng)];
    if rng.chance(70) {
        phrases.push(digits(rng, "TDD", 1));
    }
    phrases.push(phrase::any(rng));
    phrases.push(phrase::entry("RES", Vec::new()));
    if rng.chance(60) {
        phrases.push(open(mind));
    }
    let mut commands = say(rng, phrases);
    commands.extend(sweep(rng));
    commands
}

pub fn factory(rng: &mut Rng, mind: &mut Mind) -> Commands {
    let mut phrases = vec![phrase::load(rng, "LDW"), phrase::format(rng)];
    if rng.chance(80) {
        phrases.push(open(mind));
        mind.passwords[usize::from(mind.selected)] = "AED";
    }
    phrases.push(digits(rng, "TDD", 0));
    phrases.push(phrase::load(rng, "LWT"));
    let mut commands = say(rng, phrases);
    commands.extend(sweep(rng));
    commands
}

pub fn new_password(rng: &mut Rng, mind: &mut Mind) -> Commands {
    let old = open(mind);
    let new = *rng.pick(spell::PASSWORDS);
    mind.passwords[usize::from(mind.selected)] = new;
    let mut phrases = vec![phrase::entry("DPW", spell::text(new)), phrase::nominal(rng)];
    if rng.chance(50) {
        phrases.push(old);
    }
    if rng.chance(20) {
        phrases.push(phrase::entry("RES", Vec::new()));
    }
    phrases.extend([open(mind), phrase::nominal(rng), phrase::query("NOV"), phrase::query("ESR")]);
    say(rng, phrases)
}

/// All listen for a while; then held values are fetched.
pub fn broadcast(rng: &mut Rng, mind: &mut Mind) -> Commands {
    let mut commands = vec![phrase::select_of(rng, 98)];
    for _ in 0..rng.below(5) + 1 {
        let phrase = match rng.below(10) {
            0..=4 => phrase::query("MSV"),
            5 => digits(rng, "COF", 9),
            6 => phrase::format(rng),
            7 => phrase::wrong(rng),
            8 => open(mind),
            _ => phrase::any(rng),
        };
        commands.push(phrase::spelled(rng, &phrase));
    }
    if rng.chance(10) {
        let phrases = vec![open(mind), digits(rng, "TDD", 0)];
        commands.extend(say(rng, phrases));
    }
    if rng.chance(15) {
        let word = *rng.pick(spell::PASSWORDS);
        mind.passwords = [word; 32];
        commands.push(phrase::spelled(rng, &phrase::entry("DPW", spell::text(word))));
    }
    if rng.chance(10) {
        let count = rng.pick(&["MSV?2", "MSV?1", "MSV? 64", "MSV?0"]);
        commands.push(count.as_bytes().to_vec());
    }
    for _ in 0..rng.below(4) + 1 {
        mind.selected = *rng.pick(mind.present);
        commands.push(phrase::select_of(rng, usize::from(mind.selected)));
        if rng.chance(40) {
            commands.push(b"ESR?".to_vec());
        }
    }
    commands
}
