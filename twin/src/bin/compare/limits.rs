//! Scenes about the finest differences: the last value that fits and the
//! first that does not, and spans of a few digits.

use crate::phrase::{self, Phrase};
use crate::rng::Rng;
use crate::scenes::{digits, open, Mind};

/// Load above the dead load and nominal value at a span of one digit: their
/// product is what shows.
type Aim = (i64, i64);

const DECIMAL: &[Aim] = &[
    (1_638_398, 1),
    (1_638_399, 1),
    (546_133, 3),
    (1_638_400, 1),
    (819_200, 2),
    (-1_638_399, 1),
    (-546_133, 3),
    (-1_638_400, 1),
    (-819_200, 2),
];
const LONG: &[Aim] = &[
    (1_398_101, 6),
    (178_481, 47),
    (1_048_576, 8),
    (-1_398_101, 6),
    (-178_481, 47),
    (-1_048_576, 8),
];
const SHORT: &[Aim] = &[
    (32_766, 1),
    (32_767, 1),
    (32_768, 1),
    (-32_767, 1),
    (-32_768, 1),
    (-32_769, 1),
    (1, 30_000),
    (1, 30_001),
    (0, 30_001),
    (-1, 30_001),
];

/// Calibrates so that the load, where it is known, shows a limit.
pub fn limit(rng: &mut Rng, mind: &Mind) -> Vec<Phrase> {
    let load = mind.loads[usize::from(mind.selected)].unwrap_or(0);
    let (formats, aims): (&[i64], &[Aim]) = match rng.below(3) {
        0 => (&[3, 9, 9, 35, 41], DECIMAL),
        1 => (&[0, 4, 8, 8, 12, 32, 36, 40, 44], LONG),
        _ => (&[2, 6, 34, 38], SHORT),
    };
    let &(distance, nominal) = rng.pick(aims);
    let scaled = *rng.pick(&[1, 1, 1, 2, 5]);
    let dead = load - distance;
    let mut phrases = vec![open(mind), digits(rng, "NOV", 0), digits(rng, "LDW", dead)];
    if nominal == 1 && rng.chance(30) {
        // The format's own full scale instead of a nominal value.
        phrases.push(digits(rng, "LWT", dead + 1_000_000));
    } else {
        phrases.push(digits(rng, "LWT", dead + scaled));
        phrases.push(digits(rng, "NOV", nominal * scaled));
    }
    let gross = i64::from(rng.chance(60));
    phrases.push(digits(rng, "TAS", gross));
    let format = *rng.pick(formats);
    phrases.push(digits(rng, "COF", format));
    if rng.chance(80) {
        phrases.push(digits(rng, "RSN", 1));
    }
    phrases.push(phrase::query("MSV"));
    if rng.chance(40) {
        phrases.push(phrase::step(rng));
        phrases.push(phrase::query("MSV"));
    }
    if rng.chance(40) {
        phrases.extend([phrase::entry("TAR", Vec::new()), phrase::query("TAV")]);
        phrases.push(phrase::query("MSV"));
    }
    phrases
}

/// A span of a few digits around the load, so that its least part shows.
pub fn magnified(rng: &mut Rng, mind: &Mind) -> Vec<Phrase> {
    let load = mind.loads[usize::from(mind.selected)].unwrap_or(0);
    let dead = load + rng.within(-3, 3);
    let full = dead + *rng.pick(&[1, 2, 5, 10, 20, 100]);
    let mut phrases = vec![open(mind), digits(rng, "NOV", 0), phrase::averaging(rng)];
    let measured = rng.below(4);
    let dead_load = digits(rng, "LDW", dead);
    phrases.push(if measured == 0 { phrase::entry("LDW", Vec::new()) } else { dead_load });
    let full_load = digits(rng, "LWT", full);
    phrases.push(if measured == 1 { phrase::entry("LWT", Vec::new()) } else { full_load });
    phrases.extend([phrase::query("LDW"), phrase::query("LWT")]);
    if rng.chance(70) {
        let nominal = *rng.pick(&[1_599_999, 1_000_000, 100_000, 16_000, 8_000, 30_000, 1000]);
        phrases.push(digits(rng, "NOV", nominal));
    }
    let format = *rng.pick(&[3, 9, 0, 8, 4, 12, 41, 2, 6]);
    phrases.push(digits(rng, "COF", format));
    phrases.push(if rng.chance(70) { digits(rng, "RSN", 1) } else { phrase::step(rng) });
    phrases.push(phrase::values(rng));
    if rng.chance(60) {
        phrases.extend([phrase::entry("TAR", Vec::new()), phrase::query("TAV")]);
        phrases.extend([phrase::averaging(rng), phrase::values(rng)]);
    }
    phrases
}
