//! Parameters: numbers in every spelling, texts right and wrong.

use crate::rng::Rng;

/// Numbers malformed, not whole, or at the edge of being either.
const ODD_NUMBERS: &[&str] = &[
    "+",
    "-",
    ".",
    "1.",
    ".5",
    ".5e1",
    "1e",
    "e1",
    "1e123",
    "1e-1",
    "1e+1",
    "1.25e1",
    "0.5",
    "1 2",
    "1,0",
    "--1",
    "+-1",
    "9e99",
    "-9e99",
    "0e99",
    "0.0000001e7",
    "0.000001e6",
    "00000000001",
    "0000000001",
    "99999999999",
    "9999999999",
    "-999999999",
    "2147483648",
    "4294967296",
    "4294967297",
    "1e10",
    "1e9",
    "1x",
    "0x1",
    "1?",
    "\"1\"",
    "1e1e1",
    "1.0.0",
    "-0",
    "+0",
    "0.1e1",
    "1.0e00",
    "0.0",
    "-0.0e99",
    "0.00000000",
    "1.0000000",
    "1.00000000",
    "1.000000000",
    "1E00",
    "1.50e1",
    "1.2e4",
    "1e01",
    "1e001",
    "12345678.5",
    "5e19",
    "1e20",
    "18446744073709551617",
    "?",
    "0.1e99",
    "1.e1",
    "+.1e1",
    "1e1.",
    "1 ",
    "0 .0",
    "\u{e9}",
];

const ODD_TEXTS: &[&str] = &[
    "\"\"",
    "\"",
    "AED",
    "\"AED",
    "AED\"",
    "\"12345678\"",
    "\"123456789\"",
    "\"A D\"",
    "\"A-D\"",
    "\"AED\"x",
    "\"AED\" x",
    "x\"AED\"",
    "\"A\"D\"",
    "'AED'",
    "\"\"\"",
    "1",
    "\" AED\"",
    "\"AED \"",
    "\"A_\"",
    "\"@\"",
    "\"[\"",
    "\"`\"",
    "\"{\"",
    "\"/\"",
    "\":\"",
];

/// Passwords in use, few enough to be met again.
pub const PASSWORDS: &[&str] = &["AED", "aed", "X", "7", "1234567", "AbCdEfG", "AE", "zZ09aA"];

/// A whole number in one of its spellings.
pub fn number(rng: &mut Rng, value: i64) -> Vec<u8> {
    let sign = if value < 0 { "-" } else { *rng.pick(&["", "", "", "", "+"]) };
    let size = value.unsigned_abs().to_string();
    let spelled = match rng.below(12) {
        0 => pad(rng, sign, &size),
        1 => format!("{sign}{size}.{}", &"0000"[..rng.below(4) + 1]),
        2 | 3 => with_exponent(rng, sign, &size),
        4 => with_point(rng, sign, &size),
        _ => format!("{sign}{size}"),
    };
    spelled.into_bytes()
}

/// Leading zeros, now and then to 10 or 11 bytes.
fn pad(rng: &mut Rng, sign: &str, size: &str) -> String {
    let bare = sign.len() + size.len();
    let width = *rng.pick(&[bare + 1, bare + 2, 9, 10, 10, 11]);
    let zeros = "0".repeat(width.saturating_sub(bare));
    format!("{sign}{zeros}{size}")
}

/// Trailing zeros as an exponent.
fn with_exponent(rng: &mut Rng, sign: &str, size: &str) -> String {
    let digits = size.trim_end_matches('0');
    let letter = rng.pick(&["e", "E"]);
    if digits.is_empty() {
        return format!("{sign}0{letter}{}", rng.below(100));
    }
    let zeros = size.len() - digits.len();
    let wide = rng.chance(30);
    if wide {
        format!("{sign}{digits}{letter}{zeros:02}")
    } else {
        format!("{sign}{digits}{letter}{zeros}")
    }
}

/// The point moved to the left, and an exponent that moves it back; now and
/// then one too small, so that the number may not be whole.
fn with_point(rng: &mut Rng, sign: &str, size: &str) -> String {
    let moved = rng.below(size.len() + 1);
    let (whole, behind) = size.split_at(size.len() - moved);
    let whole = if whole.is_empty() { "0" } else { whole };
    let behind = if behind.is_empty() { "0" } else { behind };
    let exponent = if rng.chance(20) { moved.saturating_sub(1) } else { moved };
    format!("{sign}{whole}.{behind}e{exponent}")
}

pub fn odd_number(rng: &mut Rng) -> Vec<u8> {
    rng.pick(ODD_NUMBERS).as_bytes().to_vec()
}

pub fn text(password: &str) -> Vec<u8> {
    format!("\"{password}\"").into_bytes()
}

pub fn odd_text(rng: &mut Rng) -> Vec<u8> {
    rng.pick(ODD_TEXTS).as_bytes().to_vec()
}

/// A random byte, often one that means something.
pub fn byte(rng: &mut Rng) -> u8 {
    match rng.below(5) {
        0 => rng.below(256) as u8,
        1 => *rng.pick(b"\x11\x13\x10\x12\x14\x00\x1f\x20\x21\x7f\x80\xff"),
        2 => *rng.pick(b"?\";+-.eE \r\t"),
        3 => b'0' + rng.below(10) as u8,
        _ => b'A' + rng.below(26) as u8,
    }
}
