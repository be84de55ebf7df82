//! Numbers as commands spell them.

const MAX_BYTES: usize = 10;
/// Stands for every number beyond all ranges.
const BEYOND: i64 = 1 << 40;

/// The whole number that the bytes spell, or none if they are malformed or
/// the number is not whole. Numbers beyond ±2^40 are taken as that end,
/// which is outside every range.
pub fn read(bytes: &[u8]) -> Option<i64> {
    if bytes.len() > MAX_BYTES {
        return None;
    }
    let (negative, rest) = match bytes {
        [b'-', rest @ ..] => (true, rest),
        [b'+', rest @ ..] => (false, rest),
        _ => (false, bytes),
    };
    let (whole, rest) = leading_digits(rest);
    if whole.is_empty() {
        return None;
    }
    let (behind_point, rest) = match rest {
        [b'.', rest @ ..] => match leading_digits(rest) {
            ([], _) => return None,
            parts => parts,
        },
        _ => (&[][..], rest),
    };
    let exponent = read_exponent(rest)?;
    let mantissa = value_of(behind_point, value_of(whole, 0));
    let size = shift(mantissa, exponent as i32 - behind_point.len() as i32)?;
    Some(if negative { -size } else { size })
}

fn leading_digits(bytes: &[u8]) -> (&[u8], &[u8]) {
    let count = bytes.iter().take_while(|b| b.is_ascii_digit()).count();
    bytes.split_at(count)
}

fn read_exponent(bytes: &[u8]) -> Option<u8> {
    match *bytes {
        [] => Some(0),
        [b'e' | b'E', one @ b'0'..=b'9'] => Some(one - b'0'),
        [b'e' | b'E', ten @ b'0'..=b'9', one @ b'0'..=b'9'] => {
            Some((ten - b'0') * 10 + (one - b'0'))
        }
        _ => None,
    }
}

fn value_of(digits: &[u8], start: i64) -> i64 {
    digits.iter().fold(start, |value, digit| value * 10 + i64::from(digit - b'0'))
}

/// The mantissa with its point moved, or none if that is not whole.
fn shift(mut mantissa: i64, places: i32) -> Option<i64> {
    for _ in places..0 {
        if mantissa % 10 != 0 {
            return None;
        }
        mantissa /= 10;
    }
    for _ in 0..places {
        mantissa *= 10;
        if mantissa == 0 || mantissa >= BEYOND {
            break;
        }
    }
    Some(mantissa.min(BEYOND))
}

#[cfg(test)]
mod tests {
    use super::read;

    #[test]
    fn spellings() {
        for (bytes, value) in [
            ("1.2e4", 12_000),
            ("1.0", 1),
            ("0.1e1", 1),
            ("1.50e1", 15),
            ("-0", 0),
            ("+7", 7),
            ("0e99", 0),
            ("00001599e3", 1_599_000),
            ("9999999999", 9_999_999_999),
        ] {
            assert_eq!(read(bytes.as_bytes()), Some(value), "{bytes}");
        }
        assert!(read(b"9e99").unwrap() > i64::from(i32::MAX));
        assert!(read(b"-9e99").unwrap() < i64::from(i32::MIN));
        for bytes in
            ["1.25e1", "1.", ".5e1", "1e123", "+", "", "000001599e3", "1e", "1e+1", "1 ", "0.5"]
        {
            assert_eq!(read(bytes.as_bytes()), None, "{bytes}");
        }
    }
}
