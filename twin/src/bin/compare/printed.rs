//! Finds its way in printed lines.

pub fn find(bytes: &[u8], wanted: &[u8]) -> Option<usize> {
    let head = bytes.iter().position(|&byte| byte == b':').unwrap_or(bytes.len());
    bytes[..head].windows(wanted.len()).position(|window| window == wanted)
}

/// The number behind a word of a printed line.
pub fn number_behind(line: &[u8], word: &str) -> usize {
    let at = find(line, word.as_bytes()).map_or(line.len(), |at| at + word.len());
    let digits = line[at..].iter().take_while(|byte| byte.is_ascii_digit());
    digits.fold(0, |value, digit| value * 10 + usize::from(digit - b'0'))
}

pub fn three_digits(bytes: &[u8]) -> usize {
    let digits = bytes.iter().take(3).filter(|byte| byte.is_ascii_digit());
    digits.fold(0, |value, digit| value * 10 + usize::from(digit - b'0'))
}

/// What stands behind the colon of a printed line.
pub fn shown_bytes(line: &[u8]) -> &[u8] {
    match line.iter().position(|&byte| byte == b':') {
        Some(colon) if line.len() > colon + 2 => &line[colon + 2..],
        _ => &[],
    }
}
