//! Bytes as scripts spell them.

/// The bytes that are spelled, or none if they are malformed.
pub fn read(spelled: &[u8]) -> Option<Vec<u8>> {
    let mut bytes = Vec::with_capacity(spelled.len());
    let mut rest = spelled;
    while let [first, after @ ..] = rest {
        let (byte, left) = match (*first, after) {
            (b'\\', [b'\\', left @ ..]) => (b'\\', left),
            (b'\\', [b'r', left @ ..]) => (b'\r', left),
            (b'\\', [b'n', left @ ..]) => (b'\n', left),
            (b'\\', [b'x', high, low, left @ ..]) => (hex(*high)? * 16 + hex(*low)?, left),
            (b'\\', _) => return None,
            (plain @ b' '..=b'~', left) => (plain, left),
            _ => return None,
        };
        bytes.push(byte);
        rest = left;
    }
    Some(bytes)
}

fn hex(digit: u8) -> Option<u8> {
    char::from(digit).to_digit(16).map(|value| value as u8)
}

/// Spells the bytes at the end of a line.
pub fn write(bytes: &[u8], line: &mut Vec<u8>) {
    const HEX: &[u8; 16] = b"0123456789ABCDEF";
    for &byte in bytes {
        match byte {
            b'\\' => line.extend(b"\\\\"),
            b'\r' => line.extend(b"\\r"),
            b'\n' => line.extend(b"\\n"),
            b' '..=b'~' => line.push(byte),
            _ => {
                line.extend([b'\\', b'x', HEX[usize::from(byte >> 4)], HEX[usize::from(byte & 15)]])
            }
        }
    }
}
