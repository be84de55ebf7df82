//! Texts: 1 to 7 letters or digits in double quotes.

const MAX_BYTES: usize = 7;

/// A text without its quotes, zeros behind it.
#[derive(Clone, Copy, Debug, PartialEq, Eq)]
pub struct Text([u8; MAX_BYTES]);

impl Text {
    /// The password that a scale leaves the factory with.
    pub const FACTORY: Text = Text(*b"AED\0\0\0\0");

    /// Reads a text in its quotes.
    pub fn read(bytes: &[u8]) -> Option<Text> {
        let inner = match bytes {
            [b'"', inner @ .., b'"'] => inner,
            _ => return None,
        };
        if inner.is_empty() || inner.len() > MAX_BYTES {
            return None;
        }
        if !inner.iter().all(u8::is_ascii_alphanumeric) {
            return None;
        }
        let mut text = [0; MAX_BYTES];
        text[..inner.len()].copy_from_slice(inner);
        Some(Text(text))
    }
}

#[cfg(test)]
mod tests {
    use super::Text;

    #[test]
    fn quotes_and_lengths() {
        assert_eq!(Text::read(b"\"AED\""), Some(Text::FACTORY));
        assert!(Text::read(b"\"1234567\"").is_some());
        for wrong in
            ["", "\"", "\"\"", "AED", "\"AED", "AED\"", "\"12345678\"", "\"A D\"", "\"\"\""]
        {
            assert_eq!(Text::read(wrong.as_bytes()), None, "{wrong}");
        }
    }
}
