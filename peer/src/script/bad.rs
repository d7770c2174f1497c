//! What is wrong with a bad line.

use std::error::Error;
use std::fmt;

/// Bytes of a script that a reason shows; the rest is cut.
const SHOWN: usize = 24;

/// What is wrong with a line, in words for the person who wrote it.
#[derive(Clone, Debug, PartialEq, Eq)]
pub struct Bad(pub(crate) String);

impl fmt::Display for Bad {
    fn fmt(&self, f: &mut fmt::Formatter<'_>) -> fmt::Result {
        f.write_str(&self.0)
    }
}

impl Error for Bad {}

impl Bad {
    /// Its newline is missing.
    pub(crate) fn unended() -> Self {
        Self("no newline at its end, and the last line needs one too".to_string())
    }

    /// Bytes that are no text, from `at` on.
    pub(crate) fn not_text(line: &[u8], at: usize) -> Self {
        let bytes = shown(line.get(at..).unwrap_or_default());
        Self(format!("no text (UTF-8) from byte {} on: \"{bytes}\"", at + 1))
    }
}

/// Bytes of a script as a terminal may have them: plain characters, and not many.
pub(super) fn shown(bytes: &[u8]) -> String {
    match bytes.get(..SHOWN) {
        Some(start) if start.len() < bytes.len() => {
            format!("{}.. ({} bytes)", start.escape_ascii(), bytes.len())
        }
        _ => bytes.escape_ascii().to_string(),
    }
}

#[cfg(test)]
mod tests {
    use super::*;

    #[test]
    fn shown_bytes_are_plain_and_few() {
        assert_eq!(shown(b"plain"), "plain");
        assert_eq!(shown(b"\x1B[2J\x07\"\xC3\xA9\0"), "\\x1b[2J\\x07\\\"\\xc3\\xa9\\x00");
        assert_eq!(shown(&[b'7'; 24]), "7".repeat(24));
        assert_eq!(shown(&[b'7'; 25]), "7".repeat(24) + ".. (25 bytes)");
        for byte in 0..=u8::MAX {
            let long = shown(&vec![byte; 1 << 20]);
            assert!(long.len() < 120 && long.bytes().all(|b| b == b' ' || b.is_ascii_graphic()));
        }
    }
}
