//! The tokens of a mesh text, for showing places only: what a mesh is, the proved reader decides.

use std::ops::Range;

/// The sort of a token.
#[derive(Clone, Copy, Debug, PartialEq, Eq)]
pub enum Sort {
    /// `(`
    Open,
    /// `)`
    Close,
    /// From `"` to the next `"`.
    String,
    /// A `"` with no other behind it; it runs to the end of the text.
    Unclosed,
    /// A run of bytes that are not blanks, parentheses or quotes.
    Word,
    /// The end of the text; it has no bytes.
    End,
}

/// A token and the bytes it takes.
#[derive(Clone, Copy, Debug, PartialEq, Eq)]
pub struct Token {
    /// What it is.
    pub sort: Sort,
    /// Its first byte.
    pub start: usize,
    /// The byte behind its last.
    pub end: usize,
}

impl Token {
    /// The bytes it takes, as a range of offsets.
    pub fn range(&self) -> Range<usize> {
        self.start..self.end
    }
}

fn blank(byte: u8) -> bool {
    matches!(byte, b' ' | b'\t' | b'\n' | b'\r')
}

fn in_word(byte: u8) -> bool {
    !blank(byte) && !matches!(byte, b'(' | b')' | b'"')
}

/// The first token at or behind `at`, blanks stepped over.
pub fn token_from(text: &[u8], at: usize) -> Token {
    let at = at.min(text.len());
    let start = at + text[at..].iter().take_while(|&&b| blank(b)).count();
    let rest = &text[start..];
    let (sort, length) = match rest.first() {
        None => (Sort::End, 0),
        Some(b'(') => (Sort::Open, 1),
        Some(b')') => (Sort::Close, 1),
        Some(b'"') => match rest[1..].iter().position(|&b| b == b'"') {
            Some(inside) => (Sort::String, inside + 2),
            None => (Sort::Unclosed, rest.len()),
        },
        Some(_) => (Sort::Word, rest.iter().take_while(|&&b| in_word(b)).count()),
    };
    Token { sort, start, end: start + length }
}

/// The value of a hexadecimal word, `None` where it is none of at most 8 digits.
pub fn hexadecimal(word: &[u8]) -> Option<u32> {
    let digits = word.iter().all(u8::is_ascii_hexdigit);
    let text = std::str::from_utf8(word).ok()?;
    if digits && (1..=8).contains(&word.len()) {
        u32::from_str_radix(text, 16).ok()
    } else {
        None
    }
}

#[cfg(test)]
mod tests {
    use super::*;

    fn all(text: &[u8]) -> Vec<(Sort, usize, usize)> {
        let mut found = Vec::new();
        let mut at = 0;
        loop {
            let token = token_from(text, at);
            found.push((token.sort, token.start, token.end));
            if token.sort == Sort::End {
                return found;
            }
            at = token.end;
        }
    }

    #[test]
    fn tokens_of_every_sort() {
        use Sort::*;
        assert_eq!(all(b""), [(End, 0, 0)]);
        assert_eq!(
            all(b" (0 \"a)b\"\r\nx1)"),
            [(Open, 1, 2), (Word, 2, 3), (String, 4, 9), (Word, 11, 13), (Close, 13, 14), (End, 14, 14)]
        );
        assert_eq!(all(b"a\"b c"), [(Word, 0, 1), (Unclosed, 1, 5), (End, 5, 5)]);
        assert_eq!(token_from(b"ab", 9), Token { sort: End, start: 2, end: 2 });
    }

    #[test]
    fn hexadecimal_words() {
        assert_eq!(hexadecimal(b"1a"), Some(26));
        assert_eq!(hexadecimal(b"FFFFFFFF"), Some(u32::MAX));
        for word in [&b""[..], b"000000001", b"+1", b"-1", b"0x1", b"g", b"\xff"] {
            assert_eq!(hexadecimal(word), None);
        }
    }
}
