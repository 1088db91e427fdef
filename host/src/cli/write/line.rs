//! A line of corrections: its words, and what can be wrong with one.

use std::ops::Range;

/// A correction that can't be made.
#[derive(Debug, PartialEq, Eq)]
pub struct Bad {
    /// The offsets of the words to blame.
    pub words: Range<usize>,
    pub reason: String,
}

/// A word and its place in the file.
#[derive(Clone, Copy, Debug)]
pub struct Word<'a> {
    pub at: usize,
    pub text: &'a str,
}

impl Word<'_> {
    pub fn range(self) -> Range<usize> {
        self.at..self.at + self.text.len()
    }

    pub fn bad(self, reason: impl Into<String>) -> Bad {
        Bad { words: self.range(), reason: reason.into() }
    }

    /// The word as a decimal number.
    pub fn number(self) -> Result<u32, Bad> {
        let text = self.text;
        if text.bytes().all(|byte| byte.is_ascii_digit()) {
            return text.parse().map_err(|_| self.bad(format!("the number is above {}", u32::MAX)));
        }
        match u32::from_str_radix(text, 16).ok().filter(|_| text.bytes().all(|byte| byte.is_ascii_hexdigit())) {
            Some(value) => {
                Err(self.bad(format!("numbers are decimal here, as in the report: {text} in a mesh file is {value}")))
            }
            None => Err(self.bad("a decimal number is due here")),
        }
    }
}

/// The words of a line that starts at an offset; none in an empty line or a comment.
pub fn words(line: &[u8], start: usize) -> Result<Vec<Word<'_>>, Bad> {
    let line = line.split(|&byte| byte == b'#').next().unwrap_or(line);
    let mut words = Vec::new();
    let mut at = start;
    for word in line.split(u8::is_ascii_whitespace) {
        match std::str::from_utf8(word) {
            Ok("") => {}
            Ok(text) => words.push(Word { at, text }),
            Err(_) => return Err(Bad { words: at..at + word.len(), reason: "the word is not UTF-8".to_string() }),
        }
        at += word.len() + 1;
    }
    Ok(words)
}

#[cfg(test)]
mod tests {
    use super::*;

    #[test]
    fn words_with_their_places() {
        let found = words(b" face\t3 left 1 # was 0", 10).unwrap();
        let found: Vec<_> = found.iter().map(|word| (word.at, word.text)).collect();
        assert_eq!(found, [(11, "face"), (16, "3"), (18, "left"), (23, "1")]);
        assert!(words(b"  # \xff", 0).unwrap().is_empty() && words(b"\r", 0).unwrap().is_empty());
        assert_eq!(words(b"a \xff", 5).unwrap_err().words, 7..8);
    }

    #[test]
    fn numbers_are_decimal() {
        let number = |text| Word { at: 0, text }.number().map_err(|bad| bad.reason);
        assert_eq!((number("0"), number("4294967295"), number("007")), (Ok(0), Ok(u32::MAX), Ok(7)));
        assert_eq!(number("4294967296").unwrap_err(), "the number is above 4294967295");
        let hexadecimal = "numbers are decimal here, as in the report: 1a in a mesh file is 26";
        assert_eq!(number("1a").unwrap_err(), hexadecimal);
        assert!(["+1", "-1", "0x1a", "x", "1.0"]
            .iter()
            .all(|text| number(text) == Err("a decimal number is due here".to_string())));
    }
}
