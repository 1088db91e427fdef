//! Lines and columns of a text.

/// A place in a text for people: both count from 1.
#[derive(Clone, Copy, Debug, PartialEq, Eq, Hash, PartialOrd, Ord)]
pub struct Place {
    /// The line.
    pub line: usize,
    /// The column.
    pub column: usize,
}

/// How far apart the noted character counts lie.
const STRIDE: usize = 128;

/// The lines of a text, found once so that many places can be asked for: a file of one line with a fault in every row must not be counted anew for each.
pub struct Lines<'a> {
    text: &'a [u8],
    /// Where each line starts.
    starts: Vec<usize>,
    /// The first byte of each line that is not UTF-8, rising, for the lines that have one.
    broken: Vec<usize>,
    /// How many characters start before each multiple of `STRIDE`.
    characters: Vec<usize>,
}

impl<'a> Lines<'a> {
    /// Finds the lines of `text`.
    pub fn new(text: &'a [u8]) -> Self {
        let starts = line_starts(text);
        let broken = broken_bytes(text, &starts);
        let mut characters = vec![0];
        for chunk in text.chunks(STRIDE) {
            let before = characters[characters.len() - 1];
            characters.push(before + starters(chunk));
        }
        Lines { text, starts, broken, characters }
    }

    /// The text itself.
    pub fn text(&self) -> &'a [u8] {
        self.text
    }

    /// The line and column of an offset, both from 1. A line ends with a line feed, a carriage return or both in this order; the ending belongs to the line. Columns count characters if the line is UTF-8 up to the offset, and bytes if it is not. An offset behind the text has the place of its end.
    pub fn place(&self, offset: usize) -> Place {
        let offset = offset.min(self.text.len());
        let line = self.starts.partition_point(|&start| start <= offset);
        let start = self.starts[line - 1];
        let before = if self.utf8_up_to(start, offset) {
            self.characters_before(offset) - self.characters_before(start)
        } else {
            offset - start
        };
        Place { line, column: before + 1 }
    }

    /// The bytes of the line that has this offset, as offsets, its ending left out.
    pub fn line_around(&self, offset: usize) -> std::ops::Range<usize> {
        let line = self.starts.partition_point(|&start| start <= offset);
        let start = self.starts[line - 1];
        let mut end = self.starts.get(line).copied().unwrap_or(self.text.len());
        if end > start && self.text[end - 1] == b'\n' {
            end -= 1;
        }
        if end > start && self.text[end - 1] == b'\r' {
            end -= 1;
        }
        start..end
    }

    fn utf8_up_to(&self, start: usize, offset: usize) -> bool {
        let first = self.broken[self.broken.partition_point(|&b| b < start)..].first();
        match first {
            Some(&first) if first < offset => false,
            Some(&first) if first == offset => true,
            // An offset inside a character leaves half of it before.
            _ => self.text.get(offset).is_none_or(|&byte| starts_character(byte)),
        }
    }

    fn characters_before(&self, offset: usize) -> usize {
        let noted = offset / STRIDE;
        self.characters[noted] + starters(&self.text[noted * STRIDE..offset])
    }
}

fn starts_character(byte: u8) -> bool {
    byte & 0xc0 != 0x80
}

fn starters(bytes: &[u8]) -> usize {
    bytes.iter().filter(|&&byte| starts_character(byte)).count()
}

fn line_starts(text: &[u8]) -> Vec<usize> {
    let mut starts = vec![0];
    for (at, &byte) in text.iter().enumerate() {
        if byte == b'\n' || byte == b'\r' && text.get(at + 1) != Some(&b'\n') {
            starts.push(at + 1);
        }
    }
    starts
}

/// One for each line at most: only the first counts, and a binary file would have millions.
fn broken_bytes(text: &[u8], starts: &[usize]) -> Vec<usize> {
    let mut broken = Vec::new();
    let mut line = 0;
    let mut at = 0;
    for chunk in text.utf8_chunks() {
        at += chunk.valid().len();
        if !chunk.invalid().is_empty() && at >= line {
            broken.push(at);
            // The next one that counts lies in a later line.
            line = starts.get(starts.partition_point(|&start| start <= at)).copied().unwrap_or(usize::MAX);
        }
        at += chunk.invalid().len();
    }
    broken
}

#[cfg(test)]
mod tests {
    use super::*;

    /// The definition in the plainest form.
    fn plain(text: &[u8], offset: usize) -> Place {
        let (mut line, mut start) = (1, 0);
        for at in 0..offset {
            let alone = text[at] == b'\r' && text.get(at + 1) != Some(&b'\n');
            if text[at] == b'\n' || alone {
                (line, start) = (line + 1, at + 1);
            }
        }
        let before = &text[start..offset];
        let column = std::str::from_utf8(before).map_or(before.len(), |s| s.chars().count());
        Place { line, column: column + 1 }
    }

    #[test]
    fn every_offset_agrees_with_the_definition() {
        let long = ["é".repeat(600).into_bytes(), b"\xff".to_vec(), "日本".repeat(100).into_bytes()].concat();
        let texts: [&[u8]; 9] = [
            b"",
            b"\n",
            b"a\r\nb\rc\nd",
            b"\r\r\n\n\r",
            "x\u{e9}y\u{65e5}z\n\u{1f600}b".as_bytes(),
            b"ok\xffbad\xfe\n\xe2\x82(\x80)\nfine \xc3\xa9!",
            b"\xe2\x82",
            &long,
            &[b'z'; 1100],
        ];
        for text in texts {
            let lines = Lines::new(text);
            for offset in 0..=text.len() {
                assert_eq!(lines.place(offset), plain(text, offset), "{offset} of {text:?}");
            }
        }
    }

    #[test]
    fn lines_without_their_endings() {
        let lines = Lines::new(b"ab\r\ncd\re\n");
        let around: Vec<_> = (0..=9).map(|at| lines.line_around(at)).collect();
        assert_eq!(around, [0..2, 0..2, 0..2, 0..2, 4..6, 4..6, 4..6, 7..8, 7..8, 9..9]);
    }
}
