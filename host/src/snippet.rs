//! A line of a text with a mark under a word of it.

use crate::place::{Lines, Place};
use std::ops::Range;

/// Most columns of a line that are shown.
pub const WIDTH: usize = 80;
/// Columns shown before the mark where the line is cut.
const BEFORE: usize = 32;
/// Bytes looked at on each side: no character has more than four.
const REACH: usize = 4 * WIDTH;

/// A line, or the part of it around a word, ready to be shown.
#[derive(Clone, Debug, PartialEq, Eq)]
pub struct Snippet {
    /// Where the word starts in the file.
    pub place: Place,
    /// The line with one column for each character: blanks for tabs, `·` for control bytes and characters of unsure width, `\u{FFFD}` for bytes that are not UTF-8, `…` where it was cut.
    pub line: String,
    /// Blanks, then `^~~~` as wide as the word.
    pub marks: String,
}

impl Lines<'_> {
    /// The line of a word with a mark under it. A word that runs on in the next line is marked to the end of the first.
    pub fn snippet(&self, word: Range<usize>) -> Snippet {
        let start = word.start.min(self.text().len());
        let line = self.line_around(start);
        let at = start.min(line.end);
        let cells = cells(self.text(), &line, at);
        let caret = cells.iter().take_while(|cell| cell.0 < at).count();
        let wide = cells[caret..].iter().take_while(|cell| cell.0 < word.end).count().max(1);
        let (shown, first) = window(&cells, caret, cells.first().is_some_and(|cell| cell.0 > line.start), &line);
        let wide = wide.min((shown.chars().count() + first).saturating_sub(caret).max(1));
        let marks = format!("{}^{}", " ".repeat(caret - first), "~".repeat(wide - 1));
        Snippet { place: self.place(start), line: shown, marks }
    }
}

/// The characters around `at`, one for a column, each with its offset and length.
fn cells(text: &[u8], line: &Range<usize>, at: usize) -> Vec<(usize, usize, char)> {
    let mut from = at.saturating_sub(REACH).max(line.start);
    while from > line.start && from < at && text[from] & 0xc0 == 0x80 {
        from += 1;
    }
    let to = (at + REACH).min(line.end);
    let mut cells = Vec::new();
    for chunk in text[from..to].utf8_chunks() {
        for character in chunk.valid().chars() {
            cells.push((from, character.len_utf8(), visible(character)));
            from += character.len_utf8();
        }
        for _ in chunk.invalid() {
            cells.push((from, 1, '\u{fffd}'));
            from += 1;
        }
    }
    cells
}

/// The part of the line that is shown, and the cell it starts with.
fn window(cells: &[(usize, usize, char)], caret: usize, cut: bool, line: &Range<usize>) -> (String, usize) {
    let ends = cells.last().is_none_or(|cell| cell.0 + cell.1 == line.end);
    let mut first = if cut || caret > BEFORE { caret.saturating_sub(BEFORE) } else { 0 };
    if ends {
        first = first.min(cells.len().saturating_sub(WIDTH));
    }
    let last = cells.len().min(first + WIDTH);
    let mut shown: Vec<char> = cells[first..last].iter().map(|cell| cell.2).collect();
    if let Some(start) = shown.first_mut().filter(|_| first > 0 || cut) {
        *start = '…';
    }
    if let Some(end) = shown.last_mut().filter(|_| last < cells.len() || !ends) {
        *end = '…';
    }
    (shown.into_iter().collect(), first)
}

/// A character that takes one column and does nothing else to a terminal.
pub fn visible(character: char) -> char {
    match character {
        '\t' => ' ',
        ' '..='~' | '¡'..='¬' | '®'..='˿' | 'Ͱ'..='҂' | 'Ҋ'..='ԯ' => character,
        _ => '·',
    }
}

#[cfg(test)]
mod tests {
    use super::*;

    fn shown(text: &[u8], word: Range<usize>) -> (String, String) {
        let snippet = Lines::new(text).snippet(word);
        assert!(snippet.line.chars().count() <= WIDTH);
        assert!(snippet.marks.chars().count() <= WIDTH + 1);
        (snippet.line, snippet.marks)
    }

    fn pair(line: &str, marks: &str) -> (String, String) {
        (line.to_string(), marks.to_string())
    }

    #[test]
    fn whole_lines() {
        assert_eq!(shown(b"a\n(2 nan)\nb", 5..8), pair("(2 nan)", "   ^~~"));
        assert_eq!(shown(b"(2 2", 4..4), pair("(2 2", "    ^"));
        assert_eq!(shown(b"ab\n", 3..3), pair("", "^"));
        assert_eq!(shown(b"", 0..0), pair("", "^"));
        assert_eq!(shown(b"1 2\r\n3 4", 2..6), pair("1 2", "  ^"));
    }

    #[test]
    fn strange_bytes_keep_the_caret_right() {
        let text = b"\t\x1b[1m\xff\xe9 \xc3\xa9 \xe6\x97\xa5 x";
        let at = text.len() - 1;
        assert_eq!(shown(text, at..at + 1), pair(" ·[1m\u{fffd}\u{fffd} é · x", "            ^"));
    }

    #[test]
    fn long_lines_are_cut_around_the_word() {
        let text = format!("{}HERE{}", "a ".repeat(500), " b".repeat(500));
        let (line, marks) = shown(text.as_bytes(), 1000..1004);
        assert_eq!((line.chars().count(), marks.len()), (80, 36));
        assert!(line.starts_with('…') && line.ends_with('…'));
        assert_eq!(line.chars().skip(32).take(4).collect::<String>(), "HERE");
        let (line, marks) = shown(text.as_bytes(), 0..1);
        assert!(line.starts_with('a') && line.ends_with('…') && marks == "^");
        let (line, marks) = shown(text.as_bytes(), text.len()..text.len());
        assert!(line.starts_with('…') && line.ends_with('b'));
        assert_eq!((line.chars().count(), marks.len()), (80, 81));
    }

    #[test]
    fn a_word_longer_than_the_window_is_marked_to_its_edge() {
        let (line, marks) = shown(&[b'7'; 5000], 0..5000);
        assert_eq!((line.chars().count(), marks.len()), (80, 80));
        let wide = "é".repeat(3000);
        let (line, marks) = shown(wide.as_bytes(), 2000..2002);
        assert_eq!((line.chars().count(), marks.chars().count()), (80, 33));
    }
}
