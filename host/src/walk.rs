//! A lenient walk over the sections of a text, for showing places and reasons only: what a mesh is, the proved reader decides. On a refused text it is asked only about what stands before the place of the refusal, which is known to be good.

use crate::token::{hexadecimal, token_from, Sort, Token};

/// The start of a section.
pub(crate) struct Section {
    /// Its number, from 1, as refusals count.
    pub number: u32,
    /// Its id, 0 where the word is none.
    pub id: u32,
    /// The token where the id should be.
    pub id_word: Token,
    /// The words of its header (of the section itself for id 2), as many as there are.
    pub words: Vec<Token>,
    /// Their values; 0 for a word that is no number.
    pub values: Vec<u32>,
    /// The offset behind the words.
    pub end: usize,
}

impl Section {
    /// Zone 0 is a declaration.
    pub fn declares(&self) -> bool {
        self.values.first() == Some(&0)
    }

    /// A word's value, 0 where it is not there.
    pub fn value(&self, at: usize) -> u32 {
        self.values.get(at).copied().unwrap_or(0)
    }
}

impl Section {
    /// How many whole rows of the body end before `at`, how many words of the next stand there, and how many it has. `None` where `at` is not in a body.
    pub fn row_at(&self, text: &[u8], at: usize, dimension: u32) -> Option<(u32, u32, u32)> {
        let own_count = self.id == 13 && self.value(4) == 0;
        let mut due = match (self.id, self.value(4)) {
            (10, _) => dimension,
            (12, 0) => 1,
            (13, nodes) => nodes.saturating_add(2),
            _ => return None,
        };
        let open = token_from(text, self.end);
        if open.sort != Sort::Open || open.end > at || self.words.len() < 4 || due == 0 {
            return None;
        }
        let (mut row, mut words, mut token) = (0, 0, token_from(text, open.end));
        while token.sort == Sort::Word && token.start < at {
            if own_count && words == 0 {
                due = hexadecimal(&text[token.range()])?.checked_add(3)?;
            }
            words += 1;
            if words == due {
                (row, words) = (row + 1, 0);
            }
            token = token_from(text, token.end);
        }
        Some((row, words, due))
    }
}

/// Where the walk is.
pub(crate) struct Walk<'a> {
    text: &'a [u8],
    at: usize,
    depth: usize,
    sections: u32,
}

impl<'a> Walk<'a> {
    pub fn new(text: &'a [u8]) -> Self {
        Walk { text, at: 0, depth: 0, sections: 0 }
    }

    /// The next token.
    pub fn next(&mut self) -> Token {
        let token = token_from(self.text, self.at);
        self.at = token.end;
        match token.sort {
            Sort::Open => self.depth += 1,
            Sort::Close => self.depth = self.depth.saturating_sub(1),
            _ => {}
        }
        token
    }

    /// The next token if it is a word.
    pub fn word(&mut self) -> Option<Token> {
        Some(self.next()).filter(|token| token.sort == Sort::Word)
    }

    /// The value of a hexadecimal word.
    pub fn value(&self, word: &Token) -> Option<u32> {
        hexadecimal(&self.text[word.range()])
    }

    /// Goes on to the first token at or behind `at`; true where it lies outside all sections.
    pub fn outside_at(&mut self, at: usize) -> bool {
        while self.depth > 0 && token_from(self.text, self.at).start < at {
            self.next();
        }
        self.depth == 0
    }

    /// Goes behind the section that the walk is in, then to the words of the next one. `None` at the end, or at a token that opens no section.
    pub fn section(&mut self) -> Option<Section> {
        while self.depth > 0 {
            if self.next().sort == Sort::End {
                return None;
            }
        }
        if self.next().sort != Sort::Open {
            return None;
        }
        self.sections += 1;
        let id_word = self.next();
        let id = std::str::from_utf8(&self.text[id_word.range()]).ok().and_then(|id| id.parse().ok()).unwrap_or(0);
        let mut section = Section { number: self.sections, id, id_word, words: vec![], values: vec![], end: self.at };
        match id {
            2 => self.words(&mut section),
            10 | 12 | 13 if self.next().sort == Sort::Open => self.words(&mut section),
            _ => {}
        }
        Some(section)
    }

    fn words(&mut self, section: &mut Section) {
        while let Some(word) = self.word() {
            section.values.push(self.value(&word).unwrap_or(0));
            section.words.push(word);
        }
        section.end = self.at;
    }
}
