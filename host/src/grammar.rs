//! What is amiss at a token of the wrong sort.

use crate::names::both_bases;
use crate::token::Sort;
use crate::why::Seen;

/// Where in a file a token stands.
enum Spot {
    Outside,
    /// Where a section's id should be.
    Id,
    /// In the header of nodes, cells or faces, or in section 2.
    Header,
    /// Behind a header that has no body.
    NoBody,
    /// Behind a header, where its body should start.
    BodyDue,
    /// In a body, or behind its last row.
    Body,
    Elsewhere,
}

impl Seen<'_> {
    fn spot(&self) -> Spot {
        let Some(section) = &self.here else { return Spot::Outside };
        let uniform = section.id == 12 && section.value(4) != 0;
        match section.id {
            _ if section.id_word.start == self.at => Spot::Id,
            2 => Spot::Header,
            10 | 12 | 13 if self.at < section.end || section.words.is_empty() => Spot::Header,
            10 | 12 | 13 if section.declares() || uniform => Spot::NoBody,
            10 | 12 | 13 if self.rows().is_some() => Spot::Body,
            10 | 12 | 13 => Spot::BodyDue,
            _ => Spot::Elsewhere,
        }
    }

    /// What stands there, and what was due.
    pub(crate) fn grammar(&self) -> String {
        let stands = match self.sort {
            Sort::Unclosed => return "this string is never closed".to_string(),
            Sort::End => "the file breaks off here".to_string(),
            _ => format!("{} stands here", self.quote()),
        };
        let but = if self.sort == Sort::End { ":" } else { ", but" };
        let id = self.here.as_ref().map_or(0, |section| section.id);
        let due = match self.spot() {
            Spot::Outside => return format!("{stands}, outside any section"),
            Spot::Elsewhere => return format!("{stands}, where something else is due"),
            Spot::Id => "a section id is due".to_string(),
            Spot::Header if id == 2 => "section 2 is `(2 2)` or `(2 3)`".to_string(),
            Spot::Header if id == 10 => {
                "a header of nodes is `(zone first last type ND)`, ND may be left out".to_string()
            }
            Spot::Header => format!("a header of {} is `(zone first last type element)`", self.kind()),
            Spot::NoBody if id == 12 => "a declaration and cells all of one element have no body".to_string(),
            Spot::NoBody => "a declaration has no body".to_string(),
            Spot::BodyDue => format!("a body of {} in parentheses is due", self.kind()),
            Spot::Body => self.rows().unwrap_or_default(),
        };
        format!("{stands}{but} {due}")
    }

    /// What to mend.
    pub(crate) fn grammar_advice(&self) -> &'static str {
        match (self.sort, self.spot()) {
            (Sort::End, _) => "the file was cut off, or a `)` is missing before: look for a full disk or a writer that was not closed",
            (Sort::Unclosed, _) => "close the string with a quote; a string can't hold a quote",
            (Sort::Close, Spot::Outside) => "there is one `)` too many before or here",
            (_, Spot::Outside) => "put text into a comment: (0 \"...\")",
            (_, Spot::Id) => "write a section as ( id contents ), the id in decimal",
            (_, Spot::Header) if self.here.as_ref().is_some_and(|section| section.id == 2) => "write the dimension alone: (2 2) or (2 3)",
            (_, Spot::Header) => "count the words of the header: a regular section of cells or faces has all five",
            (_, Spot::NoBody) => "leave the body out, even an empty one",
            (_, Spot::BodyDue) => "write the rows behind the header in parentheses of their own",
            (_, Spot::Body) => "count the words of each row: a node has its coordinates, a face its nodes and then the right and the left cell, 0 for none; with element 0 its own node count stands first",
            (_, Spot::Elsewhere) => "close every parenthesis and string",
        }
    }

    /// How far the rows of a body go, where the place is in one: a row that is a word short shows only at the body's end.
    fn rows(&self) -> Option<String> {
        let section = self.here.as_ref().filter(|section| !section.declares())?;
        let known = self.before.iter().find_map(|section| match (section.id, section.values.len()) {
            (2, _) => Some(section.value(0)),
            (10, 5) => Some(section.value(4)),
            _ => None,
        });
        let dimension = known.unwrap_or(section.value(4));
        let (row, words, due) = section.row_at(self.text, self.at, dimension)?;
        let (index, last) = (section.value(1).checked_add(row)?, section.value(2));
        let one = self.kind().trim_end_matches('s');
        match words {
            _ if index > last => Some(format!("the rows ended with {one} {}", both_bases(last))),
            0 => Some(format!("{one} {} is due", both_bases(index))),
            _ => Some(format!("{one} {} has {words} of its {due} words", both_bases(index))),
        }
    }
}
