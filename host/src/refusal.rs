//! Why a text or a set of tables was not taken.

use crate::place::{Lines, Place};
use crate::token::token_from;
use std::fmt;
use std::ops::Range;

/// The reasons for a refusal, numbered 1 to 19.
#[derive(Clone, Copy, Debug, PartialEq, Eq, Hash, PartialOrd, Ord)]
pub enum RefusalKind {
    /// 1: the file is over its size.
    TooLong = 1,
    /// 2: a token of the wrong sort for its place.
    Grammar,
    /// 3: a word that is not a number of its sort.
    Number,
    /// 4: a section id from 2000 to 3999.
    Binary,
    /// 5: a regular section before its declaration, or a second declaration.
    Undeclared,
    /// 6: indices or a zone id outside what is allowed.
    Range,
    /// 7: a declared total above the rows lent.
    TableRoom,
    /// 8: an index that an earlier section of its kind has.
    Overlap,
    /// 9: a dimension, type or element that is not listed.
    Type,
    /// 10: a dimension that disagrees or is not known.
    Dimension,
    /// 11: more regular sections than there is room for.
    ZoneRoom,
    /// 12: parentheses more than 64 deep.
    Depth,
    /// 13: nodes or faces never declared.
    Missing,
    /// 14: a declared index in no section.
    Untiled,
    /// 15: an audit with neither dimension 2 nor 3.
    AuditDimension,
    /// 16: an audit with a total over 65,535 or over the rows lent.
    AuditTotals,
    /// 17: an audit whose counts slice is shorter than the cells.
    AuditCounts,
    /// 18: tables that no text could give.
    Unwritable,
    /// 19: a text longer than its room or than a file may be.
    TextRoom,
}

/// One row for each kind: name, what is wrong, what to mend.
const KINDS: [(RefusalKind, &str, &str, &str); 19] = {
    use RefusalKind::*;
    [
        (TooLong, "TooLong", "the file is over 8388608 bytes", "write fewer digits to a coordinate, leave out comments and sections that nobody needs, or split the mesh"),
        (Grammar, "Grammar", "a token of the wrong sort stands here", "count the words of each row (a face is its nodes, then the right and the left cell, 0 for none) and close every parenthesis and string; if the file breaks off, look for a full disk or a writer that was not closed"),
        (Number, "Number", "this word is not a number of its sort", "for nan and inf find the node that was never computed; for 1,5 set the writer's locale to C; write coordinates with at most 17 digits (%.16e), whole numbers in hexadecimal without sign or 0x (%x), section ids in decimal"),
        (Binary, "Binary", "a section id from 2000 to 3999 stands for a binary body", "export the mesh as text (ASCII)"),
        (Undeclared, "Undeclared", "a regular section stands before the declaration of its kind, or a kind is declared twice", "write the declarations (zone 0) of 10, 12 and 13 once each, before all regular sections; when joining exports add up their totals"),
        (Range, "Range", "indices or a zone id outside what is allowed", "count from 1 and write ranges in hexadecimal: nodes 1 to ten are `1 a`, and `1 10` claims sixteen"),
        (TableRoom, "TableRoom", "the declared total is more than there is room for", "lend larger tables (up to 65535 rows); if the mesh is smaller the total is wrong, perhaps decimal: `1000` is 4096"),
        (Overlap, "Overlap", "an index of this section is in an earlier section of its kind", "start each section one behind the last index of the one before: `last` is included"),
        (Type, "Type", "a dimension, type or element that is not listed", "write types in hexadecimal (outflow is 24, interface 18); polyhedra and faces of five and more nodes are not covered"),
        (Dimension, "Dimension", "the dimension disagrees with an earlier one, or is not known", "write (2 2) or (2 3) at the start and the same number as the last word of each node header, or leave that word out"),
        (ZoneRoom, "ZoneRoom", "more than 64 regular sections", "join zones of one kind and type that follow each other; one node zone for all nodes will do"),
        (Depth, "Depth", "parentheses more than 64 deep", "write text in quotes: (0 \"...\"); look for a `)` that is missing in the sections before"),
        (Missing, "Missing", "nodes or faces are never declared", "write the declarations of nodes and faces, with total 0 if there are none; if they should be there, the file may be cut off"),
        (Untiled, "Untiled", "a declared index is in no section", "write every zone, hidden ones too, or declare the total that is really written"),
        (AuditDimension, "AuditDimension", "the audit was called with a dimension other than 2 and 3", "mend the calling program: no mesh causes this"),
        (AuditTotals, "AuditTotals", "the audit was called with a total over 65535 or over the rows lent", "mend the calling program: no mesh causes this"),
        (AuditCounts, "AuditCounts", "the audit was called with a counts slice shorter than the cells", "mend the calling program: no mesh causes this"),
        (Unwritable, "Unwritable", "no text of a mesh could give these tables", "change the row or the record that is named, so that the two agree"),
        (TextRoom, "TextRoom", "the text is longer than its room, or over 8388608 bytes", "give coordinates fewer digits, or split the mesh"),
    ]
};

impl RefusalKind {
    /// All kinds, in the order of their numbers.
    pub fn all() -> impl Iterator<Item = RefusalKind> {
        KINDS.iter().map(|row| row.0)
    }

    /// The kind of this number, `None` where there is none.
    pub fn from_number(number: u32) -> Option<RefusalKind> {
        Self::all().find(|kind| u32::from(kind.number()) == number)
    }

    /// Its number, 1 to 19.
    pub fn number(self) -> u8 {
        self as u8
    }

    fn row(self) -> &'static (RefusalKind, &'static str, &'static str, &'static str) {
        &KINDS[self as usize - 1]
    }

    /// Its name, such as `Grammar`.
    pub fn name(self) -> &'static str {
        self.row().1
    }

    /// What is wrong, in a few words.
    pub fn meaning(self) -> &'static str {
        self.row().2
    }

    /// What to mend.
    pub fn advice(self) -> &'static str {
        self.row().3
    }
}

/// Why a text or a set of tables was not taken, and where. Only the first thing wrong is told.
#[derive(Clone, Copy, Debug, PartialEq, Eq, Hash)]
pub struct Refusal {
    /// The reason.
    pub kind: RefusalKind,
    /// The number of top-level opening parentheses up to the place, 0 where there is no place.
    pub section: u32,
    /// The number of bytes before the place. At the end of the text it is the text's length.
    pub offset: u64,
}

impl Refusal {
    /// The line and column of the place; see [`Lines::place`] for how they count. With several questions about one text make [`Lines`] once.
    pub fn place(&self, text: &[u8]) -> Place {
        match self.start(text) {
            // Nothing needs to be counted in a file that is too long.
            0 => Place { line: 1, column: 1 },
            start => Lines::new(text).place(start),
        }
    }

    /// The token at the place, as a range of offsets: empty at the end of the text and for kinds that have no place.
    pub fn word(&self, text: &[u8]) -> Range<usize> {
        let start = self.start(text);
        if self.kind == RefusalKind::TooLong {
            return 0..0;
        }
        token_from(text, start).range()
    }

    /// The offset as an index into `text`; the end where it lies behind it.
    fn start(&self, text: &[u8]) -> usize {
        usize::try_from(self.offset).map_or(text.len(), |offset| offset.min(text.len()))
    }
}

impl fmt::Display for Refusal {
    fn fmt(&self, out: &mut fmt::Formatter<'_>) -> fmt::Result {
        let kind = self.kind;
        write!(out, "refused {} ({}): {}", kind.number(), kind.name(), kind.meaning())?;
        if kind < RefusalKind::AuditDimension && kind != RefusalKind::TooLong {
            write!(out, "; section {}, byte offset {}", self.section, self.offset)?;
        }
        Ok(())
    }
}

impl std::error::Error for Refusal {}

#[cfg(test)]
mod tests {
    use super::*;

    #[test]
    fn rows_stand_at_their_numbers() {
        for (at, row) in KINDS.iter().enumerate() {
            assert_eq!(row.0 as usize, at + 1);
            assert_eq!(row.0.name(), format!("{:?}", row.0));
            assert_eq!(RefusalKind::from_number(at as u32 + 1), Some(row.0));
        }
        assert_eq!(RefusalKind::from_number(0), None);
        assert_eq!(RefusalKind::from_number(20), None);
    }

    #[test]
    fn places_behind_the_text_are_its_end() {
        let refusal = Refusal { kind: RefusalKind::Untiled, section: 1, offset: u64::MAX };
        assert_eq!(refusal.word(b"ab\n"), 3..3);
        assert_eq!(refusal.place(b"ab\n"), Place { line: 2, column: 1 });
    }
}
