//! Why a text was refused, told with the text at hand.

use crate::names::{both_bases, section_name};
use crate::refusal::{Refusal, RefusalKind};
use crate::snippet::visible;
use crate::token::{hexadecimal, Sort};
use crate::walk::{Section, Walk};

/// Most characters of a word that are quoted.
const QUOTED: usize = 24;
/// The highest zone id and total.
const MOST: u32 = 65_535;

impl Refusal {
    /// One line for a mesher that names the word and the reason, as far as the text shows them.
    pub fn explain(&self, text: &[u8]) -> String {
        let Some(seen) = Seen::new(self, text) else { return self.kind.meaning().to_string() };
        match self.kind {
            RefusalKind::Grammar => seen.grammar(),
            RefusalKind::Number => seen.number(),
            RefusalKind::Binary => format!("section id {} stands for a binary body", seen.quote()),
            RefusalKind::Undeclared => seen.undeclared(),
            RefusalKind::Range => seen.range(),
            RefusalKind::Overlap => seen.overlap(),
            RefusalKind::Type => seen.type_word(),
            RefusalKind::Dimension => seen.dimension(),
            RefusalKind::Missing => seen.missing(),
            RefusalKind::Untiled => seen.untiled(),
            _ => self.kind.meaning().to_string(),
        }
    }

    /// What to mend. With the text at hand this is nearer to the place than [`RefusalKind::advice`].
    pub fn advice(&self, text: &[u8]) -> &'static str {
        let Some(seen) = Seen::new(self, text) else { return self.kind.advice() };
        match self.kind {
            RefusalKind::Grammar => seen.grammar_advice(),
            RefusalKind::Number => match seen.due() {
                Due::Id => "write section ids in decimal, without sign",
                Due::Coordinate => "for nan and inf find the node that was never computed; for 1,5 set the writer's locale to C; write at most 17 digits, as %.16e does",
                Due::Hexadecimal => "write whole numbers in hexadecimal without sign, point or 0x, as %x does",
            },
            RefusalKind::Missing if text.is_empty() => "write the mesh again: nothing has reached the file",
            _ => self.kind.advice(),
        }
    }
}

/// Sorts of numbers.
enum Due {
    Id,
    Coordinate,
    Hexadecimal,
}

/// The place of a refusal and the sections up to it.
pub(crate) struct Seen<'a> {
    pub(crate) text: &'a [u8],
    pub(crate) at: usize,
    word: &'a [u8],
    pub(crate) sort: Sort,
    /// The section of the place, where the place is in one.
    pub(crate) here: Option<Section>,
    pub(crate) before: Vec<Section>,
}

impl<'a> Seen<'a> {
    fn new(refusal: &Refusal, text: &'a [u8]) -> Option<Self> {
        let at = usize::try_from(refusal.offset).ok().filter(|&at| at <= text.len())?;
        if matches!(refusal.kind, RefusalKind::TooLong) || refusal.kind >= RefusalKind::AuditDimension {
            return None;
        }
        let token = crate::token::token_from(text, at);
        let mut before = Vec::new();
        let mut walk = Walk::new(text);
        // At the end of a whole file every section lies before.
        let whole = matches!(refusal.kind, RefusalKind::Missing | RefusalKind::Untiled);
        let mut here = None;
        while let Some(section) = walk.section() {
            let last = section.number == refusal.section && !whole;
            if last && (section.end > at || !walk.outside_at(at)) {
                here = Some(section);
                break;
            }
            // A file may have a million sections; the ones that tell something are few.
            let again = section.id == 2 && before.iter().any(|other: &Section| other.id == 2);
            if !section.words.is_empty() && !again {
                before.push(section);
            }
            if last {
                break;
            }
        }
        Some(Seen { text, at, word: &text[token.range()], sort: token.sort, here, before })
    }

    pub(crate) fn quote(&self) -> String {
        let mut word: String =
            String::from_utf8_lossy(&self.word[..self.word.len().min(4 * QUOTED)]).chars().map(visible).collect();
        if word.chars().count() > QUOTED {
            word = word.chars().take(QUOTED).chain(['…']).collect();
        }
        format!("`{word}`")
    }

    /// `nodes`, `cells` or `faces`.
    pub(crate) fn kind(&self) -> &'static str {
        section_name(self.id())
    }

    fn id(&self) -> u32 {
        self.here.as_ref().map_or(0, |section| section.id)
    }

    fn value(&self, at: usize) -> u32 {
        self.here.as_ref().map_or(0, |section| section.value(at))
    }

    /// What sort of number the word should be.
    fn due(&self) -> Due {
        let id = self.here.as_ref().is_none_or(|section| section.id_word.start == self.at);
        let body = self.here.as_ref().is_some_and(|section| self.at >= section.end);
        match (id, self.id()) {
            (true, _) => Due::Id,
            (_, 10) if body => Due::Coordinate,
            _ => Due::Hexadecimal,
        }
    }

    fn number(&self) -> String {
        let due = match self.due() {
            Due::Id => "a section id (1 to 5 decimal digits)",
            Due::Coordinate => "a coordinate (a decimal number, at most 18 digits, no more than 64 bytes)",
            Due::Hexadecimal => "a hexadecimal number of 1 to 8 digits",
        };
        format!("{} is not {due}", self.quote())
    }

    fn undeclared(&self) -> String {
        let (kind, id) = (self.kind(), self.id());
        match self.here.as_ref().is_some_and(Section::declares) {
            true => format!("{kind} are declared a second time"),
            false => format!("{kind} stand before their declaration `({id} (0 1 ...))`"),
        }
    }

    fn declared(&self, id: u32) -> Option<u32> {
        self.before.iter().find(|section| section.id == id && section.declares()).map(|section| section.value(2))
    }

    fn range(&self) -> String {
        let (kind, zone, first, last) = (self.kind(), self.value(0), self.value(1), self.value(2));
        let total = self.declared(self.id()).unwrap_or(0);
        if zone > MOST {
            format!("zone id {} is above 65535 (hex ffff)", both_bases(zone))
        } else if zone == 0 && first != 1 {
            format!("a declaration of {kind} has first {}, not 1", both_bases(first))
        } else if zone == 0 {
            format!("{} {kind} are declared, at most 65535 (hex ffff) are taken", both_bases(last))
        } else if first == 0 {
            format!("first is 0, but {kind} count from 1")
        } else if last < first {
            format!("last, {}, is below first, {}", both_bases(last), both_bases(first))
        } else {
            format!("last is {}, but {} {kind} are declared", both_bases(last), both_bases(total))
        }
    }

    fn overlap(&self) -> String {
        let (first, last) = (self.value(1), self.value(2));
        let shares = |other: &&Section| {
            other.id == self.id() && !other.declares() && other.value(1) <= last && first <= other.value(2)
        };
        let Some(other) = self.before.iter().find(shares) else { return RefusalKind::Overlap.meaning().to_string() };
        let (first, last) = (first.max(other.value(1)), last.min(other.value(2)));
        let verb = if first == last { "is" } else { "are" };
        let zone = both_bases(other.value(0));
        format!("{} {verb} in section {} of the file too, zone {zone}", span(self.kind(), first, last), other.number)
    }

    fn type_word(&self) -> String {
        let place = self.here.as_ref().and_then(|section| section.words.iter().position(|word| word.start == self.at));
        let what = match (self.id(), place) {
            (2, _) | (10, Some(4)) => "dimension (2 or 3)".to_string(),
            (id, Some(3)) => format!("{} type", section_name(id).trim_end_matches('s')),
            (13, None) => "number of nodes of a face (2, 3 or 4)".to_string(),
            (12, None) => "element of a cell (1 to 6)".to_string(),
            (id, _) => format!("{} element", section_name(id).trim_end_matches('s')),
        };
        match hexadecimal(self.word) {
            Some(value) if value > 9 => format!("{}, decimal {value}, is not a listed {what}", self.quote()),
            _ => format!("{} is not a listed {what}", self.quote()),
        }
    }

    fn dimension(&self) -> String {
        match self.sort {
            Sort::Word => format!("dimension {} disagrees with an earlier one", self.quote()),
            Sort::End => "the file ends and no dimension was given".to_string(),
            _ => "no dimension is known at this node section".to_string(),
        }
    }

    fn missing(&self) -> String {
        match (self.text.is_empty(), self.declared(10), self.declared(13)) {
            (true, ..) => "the file is empty".to_string(),
            (_, None, None) => {
                "the file ends, and neither nodes `(10 (0 1 ...))` nor faces `(13 (0 1 ...))` are declared".to_string()
            }
            (_, None, _) => "the file ends, and nodes `(10 (0 1 ...))` are never declared".to_string(),
            _ => "the file ends, and faces `(13 (0 1 ...))` are never declared".to_string(),
        }
    }

    fn untiled(&self) -> String {
        let gaps: Vec<String> = [10, 12, 13].into_iter().filter_map(|id| self.gap(id)).collect();
        match gaps.is_empty() {
            true => RefusalKind::Untiled.meaning().to_string(),
            false => format!("in no section: {}", gaps.join("; ")),
        }
    }

    /// The first declared indices of a kind that no section has.
    fn gap(&self, id: u32) -> Option<String> {
        let total = self.declared(id)?;
        let mut ranges: Vec<(u32, u32)> =
            self.before.iter().filter(|s| s.id == id && !s.declares()).map(|s| (s.value(1), s.value(2))).collect();
        ranges.sort_unstable();
        let mut due = 1;
        for (first, last) in ranges {
            if first > due {
                return Some(span(section_name(id), due, first - 1));
            }
            due = last.saturating_add(1);
        }
        (due <= total).then(|| span(section_name(id), due, total))
    }
}

/// `face 3`, `faces 3 to 26 (hex 3 to 1a)`.
pub(crate) fn span(kind: &str, first: u32, last: u32) -> String {
    match (first == last, last) {
        (true, _) => format!("{} {}", kind.trim_end_matches('s'), both_bases(first)),
        (_, 0..=9) => format!("{kind} {first} to {last}"),
        _ => format!("{kind} {first} to {last} (hex {first:x} to {last:x})"),
    }
}
