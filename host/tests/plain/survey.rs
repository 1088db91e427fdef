//! The first pass: the whole file is judged, and nothing is written.

use super::header::{header, Header, Kind};
use super::scan::{bad, Bad, Placed, Scan, Step};
use super::{MOST, MOST_ZONES};

const UNDECLARED: u32 = 5;
const RANGE: u32 = 6;
const TABLE_ROOM: u32 = 7;
const OVERLAP: u32 = 8;
const TYPE: u32 = 9;
const DIMENSION: u32 = 10;
const ZONE_ROOM: u32 = 11;
const MISSING: u32 = 13;
const UNTILED: u32 = 14;

/// Whole rows lent for nodes, faces and cells, and the most zones.
pub struct Room {
    pub rows: [usize; 3],
    pub zones: usize,
}

/// A regular section, and where its body's words begin.
#[derive(Clone, Copy, Default)]
pub struct Part {
    pub kind: Kind,
    pub zone: u32,
    pub first: u32,
    pub last: u32,
    pub ztype: u32,
    pub element: u32,
    pub body: usize,
}

impl Part {
    pub fn rows(&self) -> u32 {
        self.last - self.first + 1
    }
}

/// What a good file says: by kind, in the order nodes, faces, cells.
pub struct Found {
    pub dimension: u32,
    pub totals: [u32; 3],
    parts: [Part; MOST_ZONES],
    count: usize,
}

impl Found {
    pub fn parts(&self) -> &[Part] {
        &self.parts[..self.count]
    }
}

struct Survey<'a> {
    scan: Scan<'a>,
    room: &'a Room,
    section: u64,
    dimension: Option<u32>,
    totals: [Option<u32>; 3],
    parts: [Part; MOST_ZONES],
    count: usize,
}

/// Judges a file. A refusal comes with its section.
pub fn survey(text: &[u8], room: &Room) -> Result<Found, (u64, Bad)> {
    let mut survey = Survey {
        scan: Scan::new(text),
        room,
        section: 0,
        dimension: None,
        totals: [None; 3],
        parts: [Part::default(); MOST_ZONES],
        count: 0,
    };
    match survey.file().and_then(|()| survey.end(text.len())) {
        Ok(dimension) => Ok(Found {
            dimension,
            totals: survey.totals.map(|total| total.unwrap_or(0)),
            parts: survey.parts,
            count: survey.count,
        }),
        Err(bad) => Err((survey.section, bad)),
    }
}

impl Survey<'_> {
    fn file(&mut self) -> Step<()> {
        while self.scan.opens()? {
            self.section += 1;
            let id = self.scan.id()?;
            match Kind::of(id) {
                Some(kind) => self.table(kind)?,
                None if id == 2 => self.dimensions()?,
                None => self.scan.step_over()?,
            }
        }
        Ok(())
    }

    /// What is asked at the end of the file. Answers the dimension.
    fn end(&self, length: usize) -> Step<u32> {
        if self.totals[Kind::Nodes as usize].is_none() || self.totals[Kind::Faces as usize].is_none() {
            return bad(MISSING, length);
        }
        let Some(dimension) = self.dimension else { return bad(DIMENSION, length) };
        for kind in [Kind::Nodes, Kind::Faces, Kind::Cells] {
            // No two sections of a kind share an index, so their rows may be summed.
            let parts = self.parts[..self.count].iter().filter(|part| part.kind == kind);
            if parts.map(Part::rows).sum::<u32>() != self.totals[kind as usize].unwrap_or(0) {
                return bad(UNTILED, length);
            }
        }
        Ok(dimension)
    }

    /// Section 2.
    fn dimensions(&mut self) -> Step<()> {
        let word = self.scan.number()?;
        self.scan.mark(b')')?;
        if !matches!(word.value, 2 | 3) {
            return bad(TYPE, word.offset);
        }
        self.agree(word)
    }

    /// A word for the dimension: the first is taken, later ones must agree.
    fn agree(&mut self, word: Placed) -> Step<()> {
        if *self.dimension.get_or_insert(word.value) != word.value {
            return bad(DIMENSION, word.offset);
        }
        Ok(())
    }

    /// Sections 10, 12 and 13.
    fn table(&mut self, kind: Kind) -> Step<()> {
        let header = header(&mut self.scan, kind)?;
        if header.zone.value == 0 {
            self.declaration(kind, &header)?;
        } else {
            self.regular(kind, &header)?;
            self.body()?;
        }
        self.scan.mark(b')').map(|_| ())
    }

    fn declaration(&mut self, kind: Kind, header: &Header) -> Step<()> {
        let total = header.last.value;
        if self.totals[kind as usize].is_some() {
            return bad(UNDECLARED, header.zone.offset);
        }
        if header.first.value != 1 || total > MOST {
            return bad(RANGE, header.first.offset);
        }
        if total as usize > self.room.rows[kind as usize] {
            return bad(TABLE_ROOM, header.first.offset);
        }
        if let (Kind::Nodes, Some(word)) = (kind, header.fifth) {
            if !kind.has_fifth(word.value) {
                return bad(TYPE, word.offset);
            }
            self.agree(word)?;
        }
        self.totals[kind as usize] = Some(total);
        Ok(())
    }

    fn regular(&mut self, kind: Kind, header: &Header) -> Step<()> {
        let (first, last) = (header.first.value, header.last.value);
        let Some(total) = self.totals[kind as usize] else { return bad(UNDECLARED, header.zone.offset) };
        if header.zone.value > MOST || first == 0 || last < first || last > total {
            return bad(RANGE, header.first.offset);
        }
        let mut earlier = self.parts[..self.count].iter().filter(|part| part.kind == kind);
        if earlier.any(|part| part.first <= last && first <= part.last) {
            return bad(OVERLAP, header.first.offset);
        }
        if !kind.has_type(header.ztype.value) {
            return bad(TYPE, header.ztype.offset);
        }
        if let Some(word) = header.fifth.filter(|word| !kind.has_fifth(word.value)) {
            return bad(TYPE, word.offset);
        }
        if kind == Kind::Nodes {
            match header.fifth {
                Some(word) => self.agree(word)?,
                None if self.dimension.is_none() => return bad(DIMENSION, header.end),
                None => {}
            }
        }
        if self.count == self.room.zones {
            return bad(ZONE_ROOM, header.zone.offset);
        }
        let fifth = header.fifth.map_or(0, |word| word.value);
        let element = if kind == Kind::Nodes { 0 } else { fifth };
        let (zone, ztype) = (header.zone.value, header.ztype.value);
        self.parts[self.count] = Part { kind, zone, first, last, ztype, element, body: 0 };
        self.count += 1;
        Ok(())
    }

    /// The body of the latest part, if it has one.
    fn body(&mut self) -> Step<()> {
        let part = self.parts[self.count - 1];
        if part.kind == Kind::Cells && part.element != 0 {
            return Ok(());
        }
        self.scan.mark(b'(')?;
        self.parts[self.count - 1].body = self.scan.at();
        match part.kind {
            Kind::Nodes => {
                for _ in 0..part.rows() * self.dimension.unwrap_or(0) {
                    self.scan.coordinate()?;
                }
            }
            Kind::Cells => {
                for _ in 0..part.rows() {
                    self.listed(1, 6)?;
                }
            }
            Kind::Faces => self.face_rows(&part)?,
        }
        self.scan.mark(b')').map(|_| ())
    }

    fn face_rows(&mut self, part: &Part) -> Step<()> {
        if part.element != 0 {
            for _ in 0..part.rows() * (part.element + 2) {
                self.scan.number()?;
            }
            return Ok(());
        }
        for _ in 0..part.rows() {
            for _ in 0..self.listed(2, 4)? + 2 {
                self.scan.number()?;
            }
        }
        Ok(())
    }

    /// An element within a body.
    fn listed(&mut self, least: u32, most: u32) -> Step<u32> {
        let word = self.scan.number()?;
        if !(least..=most).contains(&word.value) {
            return bad(TYPE, word.offset);
        }
        Ok(word.value)
    }
}
