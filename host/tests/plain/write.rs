//! The writer's first pass: tables are judged, and the length of their text is measured.

use super::header::Kind;
use super::sections::{decimal_digits, hexadecimal_digits, put_text, Text};
use super::{put, CELL_WORDS, FACE_WORDS, FILE_BYTES, MOST, MOST_ZONES, NODE_WORDS, ZONE_WORDS};

const UNWRITABLE: u32 = 18;
const TEXT_ROOM: u32 = 19;

/// One over the largest mantissa.
const MANTISSAS: u64 = 1_000_000_000_000_000_000;
const FARTHEST: u32 = 400;

/// Tables to be written, cut to their totals.
pub struct Tables<'a> {
    pub dimension: u32,
    pub mantissas: &'a [i64],
    pub exponents: &'a [i32],
    pub faces: &'a [u32],
    pub cells: &'a [u32],
    pub zones: &'a [u32],
}

/// A zone record whose words are good.
pub struct Zone {
    pub kind: Kind,
    pub zone: u32,
    pub first: usize,
    pub last: usize,
    pub ztype: u32,
    pub element: u32,
}

/// As `ravneket::raw::write`.
#[allow(clippy::too_many_arguments)]
pub fn write(
    dimension: u32,
    nodes: u32,
    faces: u32,
    cells: u32,
    mantissas: &[i64],
    exponents: &[i32],
    face_rows: &[u32],
    cell_rows: &[u32],
    zones: &[u32],
    text: &mut [u8],
    answer: &mut [u64],
) -> u32 {
    put(answer, &[0]);
    if [nodes, faces, cells].iter().any(|&total| total > MOST) {
        return UNWRITABLE;
    }
    let [nodes, faces, cells] = [nodes, faces, cells].map(|total| total as usize);
    let (Some(mantissas), Some(exponents), Some(faces), Some(cells)) = (
        mantissas.get(..nodes * NODE_WORDS),
        exponents.get(..nodes * NODE_WORDS),
        face_rows.get(..faces * FACE_WORDS),
        cell_rows.get(..cells * CELL_WORDS),
    ) else {
        return UNWRITABLE;
    };
    let tables = Tables { dimension, mantissas, exponents, faces, cells, zones };
    let Some(length) = tables.length() else { return UNWRITABLE };
    if length > text.len().min(FILE_BYTES) {
        return TEXT_ROOM;
    }
    put_text(&tables, &mut Text::new(&mut text[..length]));
    put(answer, &[length as u64]);
    0
}

impl Tables<'_> {
    /// How many rows of a kind there are.
    pub fn total(&self, kind: Kind) -> usize {
        match kind {
            Kind::Nodes => self.mantissas.len() / NODE_WORDS,
            Kind::Faces => self.faces.len() / FACE_WORDS,
            Kind::Cells => self.cells.len() / CELL_WORDS,
        }
    }

    /// The zone of a record; none if a word of it is bad.
    pub fn zone(&self, record: &[u32]) -> Option<Zone> {
        let &[id, zone, first, last, ztype, element] = record else { return None };
        let kind = Kind::of(id)?;
        let good = (1..=MOST).contains(&zone)
            && (1..=last).contains(&first)
            && last as usize <= self.total(kind)
            && kind.has_type(ztype)
            && if kind == Kind::Nodes { element == 0 } else { kind.has_fifth(element) };
        good.then_some(Zone { kind, zone, first: first as usize, last: last as usize, ztype, element })
    }

    /// The length of the text; none if there is no text.
    fn length(&self) -> Option<usize> {
        let records = self.zones.chunks_exact(ZONE_WORDS);
        if !matches!(self.dimension, 2 | 3) || records.len() > MOST_ZONES || !self.tiled() {
            return None;
        }
        let digits = |kind: Kind| hexadecimal_digits(self.total(kind) as u32);
        let all = digits(Kind::Nodes) + digits(Kind::Faces) + digits(Kind::Cells);
        let mut length = "(2 D)\n(10 (0 1 N 0 D))\n(12 (0 1 C 0 0))\n(13 (0 1 F 0 0))\n".len() - 3 + all;
        for record in records {
            length += self.section(&self.zone(record)?)?;
        }
        Some(length)
    }

    /// Whether each index is in one record of its kind, if no record has a bad word.
    fn tiled(&self) -> bool {
        let mut rows = [0; 3];
        for (place, record) in self.zones.chunks_exact(ZONE_WORDS).enumerate() {
            let Some(zone) = self.zone(record) else { return false };
            let earlier = self.zones.chunks_exact(ZONE_WORDS).take(place);
            let shares = |other: &[u32]| {
                other[0] == record[0] && other[2] as usize <= zone.last && zone.first <= other[3] as usize
            };
            if earlier.into_iter().any(shares) {
                return false;
            }
            rows[zone.kind as usize] += zone.last - zone.first + 1;
        }
        [Kind::Nodes, Kind::Faces, Kind::Cells].into_iter().all(|kind| rows[kind as usize] == self.total(kind))
    }

    /// The length of a section; none if a row of it is bad.
    fn section(&self, zone: &Zone) -> Option<usize> {
        let (from, to) = (zone.first - 1, zone.last);
        let header = [zone.zone, zone.first as u32, zone.last as u32, zone.ztype].map(hexadecimal_digits);
        let body = match zone.kind {
            Kind::Nodes => {
                let rows = from * NODE_WORDS..to * NODE_WORDS;
                points(self.dimension, &self.mantissas[rows.clone()], &self.exponents[rows])?
            }
            Kind::Faces => faces(zone, &self.faces[from * FACE_WORDS..to * FACE_WORDS])?,
            Kind::Cells => cells(zone, &self.cells[from * CELL_WORDS..to * CELL_WORDS])?,
        };
        Some("(10 (    5))\n".len() + header.iter().sum::<usize>() + body)
    }
}

/// The length of node rows with their parentheses.
fn points(dimension: u32, mantissas: &[i64], exponents: &[i32]) -> Option<usize> {
    let mut length = 2;
    for (mantissas, exponents) in mantissas.chunks_exact(NODE_WORDS).zip(exponents.chunks_exact(NODE_WORDS)) {
        if dimension == 2 && (mantissas[2], exponents[2]) != (0, 0) {
            return None;
        }
        for (&mantissa, &exponent) in mantissas.iter().zip(exponents).take(dimension as usize) {
            let (digits, power) = (mantissa.unsigned_abs(), exponent.unsigned_abs());
            let canonical = if mantissa == 0 { exponent == 0 } else { mantissa % 10 != 0 };
            if !canonical || digits >= MANTISSAS || power > FARTHEST {
                return None;
            }
            let signs = usize::from(mantissa < 0) + usize::from(exponent < 0);
            length += signs + decimal_digits(digits) + decimal_digits(power.into()) + 2;
        }
    }
    Some(length)
}

/// The length of face rows with their parentheses. A byte stands before each word.
fn faces(zone: &Zone, rows: &[u32]) -> Option<usize> {
    let mut length = 2;
    for row in rows.chunks_exact(FACE_WORDS) {
        let row: &[u32; FACE_WORDS] = row.try_into().expect("chunks are rows");
        let count = row[0];
        let fits = if zone.element == 0 { matches!(count, 2..=4) } else { count == zone.element };
        if !fits || row[7] != zone.ztype {
            return None;
        }
        let (nodes, spare) = row[1..5].split_at(count as usize);
        if spare.iter().any(|&node| node != 0) {
            return None;
        }
        let words = nodes.iter().chain(&row[5..7]);
        length += words.map(|&word| 1 + hexadecimal_digits(word)).sum::<usize>();
        length += if zone.element == 0 { 2 } else { 0 };
    }
    Some(length)
}

/// The length of cell rows with their parentheses; 0 where there is no body.
fn cells(zone: &Zone, rows: &[u32]) -> Option<usize> {
    let fits = |element: u32| if zone.element == 0 { matches!(element, 1..=6) } else { element == zone.element };
    let good = rows.chunks_exact(CELL_WORDS).all(|row| fits(row[0]) && row[1] == zone.ztype);
    good.then_some(if zone.element == 0 { 2 + rows.len() } else { 0 })
}
