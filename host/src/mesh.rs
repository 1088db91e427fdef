//! A mesh that the proved reader has taken, with typed views of its tables.

use crate::audit::{audit_tables, Audit, Tables};
use crate::decimal::Decimal;
use crate::raw;
use crate::refusal::{Refusal, RefusalKind};

/// Most bytes of a file.
pub const MAX_BYTES: usize = 8_388_608;
/// Most nodes, faces and cells, each.
pub const MAX_ROWS: usize = 65_535;
/// Most zone records.
pub const MAX_ZONES: usize = 64;
/// Numbers in a node row, in each of its two tables.
pub const NODE_WORDS: usize = 3;
/// Words in a face row.
pub const FACE_WORDS: usize = 8;
/// Words in a cell row.
pub const CELL_WORDS: usize = 2;
/// Words in a zone record.
pub const ZONE_WORDS: usize = 6;

/// Flat or solid.
#[derive(Clone, Copy, Debug, PartialEq, Eq, Hash)]
pub enum Dimension {
    /// Flat: faces are edges.
    Two = 2,
    /// Solid.
    Three = 3,
}

/// A node: three coordinates, the third 0 in a flat mesh.
pub type Node = [Decimal; NODE_WORDS];

/// A face.
#[derive(Clone, Copy, Debug, PartialEq, Eq, Hash)]
pub struct Face<'a> {
    /// The word that says how many nodes it has; 2 to 4 in a mesh that was read.
    pub count: u32,
    /// Its nodes, as many as `count` says, at most 4.
    pub nodes: &'a [u32],
    /// The cell on its right, 0 for none.
    pub right: u32,
    /// The cell on its left, 0 for none.
    pub left: u32,
    /// The type of its zone.
    pub zone_type: u32,
}

impl<'a> Face<'a> {
    /// The face in a row of eight words.
    pub fn from_row(row: &'a [u32; FACE_WORDS]) -> Face<'a> {
        let shown = row[0].min(4) as usize;
        Face { count: row[0], nodes: &row[1..1 + shown], right: row[5], left: row[6], zone_type: row[7] }
    }
}

/// A cell.
#[derive(Clone, Copy, Debug, PartialEq, Eq, Hash)]
pub struct Cell {
    /// Its element, 1 to 6.
    pub element: u32,
    /// The type of its zone.
    pub zone_type: u32,
}

/// A regular section of the file.
#[derive(Clone, Copy, Debug, PartialEq, Eq, Hash)]
pub struct Zone {
    /// The section's id: 10 nodes, 12 cells, 13 faces.
    pub section: u32,
    /// The zone's id. Sections of different kinds, and of the same, may share one.
    pub zone: u32,
    /// Its first index.
    pub first: u32,
    /// Its last index, which it has too.
    pub last: u32,
    /// The zone's type.
    pub zone_type: u32,
    /// The element of its header, 0 for nodes and for mixed sections.
    pub element: u32,
}

impl Zone {
    /// The section in a record of six words.
    pub fn from_record(record: &[u32; ZONE_WORDS]) -> Zone {
        let [section, zone, first, last, zone_type, element] = *record;
        Zone { section, zone, first, last, zone_type, element }
    }
}

/// A mesh that the proved reader has taken. Its rows are what the file says, or what was set since; whether they make sense together is for [`Mesh::audit`].
#[derive(Clone, Debug, PartialEq, Eq)]
pub struct Mesh {
    dimension: Dimension,
    pub(crate) mantissas: Vec<i64>,
    pub(crate) exponents: Vec<i32>,
    pub(crate) faces: Vec<u32>,
    pub(crate) cells: Vec<u32>,
    pub(crate) zones: Vec<u32>,
}

impl Mesh {
    /// Reads a mesh, with the most room that one may have.
    pub fn read(text: &[u8]) -> Result<Mesh, Refusal> {
        // The system hands out zeroed pages when they are first written, so room that is not used costs nothing.
        let mut mantissas = vec![0; MAX_ROWS * NODE_WORDS];
        let mut exponents = vec![0; MAX_ROWS * NODE_WORDS];
        let mut faces = vec![0; MAX_ROWS * FACE_WORDS];
        let mut cells = vec![0; MAX_ROWS * CELL_WORDS];
        let mut zones = vec![0; MAX_ZONES * ZONE_WORDS];
        let mut answer = [0; raw::READ_WORDS];
        let number = raw::read(text, &mut mantissas, &mut exponents, &mut faces, &mut cells, &mut zones, &mut answer);
        if number != 0 {
            return Err(refusal(number, answer[raw::SECTION], answer[raw::OFFSET]));
        }
        let rows = |place: usize| usize::try_from(answer[place]).expect("totals are at most 65,535");
        cut(&mut mantissas, rows(raw::NODES) * NODE_WORDS);
        cut(&mut exponents, rows(raw::NODES) * NODE_WORDS);
        cut(&mut faces, rows(raw::FACES) * FACE_WORDS);
        cut(&mut cells, rows(raw::CELLS) * CELL_WORDS);
        cut(&mut zones, rows(raw::ZONES) * ZONE_WORDS);
        let dimension = match answer[raw::DIMENSION] {
            2 => Dimension::Two,
            3 => Dimension::Three,
            other => panic!("the proved reader answered dimension {other}"),
        };
        Ok(Mesh { dimension, mantissas, exponents, faces, cells, zones })
    }

    /// Audits the mesh: all its faults, and for each cell how many face sides name it.
    pub fn audit(&self) -> Audit {
        let mut counts = vec![0; self.cell_count()];
        let faults = audit_tables(&self.tables(), &mut counts);
        let faults = faults.unwrap_or_else(|refusal| panic!("a mesh that was read can be audited, but: {refusal}"));
        Audit { total: faults.len() as u64, faults, counts }
    }

    /// The tables as the audit takes them.
    pub fn tables(&self) -> Tables<'_> {
        Tables {
            dimension: self.dimension as u32,
            nodes: self.node_count() as u32,
            faces: self.face_count() as u32,
            cells: self.cell_count() as u32,
            face_rows: &self.faces,
            cell_rows: &self.cells,
        }
    }

    /// Flat or solid.
    pub fn dimension(&self) -> Dimension {
        self.dimension
    }

    /// How many nodes there are.
    pub fn node_count(&self) -> usize {
        self.mantissas.len() / NODE_WORDS
    }

    /// How many faces there are.
    pub fn face_count(&self) -> usize {
        self.faces.len() / FACE_WORDS
    }

    /// How many cells there are.
    pub fn cell_count(&self) -> usize {
        self.cells.len() / CELL_WORDS
    }

    /// The nodes, from node 1 on.
    pub fn nodes(&self) -> impl ExactSizeIterator<Item = Node> + '_ {
        let exponents = self.exponents.chunks_exact(NODE_WORDS);
        self.mantissas.chunks_exact(NODE_WORDS).zip(exponents).map(|(mantissas, exponents)| {
            std::array::from_fn(|at| Decimal { mantissa: mantissas[at], exponent: exponents[at] })
        })
    }

    /// The faces, from face 1 on.
    pub fn faces(&self) -> impl ExactSizeIterator<Item = Face<'_>> + '_ {
        self.faces.chunks_exact(FACE_WORDS).map(|row| Face::from_row(row.try_into().expect("eight words")))
    }

    /// The cells, from cell 1 on.
    pub fn cells(&self) -> impl ExactSizeIterator<Item = Cell> + '_ {
        self.cells.chunks_exact(CELL_WORDS).map(|row| Cell { element: row[0], zone_type: row[1] })
    }

    /// The zones, in the order of the file.
    pub fn zones(&self) -> impl ExactSizeIterator<Item = Zone> + '_ {
        self.zones.chunks_exact(ZONE_WORDS).map(|record| Zone::from_record(record.try_into().expect("six words")))
    }

    /// The face of this index, from 1; `None` where there is none.
    pub fn face(&self, index: u32) -> Option<Face<'_>> {
        let start = index.checked_sub(1)? as usize * FACE_WORDS;
        let row = self.faces.get(start..start + FACE_WORDS)?;
        Some(Face::from_row(row.try_into().expect("eight words")))
    }

    /// The cell of this index, from 1; `None` where there is none.
    pub fn cell(&self, index: u32) -> Option<Cell> {
        let start = index.checked_sub(1)? as usize * CELL_WORDS;
        let row = self.cells.get(start..start + CELL_WORDS)?;
        Some(Cell { element: row[0], zone_type: row[1] })
    }

    /// The zone that has this index among the sections of one id, and its place among [`Mesh::zones`].
    pub fn zone_of(&self, section: u32, index: u32) -> Option<(usize, Zone)> {
        let has = |zone: &Zone| zone.section == section && (zone.first..=zone.last).contains(&index);
        self.zones().enumerate().find(|(_, zone)| has(zone))
    }

    /// The mantissas, three to a node.
    pub fn mantissa_table(&self) -> &[i64] {
        &self.mantissas
    }

    /// The exponents, three to a node.
    pub fn exponent_table(&self) -> &[i32] {
        &self.exponents
    }

    /// The face rows, eight words each: node count, four nodes, right cell, left cell, zone type.
    pub fn face_table(&self) -> &[u32] {
        &self.faces
    }

    /// The cell rows, two words each: element, zone type.
    pub fn cell_table(&self) -> &[u32] {
        &self.cells
    }

    /// The zone records, six words each: section, zone, first, last, type, element.
    pub fn zone_table(&self) -> &[u32] {
        &self.zones
    }
}

fn cut<T>(table: &mut Vec<T>, length: usize) {
    table.truncate(length);
    table.shrink_to_fit();
}

/// The refusal of a number that the archive answered.
pub(crate) fn refusal(number: u32, section: u64, offset: u64) -> Refusal {
    let kind = RefusalKind::from_number(number);
    let kind = kind.unwrap_or_else(|| panic!("the proved archive answered {number}, which is no refusal"));
    Refusal { kind, section: u32::try_from(section).expect("sections fit the file"), offset }
}
