//! Tables written as text.

use crate::blame::{blame, Blame};
use crate::length::text_length;
use crate::mesh::{Mesh, CELL_WORDS, FACE_WORDS, MAX_BYTES, NODE_WORDS, ZONE_WORDS};
use crate::raw;
use crate::refusal::RefusalKind;
use std::fmt;

/// All tables of a mesh. They may hold any words and any totals.
#[derive(Clone, Copy, Debug, PartialEq, Eq)]
pub struct MeshTables<'a> {
    /// 2 or 3.
    pub dimension: u32,
    /// How many nodes there are. Rows behind the totals are not looked at.
    pub nodes: u32,
    /// How many faces there are.
    pub faces: u32,
    /// How many cells there are.
    pub cells: u32,
    /// Mantissas, three to a node.
    pub mantissas: &'a [i64],
    /// Exponents, three to a node.
    pub exponents: &'a [i32],
    /// Face rows of eight words: node count, four nodes, right cell, left cell, zone type.
    pub face_rows: &'a [u32],
    /// Cell rows of two words: element, zone type.
    pub cell_rows: &'a [u32],
    /// Zone records of six words: section, zone, first, last, type, element. Every whole record is a section of the text.
    pub zones: &'a [u32],
}

/// Why tables were not written.
#[derive(Clone, Debug, PartialEq, Eq)]
pub enum Unwritten {
    /// 18: no text could give these tables. The first row or record to blame; `None` if it was not found.
    Unwritable(Option<Blame>),
    /// 19: the text would have so many bytes, more than [`MAX_BYTES`].
    TextRoom {
        /// The length of the text.
        bytes: u64,
    },
}

impl Unwritten {
    /// The reason, with its number.
    pub fn kind(&self) -> RefusalKind {
        match self {
            Unwritten::Unwritable(_) => RefusalKind::Unwritable,
            Unwritten::TextRoom { .. } => RefusalKind::TextRoom,
        }
    }

    /// One line for a mesher that names what is to blame.
    pub fn explain(&self) -> String {
        match self {
            Unwritten::Unwritable(Some(blame)) => blame.message.clone(),
            Unwritten::Unwritable(None) => {
                format!("{}; which row or record is to blame was not found", self.kind().meaning())
            }
            Unwritten::TextRoom { bytes } => {
                format!("the text would have {bytes} bytes, but a file has at most {MAX_BYTES}")
            }
        }
    }
}

impl fmt::Display for Unwritten {
    fn fmt(&self, out: &mut fmt::Formatter<'_>) -> fmt::Result {
        let kind = self.kind();
        write!(out, "refused {} ({}): {}", kind.number(), kind.name(), self.explain())
    }
}

impl std::error::Error for Unwritten {}

/// Writes any tables with the proved writer. To given tables belongs one text, and reading it gives them back.
pub fn write_tables(tables: &MeshTables) -> Result<Vec<u8>, Unwritten> {
    let mut text = vec![0; room(tables)];
    let mut answer = [0; raw::WRITE_WORDS];
    let number = raw::write(
        tables.dimension,
        tables.nodes,
        tables.faces,
        tables.cells,
        tables.mantissas,
        tables.exponents,
        tables.face_rows,
        tables.cell_rows,
        tables.zones,
        &mut text,
        &mut answer,
    );
    match RefusalKind::from_number(number) {
        None if number == 0 => {
            text.truncate(usize::try_from(answer[raw::LENGTH]).expect("the text fits its room"));
            text.shrink_to_fit();
            Ok(text)
        }
        Some(RefusalKind::Unwritable) => Err(Unwritten::Unwritable(blame(tables))),
        Some(RefusalKind::TextRoom) => Err(Unwritten::TextRoom { bytes: text_length(tables) }),
        _ => panic!("the proved writer answered {number}, which is no refusal of it"),
    }
}

/// Bytes that no text of such tables is longer than, or the most that a file has: 19 then always speaks of the file.
fn room(tables: &MeshTables) -> usize {
    // A total above the rows is refused with 18 and needs no room.
    let rows = |total: u32, words: usize, row: usize| (words / row).min(total as usize);
    let nodes = rows(tables.nodes, tables.mantissas.len(), NODE_WORDS);
    let faces = rows(tables.faces, tables.face_rows.len(), FACE_WORDS);
    let cells = rows(tables.cells, tables.cell_rows.len(), CELL_WORDS);
    let zones = tables.zones.len() / ZONE_WORDS;
    // The longest word of a node is `-999999999999999999e-400`, that of a face `ffffffff`; one byte stands before each.
    let room = 3 * 25 * nodes + (2 + 6 * 9) * faces + 2 * cells + 40 * zones + 100;
    room.min(MAX_BYTES)
}

impl Mesh {
    /// The text of the mesh, written by the proved writer; reading it gives this mesh again. A mesh that was read and not edited is refused only where its text is over [`MAX_BYTES`].
    pub fn to_text(&self) -> Result<Vec<u8>, Unwritten> {
        write_tables(&self.mesh_tables())
    }

    /// All tables, as the writer takes them.
    pub fn mesh_tables(&self) -> MeshTables<'_> {
        MeshTables {
            dimension: self.dimension() as u32,
            nodes: self.node_count() as u32,
            faces: self.face_count() as u32,
            cells: self.cell_count() as u32,
            mantissas: self.mantissa_table(),
            exponents: self.exponent_table(),
            face_rows: self.face_table(),
            cell_rows: self.cell_table(),
            zones: self.zone_table(),
        }
    }
}
