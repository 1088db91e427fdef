//! A mesh with rows set anew. Any words may be set: whether the tables still have a text is for [`Mesh::to_text`], whether they make sense for [`Mesh::audit`].

use crate::decimal::Decimal;
use crate::fault::Side;
use crate::mesh::{Mesh, Zone, CELL_WORDS, FACE_WORDS, NODE_WORDS, ZONE_WORDS};
use crate::names::counted;
use std::fmt;
use std::mem::replace;

/// Something that the mesh does not have was to be set; nothing was changed.
#[derive(Clone, Debug, PartialEq, Eq)]
pub struct NotThere(String);

impl NotThere {
    fn index(what: &str, index: usize, total: usize) -> NotThere {
        NotThere(format!("there is no {what} {index}; the mesh has {}", counted(total, what)))
    }
}

impl fmt::Display for NotThere {
    fn fmt(&self, out: &mut fmt::Formatter<'_>) -> fmt::Result {
        out.write_str(&self.0)
    }
}

impl std::error::Error for NotThere {}

/// Each answers what was there before.
impl Mesh {
    /// Sets a coordinate of a node: axis 0 is x, 1 is y and 2, in a solid mesh, is z.
    pub fn set_coordinate(&mut self, node: u32, axis: usize, value: Decimal) -> Result<Decimal, NotThere> {
        let at = row("node", node, self.node_count())?;
        if axis >= self.dimension() as usize {
            return Err(NotThere(format!("there is no coordinate {axis} in a {}D mesh", self.dimension() as u32)));
        }
        let word = at * NODE_WORDS + axis;
        let mantissa = replace(&mut self.mantissas[word], value.mantissa);
        Ok(Decimal { mantissa, exponent: replace(&mut self.exponents[word], value.exponent) })
    }

    /// Sets one of the nodes that a face has; positions count from 0.
    pub fn set_face_node(&mut self, face: u32, position: usize, node: u32) -> Result<u32, NotThere> {
        let row = self.face_row(face)?;
        let count = row[0].min(4) as usize;
        if position >= count {
            let has = counted(count, "node");
            return Err(NotThere(format!(
                "there is no position {position} in face {face}; it has {has}, from position 0"
            )));
        }
        Ok(replace(&mut row[1 + position], node))
    }

    /// Sets all nodes of a face and with them its node count. A row has room for four.
    pub fn set_face_nodes(&mut self, face: u32, nodes: &[u32]) -> Result<Vec<u32>, NotThere> {
        let row = self.face_row(face)?;
        if nodes.len() > 4 {
            return Err(NotThere(format!("there is no room for {} nodes in a face; it has at most 4", nodes.len())));
        }
        let before = row[1..=row[0].min(4) as usize].to_vec();
        row[..5].fill(0);
        row[0] = nodes.len() as u32;
        row[1..=nodes.len()].copy_from_slice(nodes);
        Ok(before)
    }

    /// Sets the cell on a side of a face, 0 for none.
    pub fn set_side(&mut self, face: u32, side: Side, cell: u32) -> Result<u32, NotThere> {
        let row = self.face_row(face)?;
        Ok(replace(&mut row[5 + usize::from(side.number())], cell))
    }

    /// Sets the element of a cell. Its zone record stays, and agrees only if it is mixed (element 0) or of this element.
    pub fn set_element(&mut self, cell: u32, element: u32) -> Result<u32, NotThere> {
        let at = row("cell", cell, self.cell_count())?;
        Ok(replace(&mut self.cells[at * CELL_WORDS], element))
    }

    /// Sets the id of the zone at this place among [`Mesh::zones`], from 0.
    pub fn set_zone_id(&mut self, place: usize, zone: u32) -> Result<u32, NotThere> {
        self.set_record(place, 1, zone)
    }

    /// Sets the type of a zone, and with it that of all its faces or cells.
    pub fn set_zone_type(&mut self, place: usize, zone_type: u32) -> Result<u32, NotThere> {
        let before = self.set_record(place, 4, zone_type)?;
        match self.zone_at(place) {
            Zone { section: 12, first, last, .. } => set_column(&mut self.cells, CELL_WORDS, 1, first, last, zone_type),
            Zone { section: 13, first, last, .. } => set_column(&mut self.faces, FACE_WORDS, 7, first, last, zone_type),
            _ => {}
        }
        Ok(before)
    }

    /// Sets the element of a zone: 0 makes it mixed and leaves its rows. Any other is set for all its cells too; faces keep their nodes.
    pub fn set_zone_element(&mut self, place: usize, element: u32) -> Result<u32, NotThere> {
        let before = self.set_record(place, 5, element)?;
        if let (Zone { section: 12, first, last, .. }, 1..) = (self.zone_at(place), element) {
            set_column(&mut self.cells, CELL_WORDS, 0, first, last, element);
        }
        Ok(before)
    }

    fn face_row(&mut self, face: u32) -> Result<&mut [u32], NotThere> {
        let at = row("face", face, self.face_count())?;
        Ok(&mut self.faces[at * FACE_WORDS..][..FACE_WORDS])
    }

    fn zone_at(&self, place: usize) -> Zone {
        self.zones().nth(place).expect("the record was set")
    }

    fn set_record(&mut self, place: usize, word: usize, value: u32) -> Result<u32, NotThere> {
        let total = self.zones().len();
        if place >= total {
            return Err(NotThere(format!(
                "there is no record {place}; the mesh has {}, from 0",
                counted(total, "record")
            )));
        }
        Ok(replace(&mut self.zones[place * ZONE_WORDS + word], value))
    }
}

/// The place of an index's row, from 0.
fn row(what: &str, index: u32, total: usize) -> Result<usize, NotThere> {
    let at = (index as usize).checked_sub(1).filter(|&at| at < total);
    at.ok_or(NotThere::index(what, index as usize, total))
}

/// Sets one word in the rows of these indices.
fn set_column(table: &mut [u32], words: usize, word: usize, first: u32, last: u32, value: u32) {
    let rows = table.chunks_exact_mut(words).take(last as usize).skip(first as usize - 1);
    rows.for_each(|row| row[word] = value);
}
