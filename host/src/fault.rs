//! The faults that the audit lists.

use crate::names::both_bases;
use std::fmt;

/// A side of a face.
#[derive(Clone, Copy, Debug, PartialEq, Eq, Hash, PartialOrd, Ord)]
pub enum Side {
    /// Side 0: the first cell word of a face.
    Right,
    /// Side 1: the second cell word of a face.
    Left,
}

impl Side {
    /// Its number in the list: 0 right, 1 left.
    pub fn number(self) -> u8 {
        self as u8
    }

    /// `right` or `left`.
    pub fn name(self) -> &'static str {
        match self {
            Side::Right => "right",
            Side::Left => "left",
        }
    }
}

/// A fault. Faces and cells count from 1, positions from 0, as in the list.
#[derive(Clone, Copy, Debug, PartialEq, Eq, Hash)]
#[allow(missing_docs)] // The fields are what their names say.
pub enum Fault {
    /// 1: the node count is not 2 (flat) or not 3 or 4 (solid).
    NodeCount { face: u32 },
    /// 2: a node is 0 or above the number of nodes.
    NodeOutside { face: u32, position: u8 },
    /// 3: a node equals one at an earlier position of this face.
    NodeTwice { face: u32, position: u8 },
    /// 4: a cell is above the number of cells.
    CellBeyond { face: u32, side: Side },
    /// 5: both sides name the same cell, not 0.
    SameCell { face: u32 },
    /// 6: an interior face has no cell on a side.
    InteriorOpen { face: u32 },
    /// 7: there is no cell on either side.
    NoCell { face: u32 },
    /// 8: the element does not fit the dimension.
    Element { cell: u32 },
    /// 9: `count` face sides name the cell, which does not fit its element.
    FaceCount { cell: u32, count: u32 },
}

/// One row for each kind: name, what to mend.
const KINDS: [(&str, &str); 9] = [
    ("wrong number of nodes", "in a flat mesh write edges of 2 nodes as faces, in a solid one faces of 3 or 4; in a section of element 0 check the count in front of each row"),
    ("node outside the mesh", "count nodes from 1: if 0 stands here, add 1 to every node of every face; if the node is too high, check that it is written in hexadecimal and that the totals are of this mesh"),
    ("node twice in a face", "look for nodes merged by a tolerance wider than the edge; drop collapsed edges, write a quadrilateral with one as a triangle"),
    ("cell beyond the mesh", "number cells from 1 without gaps: cells of a zone that was left out keep their numbers, or cells were counted over several exports"),
    ("same cell on both sides", "at a boundary write 0 for the side with no cell; inside, the search for the neighbour found the cell itself: look at thin walls and joined periodic sides"),
    ("interior face with an open side", "give boundary faces a zone of their own with its boundary type (3 for a wall); if they should lie inside, the cells beyond were not exported"),
    ("face of no cell", "drop faces left from an earlier mesh or a surface import, or enter the cell that they bound"),
    ("element of the other dimension", "flat: 1 triangle, 3 quadrilateral; solid: 2 tetrahedron, 4 hexahedron, 5 pyramid, 6 wedge; if the element is right, section 2 or ND is wrong"),
    ("wrong number of faces", "if kinds 4, 5 or 7 are listed, mend them first; too few: a face zone was not exported, or the element is wrong; too many: a face was written twice, or the cell lies beside hanging nodes and there is nothing to mend"),
];

impl Fault {
    /// The names of kinds 1 to 9, and what to mend for each.
    pub fn kinds() -> impl Iterator<Item = (u8, &'static str, &'static str)> {
        (1..).zip(KINDS).map(|(kind, (name, advice))| (kind, name, advice))
    }

    /// Its kind, 1 to 9.
    pub fn kind(&self) -> u8 {
        match self {
            Fault::NodeCount { .. } => 1,
            Fault::NodeOutside { .. } => 2,
            Fault::NodeTwice { .. } => 3,
            Fault::CellBeyond { .. } => 4,
            Fault::SameCell { .. } => 5,
            Fault::InteriorOpen { .. } => 6,
            Fault::NoCell { .. } => 7,
            Fault::Element { .. } => 8,
            Fault::FaceCount { .. } => 9,
        }
    }

    /// The name of its kind.
    pub fn name(&self) -> &'static str {
        KINDS[usize::from(self.kind()) - 1].0
    }

    /// What to mend.
    pub fn advice(&self) -> &'static str {
        KINDS[usize::from(self.kind()) - 1].1
    }

    /// The face it is of, `None` for one of a cell.
    pub fn face(&self) -> Option<u32> {
        match *self {
            Fault::NodeCount { face }
            | Fault::NodeOutside { face, .. }
            | Fault::NodeTwice { face, .. }
            | Fault::CellBeyond { face, .. }
            | Fault::SameCell { face }
            | Fault::InteriorOpen { face }
            | Fault::NoCell { face } => Some(face),
            Fault::Element { .. } | Fault::FaceCount { .. } => None,
        }
    }

    /// The cell it is of, `None` for one of a face.
    pub fn cell(&self) -> Option<u32> {
        match *self {
            Fault::Element { cell } | Fault::FaceCount { cell, .. } => Some(cell),
            _ => None,
        }
    }
}

/// What is wrong where, in one line. [`Fault::explain`] says more with the mesh at hand.
impl fmt::Display for Fault {
    fn fmt(&self, out: &mut fmt::Formatter<'_>) -> fmt::Result {
        match (self.face(), self.cell()) {
            (Some(face), _) => write!(out, "face {}: ", both_bases(face))?,
            (_, Some(cell)) => write!(out, "cell {}: ", both_bases(cell))?,
            _ => unreachable!("every fault is of a face or a cell"),
        }
        match self {
            Fault::NodeCount { .. } => write!(out, "its number of nodes does not fit the dimension"),
            Fault::NodeOutside { position, .. } => {
                write!(out, "the node at position {position} is 0 or above the number of nodes")
            }
            Fault::NodeTwice { position, .. } => write!(out, "the node at position {position} stands before it too"),
            Fault::CellBeyond { side, .. } => write!(out, "the {} cell is above the number of cells", side.name()),
            Fault::SameCell { .. } => write!(out, "the same cell is on both sides"),
            Fault::InteriorOpen { .. } => write!(out, "it is interior, but a side has no cell"),
            Fault::NoCell { .. } => write!(out, "there is no cell on either side"),
            Fault::Element { .. } => write!(out, "its element does not fit the dimension"),
            Fault::FaceCount { count, .. } => {
                write!(out, "{count} face sides name it, which does not fit its element")
            }
        }
    }
}
