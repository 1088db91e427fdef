//! Finds the rows of faces and cells in the text of a mesh that was read. This only serves display: the reader gives no offsets of rows, and the text is known to be good, so tokens are counted and nothing is judged. What is not found is shown without a place.

use crate::fault::{Fault, Side};
use crate::mesh::Mesh;
use crate::walk::{Section, Walk};
use std::collections::{BTreeMap, BTreeSet};
use std::ops::Range;

/// The words of a face in the text.
#[derive(Clone, Debug, PartialEq, Eq)]
pub struct FaceRow {
    /// Its own node count, in sections of element 0.
    pub count: Option<Range<usize>>,
    /// Its nodes.
    pub nodes: Vec<Range<usize>>,
    /// Its right cell.
    pub right: Range<usize>,
    /// Its left cell.
    pub left: Range<usize>,
}

impl FaceRow {
    /// From its first word to its last.
    pub fn whole(&self) -> Range<usize> {
        let first = self.count.as_ref().or(self.nodes.first()).unwrap_or(&self.right);
        first.start..self.left.end
    }
}

/// Rows that were found.
#[derive(Clone, Debug, Default)]
pub struct Rows {
    faces: BTreeMap<u32, FaceRow>,
    cells: BTreeMap<u32, Range<usize>>,
}

impl Rows {
    /// Finds the rows of all these faults in one walk over the text.
    pub fn find(text: &[u8], faults: &[Fault]) -> Rows {
        let faces: BTreeSet<u32> = faults.iter().filter_map(Fault::face).collect();
        let cells: BTreeSet<u32> = faults.iter().filter_map(Fault::cell).collect();
        let mut rows = Rows::default();
        let mut walk = Walk::new(text);
        while let Some(section) = walk.section() {
            let range = section.value(1)..=section.value(2);
            if section.declares() || range.is_empty() {
                continue;
            }
            match section.id {
                12 if cells.range(range.clone()).next().is_some() => rows.read_cells(&mut walk, &section, &cells),
                13 if faces.range(range).next().is_some() => rows.read_faces(&mut walk, &section, &faces),
                _ => continue,
            };
        }
        rows
    }

    /// The words of a face.
    pub fn face(&self, index: u32) -> Option<&FaceRow> {
        self.faces.get(&index)
    }

    /// The element word of a cell: its own in sections of element 0, else the one of the section's header.
    pub fn cell(&self, index: u32) -> Option<&Range<usize>> {
        self.cells.get(&index)
    }

    /// The words that a fault is about: a node, a cell, both cells or a whole row.
    pub fn words(&self, fault: &Fault, mesh: &Mesh) -> Option<Range<usize>> {
        if let Some(cell) = fault.cell() {
            return self.cell(cell).cloned();
        }
        let index = fault.face()?;
        let row = self.face(index)?;
        let both = row.right.start..row.left.end;
        Some(match *fault {
            Fault::NodeCount { .. } => row.count.clone().unwrap_or(row.whole()),
            Fault::NodeOutside { position, .. } | Fault::NodeTwice { position, .. } => {
                row.nodes.get(usize::from(position))?.clone()
            }
            Fault::CellBeyond { side: Side::Right, .. } => row.right.clone(),
            Fault::CellBeyond { side: Side::Left, .. } => row.left.clone(),
            Fault::InteriorOpen { .. } => {
                let face = mesh.face(index)?;
                match (face.right, face.left) {
                    (0, 0) => both,
                    (0, _) => row.right.clone(),
                    _ => row.left.clone(),
                }
            }
            _ => both,
        })
    }

    /// `None` where the text ends early, which no accepted one does.
    fn read_faces(&mut self, walk: &mut Walk, section: &Section, wanted: &BTreeSet<u32>) -> Option<()> {
        walk.next();
        for index in section.value(1)..=section.value(2) {
            let count = match section.value(4) {
                0 => Some(walk.word()?),
                _ => None,
            };
            let nodes = match &count {
                Some(word) => walk.value(word)?,
                None => section.value(4),
            };
            if !wanted.contains(&index) {
                for _ in 0..nodes + 2 {
                    walk.word()?;
                }
                continue;
            }
            let nodes = (0..nodes).map(|_| Some(walk.word()?.range())).collect::<Option<_>>()?;
            let (right, left) = (walk.word()?.range(), walk.word()?.range());
            self.faces.insert(index, FaceRow { count: count.map(|word| word.range()), nodes, right, left });
        }
        Some(())
    }

    fn read_cells(&mut self, walk: &mut Walk, section: &Section, wanted: &BTreeSet<u32>) -> Option<()> {
        let indices = section.value(1)..=section.value(2);
        if section.value(4) != 0 {
            let element = section.words.get(4)?.range();
            self.cells.extend(wanted.range(indices).map(|&index| (index, element.clone())));
            return Some(());
        }
        walk.next();
        for index in indices {
            let word = walk.word()?;
            if wanted.contains(&index) {
                self.cells.insert(index, word.range());
            }
        }
        Some(())
    }
}

/// For each cell of a fault of kind 9 the faces that name it, one that names it on both sides twice.
pub fn faces_naming(mesh: &Mesh, faults: &[Fault]) -> BTreeMap<u32, Vec<u32>> {
    let miscounted = faults.iter().filter(|fault| fault.kind() == 9);
    let mut found: BTreeMap<u32, Vec<u32>> = miscounted.filter_map(Fault::cell).map(|cell| (cell, vec![])).collect();
    if found.is_empty() {
        return found;
    }
    for (index, face) in (1..).zip(mesh.faces()) {
        for cell in [face.right, face.left] {
            if let Some(faces) = found.get_mut(&cell) {
                faces.push(index);
            }
        }
    }
    found
}

/// How many sections of each id the reader steps over, remarks (0 and 1) aside. What they say is not in the tables, and so not in a text that is written from them.
pub fn stepped_over(text: &[u8]) -> BTreeMap<u32, usize> {
    let mut found = BTreeMap::new();
    let mut walk = Walk::new(text);
    while let Some(section) = walk.section() {
        if !matches!(section.id, 0..=2 | 10 | 12 | 13) {
            *found.entry(section.id).or_insert(0) += 1;
        }
    }
    found
}
