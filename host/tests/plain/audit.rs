//! The audit: sides counted, faults listed.

use super::{put, CELL_WORDS, FACE_WORDS, MOST};

const AUDIT_DIMENSION: u32 = 15;
const AUDIT_TOTALS: u32 = 16;
const AUDIT_COUNTS: u32 = 17;

/// Sides of a cell, by element.
const SIDES: [u32; 7] = [0, 3, 4, 4, 6, 5, 5];

/// The list of faults. Once a record has not fitted, `full` is set and only the total grows.
struct List<'a> {
    bytes: &'a mut [u8],
    at: usize,
    full: bool,
    total: u64,
}

impl List<'_> {
    fn add<const N: usize>(&mut self, record: [u8; N]) {
        self.total += 1;
        if self.full {
            return;
        }
        match self.bytes[self.at..].first_chunk_mut::<N>() {
            Some(place) => {
                *place = record;
                self.at += N;
            }
            None => self.full = true,
        }
    }
}

/// As `ravneket::raw::audit`.
#[allow(clippy::too_many_arguments)]
pub fn audit(
    dimension: u32,
    nodes: u32,
    faces: u32,
    cells: u32,
    face_rows: &[u32],
    cell_rows: &[u32],
    counts: &mut [u32],
    list: &mut [u8],
    answer: &mut [u64],
) -> u32 {
    let refusal = if !matches!(dimension, 2 | 3) {
        AUDIT_DIMENSION
    } else if [nodes, faces, cells].iter().any(|&total| total > MOST)
        || faces as usize > face_rows.len() / FACE_WORDS
        || cells as usize > cell_rows.len() / CELL_WORDS
    {
        AUDIT_TOTALS
    } else if counts.len() < cells as usize {
        AUDIT_COUNTS
    } else {
        0
    };
    if refusal != 0 {
        put(answer, &[0, 0]);
        return refusal;
    }
    let mut list = List { bytes: list, at: 0, full: false, total: 0 };
    let counts = &mut counts[..cells as usize];
    counts.fill(0);
    audit_faces(dimension == 2, nodes, &face_rows[..faces as usize * FACE_WORDS], counts, &mut list);
    audit_cells(dimension == 2, &cell_rows[..cells as usize * CELL_WORDS], counts, &mut list);
    put(answer, &[list.total, list.at as u64]);
    0
}

fn audit_faces(flat: bool, nodes: u32, rows: &[u32], counts: &mut [u32], list: &mut List) {
    let cells = counts.len() as u32;
    for (face, row) in rows.chunks_exact(FACE_WORDS).enumerate() {
        let row: &[u32; FACE_WORDS] = row.try_into().expect("chunks are rows");
        for side in [row[5], row[6]] {
            if let Some(count) = counts.get_mut((side as usize).wrapping_sub(1)) {
                *count += 1;
            }
        }
        if !is_sound(flat, nodes, cells, row) {
            list_face(flat, nodes, cells, face as u16 + 1, row, list);
        }
    }
}

/// Whether a face surely has no fault. False says nothing.
#[inline(always)]
fn is_sound(flat: bool, nodes: u32, cells: u32, row: &[u32; FACE_WORDS]) -> bool {
    let &[count, a, b, c, d, right, left, ztype] = row;
    let is_node = |node: u32| node.wrapping_sub(1) < nodes;
    let apart = match count {
        2 => flat && a != b,
        3 => !flat && is_node(c) && a != b && a != c && b != c,
        4 => !flat && is_node(c) && is_node(d) && a != b && a != c && a != d && b != c && b != d && c != d,
        _ => false,
    };
    let interior = ztype == 2 || ztype == 1002;
    apart
        && is_node(a)
        && is_node(b)
        && right <= cells
        && left <= cells
        && right != left
        && !(interior && (right == 0 || left == 0))
}

#[inline(never)]
fn list_face(flat: bool, nodes: u32, cells: u32, face: u16, row: &[u32; FACE_WORDS], list: &mut List) {
    let [high, low] = face.to_be_bytes();
    let count = row[0];
    if if flat { count != 2 } else { count != 3 && count != 4 } {
        list.add([1, high, low]);
    }
    let looked = if (2..=4).contains(&count) { &row[1..=count as usize] } else { &[] };
    for (place, &node) in looked.iter().enumerate() {
        if node == 0 || node > nodes {
            list.add([2, high, low, place as u8]);
        }
    }
    for (place, node) in looked.iter().enumerate() {
        if looked[..place].contains(node) {
            list.add([3, high, low, place as u8]);
        }
    }
    let (right, left) = (row[5], row[6]);
    for (side, cell) in [right, left].into_iter().enumerate() {
        if cell > cells {
            list.add([4, high, low, side as u8]);
        }
    }
    if right == left && right != 0 {
        list.add([5, high, low]);
    }
    if cells > 0 && matches!(row[7], 2 | 1002) && (right == 0 || left == 0) {
        list.add([6, high, low]);
    }
    if cells > 0 && right == 0 && left == 0 {
        list.add([7, high, low]);
    }
}

fn audit_cells(flat: bool, rows: &[u32], counts: &[u32], list: &mut List) {
    for (cell, (row, &count)) in rows.chunks_exact(CELL_WORDS).zip(counts).enumerate() {
        let (element, ztype) = (row[0], row[1]);
        let [high, low] = (cell as u16 + 1).to_be_bytes();
        if if flat { !matches!(element, 1 | 3) } else { !matches!(element, 2 | 4..=6) } {
            list.add([8, high, low]);
        }
        if ztype != 0 && (1..=6).contains(&element) && count != SIDES[element as usize] {
            let [_, top, middle, bottom] = count.to_be_bytes();
            list.add([9, high, low, top, middle, bottom]);
        }
    }
}
