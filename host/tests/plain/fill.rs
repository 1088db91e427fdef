//! The second pass: the bodies of a file that is known to be good are read into the tables.

use super::header::Kind;
use super::scan::Scan;
use super::survey::{Found, Part};
use super::{CELL_WORDS, FACE_WORDS, NODE_WORDS, ZONE_WORDS};

pub fn fill(
    text: &[u8],
    found: &Found,
    mantissas: &mut [i64],
    exponents: &mut [i32],
    faces: &mut [u32],
    cells: &mut [u32],
    zones: &mut [u32],
) {
    for (part, record) in found.parts().iter().zip(zones.chunks_exact_mut(ZONE_WORDS)) {
        record.copy_from_slice(&[part.kind.id(), part.zone, part.first, part.last, part.ztype, part.element]);
        let scan = Scan::from(text, part.body);
        let (from, to) = (part.first as usize - 1, part.last as usize);
        match part.kind {
            Kind::Nodes => {
                let rows = from * NODE_WORDS..to * NODE_WORDS;
                let dimension = found.dimension as usize;
                nodes_of(scan, dimension, &mut mantissas[rows.clone()], &mut exponents[rows]);
            }
            Kind::Faces => faces_of(scan, part, &mut faces[from * FACE_WORDS..to * FACE_WORDS]),
            Kind::Cells => cells_of(scan, part, &mut cells[from * CELL_WORDS..to * CELL_WORDS]),
        }
    }
}

fn nodes_of(mut scan: Scan, dimension: usize, mantissas: &mut [i64], exponents: &mut [i32]) {
    let rows = mantissas.chunks_exact_mut(NODE_WORDS).zip(exponents.chunks_exact_mut(NODE_WORDS));
    for (mantissas, exponents) in rows {
        for place in 0..NODE_WORDS {
            let (mantissa, exponent) = if place < dimension { scan.known_coordinate() } else { (0, 0) };
            mantissas[place] = mantissa;
            exponents[place] = exponent;
        }
    }
}

fn faces_of(mut scan: Scan, part: &Part, faces: &mut [u32]) {
    for face in faces.chunks_exact_mut(FACE_WORDS) {
        let count = if part.element == 0 { scan.known_number() } else { part.element };
        let mut row = [0; FACE_WORDS];
        row[0] = count;
        for node in &mut row[1..=count as usize] {
            *node = scan.known_number();
        }
        row[5] = scan.known_number();
        row[6] = scan.known_number();
        row[7] = part.ztype;
        face.copy_from_slice(&row);
    }
}

fn cells_of(mut scan: Scan, part: &Part, cells: &mut [u32]) {
    for cell in cells.chunks_exact_mut(CELL_WORDS) {
        cell[0] = if part.element == 0 { scan.known_number() } else { part.element };
        cell[1] = part.ztype;
    }
}
