//! Tables for the audit: any words, most of them near a limit.

use super::Random;

pub struct Tables {
    pub dimension: u32,
    pub nodes: u32,
    pub faces: u32,
    pub cells: u32,
    pub face_rows: Vec<u32>,
    pub cell_rows: Vec<u32>,
    pub counts: usize,
}

/// Tables of a case: most are taken, some are refused.
pub fn tables(random: &mut Random) -> Tables {
    let dimension = random.pick(&[2, 2, 2, 2, 3, 3, 3, 3, 0, 1, 4, 5]);
    let total = |random: &mut Random| random.pick(&[0, 1, 2, 3, 4, 6, 9, 15]);
    let (nodes, faces, cells) = (total(random), total(random), total(random));
    let sound = random.pick(&[0, 0, 1, 3, 20]);
    let mut face_rows = Vec::new();
    for _ in 0..faces {
        face_rows.extend(face(random, dimension, nodes, cells, sound));
    }
    let mut cell_rows = Vec::new();
    for _ in 0..cells {
        cell_rows.extend(cell(random, dimension, sound));
    }
    let mut tables = Tables { dimension, nodes, faces, cells, face_rows, cell_rows, counts: cells as usize };
    edges(random, &mut tables);
    tables
}

/// Once in `sound + 1` a face of any words, else one without fault or with one.
fn face(random: &mut Random, dimension: u32, nodes: u32, cells: u32, sound: usize) -> [u32; 8] {
    let inside = |random: &mut Random, total: u32| 1 + random.below(total.max(1) as usize) as u32;
    let count = if dimension == 2 { 2 } else { random.pick(&[3, 4]) };
    let mut row = [count, 0, 0, 0, 0, inside(random, cells), inside(random, cells), random.pick(&[2, 3, 10, 1002, 36])];
    for node in &mut row[1..=count as usize] {
        *node = inside(random, nodes);
    }
    if random.once_in(sound + 1) {
        for word in &mut row[1..7] {
            let inside = inside(random, nodes);
            *word = random.pick(&[0, 0, 1, nodes, nodes + 1, cells, cells + 1, u32::MAX, inside, inside]);
        }
        row[0] = random.pick(&[0, 1, 2, 2, 3, 3, 4, 4, 5, u32::MAX]);
        row[7] = random.pick(&[0, 1, 2, 2, 3, 1000, 1002, 1003, u32::MAX]);
    } else if random.once_in(2) {
        row[random.between(5, 6)] = 0;
    }
    row
}

fn cell(random: &mut Random, dimension: u32, sound: usize) -> [u32; 2] {
    if random.once_in(sound + 1) {
        return [random.pick(&[0, 1, 2, 3, 4, 5, 6, 7, u32::MAX]), random.pick(&[0, 0, 1, 32, u32::MAX])];
    }
    [if dimension == 2 { random.pick(&[1, 3]) } else { random.pick(&[2, 4, 5, 6]) }, random.pick(&[0, 1])]
}

/// Lent slices of other lengths, and totals at their limits.
fn edges(random: &mut Random, tables: &mut Tables) {
    match random.below(24) {
        0 => tables.faces += 1,
        1 => tables.cells += 1,
        2 => tables.nodes = random.pick(&[65_534, 65_535, 65_536, u32::MAX]),
        3 => tables.faces = random.pick(&[65_535, 65_536, u32::MAX]),
        4 => tables.cells = random.pick(&[65_535, 65_536, u32::MAX]),
        5 => tables.face_rows.truncate((tables.faces as usize * 8).saturating_sub(random.between(1, 8))),
        6 => tables.cell_rows.truncate((tables.cells as usize * 2).saturating_sub(random.between(1, 2))),
        7 | 8 => tables.counts = tables.counts.saturating_sub(1),
        9 => tables.faces = tables.faces.saturating_sub(1),
        10 => tables.cells = tables.cells.saturating_sub(1),
        _ => {}
    }
    for _ in 0..random.pick(&[0, 0, 0, 1, 7, 9]) {
        tables.face_rows.push(random.word() as u32);
        tables.cell_rows.push(random.word() as u32);
    }
    if random.once_in(4) {
        tables.counts += random.between(1, 3);
    }
}
