//! How long the text of tables is. The proved writer answers no length where it refuses, and people want to know how much there is too much; nothing else hangs on this.

use crate::mesh::{Zone, CELL_WORDS, FACE_WORDS, NODE_WORDS, ZONE_WORDS};
use crate::write::MeshTables;
use std::fmt::{self, Write};

/// Counts the bytes that are written to it.
struct Counted(u64);

impl Write for Counted {
    fn write_str(&mut self, text: &str) -> fmt::Result {
        self.0 += text.len() as u64;
        Ok(())
    }
}

/// The length of the text of tables that have one.
pub(crate) fn text_length(tables: &MeshTables) -> u64 {
    let mut text = Counted(0);
    put_text(tables, &mut text).expect("counting always succeeds");
    text.0
}

fn put_text(tables: &MeshTables, text: &mut Counted) -> fmt::Result {
    let MeshTables { dimension, nodes, cells, faces, .. } = tables;
    writeln!(text, "(2 {dimension})\n(10 (0 1 {nodes:x} 0 {dimension}))")?;
    writeln!(text, "(12 (0 1 {cells:x} 0 0))\n(13 (0 1 {faces:x} 0 0))")?;
    for record in tables.zones.chunks_exact(ZONE_WORDS) {
        put_section(tables, &Zone::from_record(record.try_into().expect("six words")), text)?;
    }
    Ok(())
}

fn put_section(tables: &MeshTables, zone: &Zone, text: &mut Counted) -> fmt::Result {
    let Zone { section, zone: id, first, last, zone_type, element } = *zone;
    let fifth = if section == 10 { tables.dimension } else { element };
    write!(text, "({section} ({id:x} {first:x} {last:x} {zone_type:x} {fifth:x})")?;
    if section == 12 && element != 0 {
        return writeln!(text, ")");
    }
    let (from, to) = (first as usize - 1, last as usize);
    write!(text, "(")?;
    match section {
        10 => {
            let rows = from * NODE_WORDS..to * NODE_WORDS;
            let pairs = tables.mantissas[rows.clone()].iter().zip(&tables.exponents[rows]).enumerate();
            // One byte stands before each word: a line feed or a blank.
            for (_, (mantissa, exponent)) in pairs.filter(|pair| pair.0 % NODE_WORDS < tables.dimension as usize) {
                write!(text, " {mantissa}e{exponent}")?;
            }
        }
        12 => tables.cell_rows[from * CELL_WORDS..to * CELL_WORDS]
            .chunks_exact(CELL_WORDS)
            .try_for_each(|row| write!(text, " {:x}", row[0]))?,
        _ => {
            for row in tables.face_rows[from * FACE_WORDS..to * FACE_WORDS].chunks_exact(FACE_WORDS) {
                // In a mixed section the number of nodes stands before them.
                let words = &row[usize::from(element != 0)..=row[0] as usize];
                words.iter().chain(&row[5..7]).try_for_each(|word| write!(text, " {word:x}"))?;
            }
        }
    }
    writeln!(text, "))")
}

#[cfg(test)]
mod tests {
    use super::*;
    use crate::blame::blame;
    use crate::Mesh;

    /// Over all cases that are read: the length is that of the text, and nobody is blamed.
    #[test]
    fn lengths_of_the_cases() {
        let folder = concat!(env!("CARGO_MANIFEST_DIR"), "/../crates/meshcases/data");
        let files = std::fs::read_dir(folder).unwrap().map(|file| std::fs::read(file.unwrap().path()).unwrap());
        let meshes: Vec<Mesh> = files.filter_map(|text| Mesh::read(&text).ok()).collect();
        assert!(meshes.len() > 20 && meshes.iter().any(|mesh| mesh.dimension() as u32 == 3));
        for mesh in &meshes {
            assert_eq!(text_length(&mesh.mesh_tables()), mesh.to_text().unwrap().len() as u64);
            assert_eq!(blame(&mesh.mesh_tables()), None);
        }
    }
}
