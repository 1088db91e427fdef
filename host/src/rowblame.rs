//! What keeps a row from being written in the section of its zone record.

use crate::blame::{record_name, row_of, Blame};
use crate::decimal::Decimal;
use crate::mesh::{Zone, CELL_WORDS, FACE_WORDS, NODE_WORDS};
use crate::names::{both_bases, counted, element_name, type_text};
use crate::write::MeshTables;

/// One over the largest mantissa.
const MANTISSAS: u64 = 1_000_000_000_000_000_000;
/// The largest exponent.
const FARTHEST: u32 = 400;

/// The first row of a record that disagrees with it or with itself. The record's indices are within the tables.
pub(crate) fn row_blame(tables: &MeshTables, place: usize, zone: &Zone) -> Option<Blame> {
    let owner = record_name(place, zone);
    (zone.first..=zone.last).find_map(|index| {
        let at = index as usize - 1;
        let (name, wrong) = match zone.section {
            10 => ("node", node(tables, at)),
            12 => ("cell", cell(&tables.cell_rows[at * CELL_WORDS..], zone, &owner)),
            _ => ("face", face(&tables.face_rows[at * FACE_WORDS..][..FACE_WORDS], zone, &owner)),
        };
        Blame::new(row_of(zone.section, index), format!("{name} {} {}", both_bases(index), wrong?))
    })
}

fn node(tables: &MeshTables, at: usize) -> Option<String> {
    let row = at * NODE_WORDS..(at + 1) * NODE_WORDS;
    let pairs = tables.mantissas[row.clone()].iter().zip(&tables.exponents[row]);
    pairs.zip(["x", "y", "z"]).enumerate().find_map(|(axis, ((&mantissa, &exponent), name))| {
        let value = Decimal { mantissa, exponent };
        match axis < tables.dimension as usize {
            true => pair(value, name),
            false if value == Decimal::default() => None,
            false => Some(format!("has z {mantissa}e{exponent}, but the mesh is flat (2D) and its z must be 0")),
        }
    })
}

/// What is wrong with a pair that is not the one of its value.
fn pair(value: Decimal, axis: &str) -> Option<String> {
    let Decimal { mantissa, exponent } = value;
    if mantissa == 0 && exponent != 0 {
        Some(format!("has {axis} 0e{exponent}, but the exponent of zero is 0"))
    } else if mantissa != 0 && mantissa % 10 == 0 {
        Some(format!("has {axis} {mantissa}e{exponent}, but no mantissa is divisible by ten"))
    } else if mantissa.unsigned_abs() >= MANTISSAS {
        Some(format!("has {axis} {mantissa}e{exponent}, but a mantissa has at most 18 digits"))
    } else if exponent.unsigned_abs() > FARTHEST {
        Some(format!("has {axis} {mantissa}e{exponent}, but exponents are -{FARTHEST} to {FARTHEST}"))
    } else {
        None
    }
}

fn cell(row: &[u32], zone: &Zone, owner: &str) -> Option<String> {
    let element = row[0];
    if row[1] != zone.zone_type {
        Some(other_type(row[1], zone, owner))
    } else if zone.element != 0 && element != zone.element {
        let (own, due) = (element_text(element), element_text(zone.element));
        Some(format!("has {own}, in its row, but its {owner} is for {due}"))
    } else if !(1..=6).contains(&element) {
        Some(format!("has element {} in its row, but elements are 1 to 6", both_bases(element)))
    } else {
        None
    }
}

fn face(row: &[u32], zone: &Zone, owner: &str) -> Option<String> {
    let nodes = counted(row[0] as usize, "node");
    if row[7] != zone.zone_type {
        Some(other_type(row[7], zone, owner))
    } else if zone.element != 0 && row[0] != zone.element {
        Some(format!("has {nodes} in its row, but its {owner} is for faces of {}", zone.element))
    } else if !(2..=4).contains(&row[0]) {
        Some(format!("has {nodes} in its row, but faces have 2 to 4"))
    } else {
        let spare = (row[0] as usize..4).find(|&position| row[1 + position] != 0)?;
        let node = both_bases(row[1 + spare]);
        Some(format!("has {nodes}, but node {node} stands at position {spare} of its row, which must be 0"))
    }
}

fn other_type(own: u32, zone: &Zone, owner: &str) -> String {
    let named = |number: u32| format!("type {}, {}", both_bases(number), type_text(zone.section, number));
    format!("has {}, in its row, but its {owner} has {}", named(own), named(zone.zone_type))
}

fn element_text(element: u32) -> String {
    format!("element {}, {}", both_bases(element), element_name(element))
}
