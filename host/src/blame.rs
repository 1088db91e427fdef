//! Which row or record keeps tables from being written. The proved writer alone judges; this looks only after it has refused, so that people are told where to look.

use crate::mesh::{Zone, MAX_ROWS, MAX_ZONES, NODE_WORDS, ZONE_WORDS};
use crate::names::{both_bases, is_listed, section_name};
use crate::rowblame::row_blame;
use crate::why::span;
use crate::write::MeshTables;

/// What is to blame.
#[derive(Clone, Copy, Debug, PartialEq, Eq, Hash)]
pub enum Culprit {
    /// The dimension, a total, or the number of zone records.
    Totals,
    /// The zone record at this place, from 0.
    Record(usize),
    /// The node of this index, from 1.
    Node(u32),
    /// The face of this index, from 1.
    Face(u32),
    /// The cell of this index, from 1.
    Cell(u32),
}

/// The first row or record that keeps tables from being written, and what is wrong with it.
#[derive(Clone, Debug, PartialEq, Eq)]
pub struct Blame {
    /// What is to blame.
    pub culprit: Culprit,
    /// What is wrong, in one line for a mesher. Records count from 0; numbers above 9 are given in hexadecimal too.
    pub message: String,
}

impl Blame {
    pub(crate) fn new(culprit: Culprit, message: String) -> Option<Blame> {
        Some(Blame { culprit, message })
    }
}

/// Looks at totals, records, what the records cover, and then at the rows in the order of the text.
pub(crate) fn blame(tables: &MeshTables) -> Option<Blame> {
    let records = tables.zones.chunks_exact(ZONE_WORDS);
    let zones: Vec<Zone> = records.map(|record| Zone::from_record(record.try_into().expect("six words"))).collect();
    totals(tables, zones.len())
        .or_else(|| zones.iter().enumerate().find_map(|(place, _)| record(tables, &zones, place)))
        .or_else(|| [10, 12, 13].into_iter().find_map(|section| gap(tables, &zones, section)))
        .or_else(|| zones.iter().enumerate().find_map(|(place, zone)| row_blame(tables, place, zone)))
}

/// The total of the kind that sections of this id list.
fn total(tables: &MeshTables, section: u32) -> u32 {
    match section {
        10 => tables.nodes,
        12 => tables.cells,
        _ => tables.faces,
    }
}

fn totals(tables: &MeshTables, zones: usize) -> Option<Blame> {
    let guilty = |message: String| Blame::new(Culprit::Totals, message);
    if !matches!(tables.dimension, 2 | 3) {
        return guilty(format!("the dimension is {}, not 2 or 3", tables.dimension));
    }
    let nodes = tables.mantissas.len().min(tables.exponents.len()) / NODE_WORDS;
    for (section, rows) in [(10, nodes), (12, tables.cell_rows.len() / 2), (13, tables.face_rows.len() / 8)] {
        let (kind, total) = (section_name(section), total(tables, section));
        if total as usize > MAX_ROWS {
            return guilty(format!("the total of {kind} is {total}, but a mesh has at most {MAX_ROWS}"));
        } else if total as usize > rows {
            return guilty(format!("the total of {kind} is {total}, but the whole rows of {kind} given are {rows}"));
        }
    }
    match zones > MAX_ZONES {
        true => guilty(format!("there are {zones} zone records, but a mesh has at most {MAX_ZONES}")),
        false => None,
    }
}

fn record(tables: &MeshTables, zones: &[Zone], place: usize) -> Option<Blame> {
    let zone = &zones[place];
    let wrong = header(tables, zone).or_else(|| shared(zones, place));
    wrong.and_then(|wrong| Blame::new(Culprit::Record(place), format!("{} {wrong}", record_name(place, zone))))
}

/// What is wrong with the words of a record.
fn header(tables: &MeshTables, zone: &Zone) -> Option<String> {
    let Zone { section, zone: id, first, last, zone_type, element } = *zone;
    let (kind, total) = (section_name(section), total(tables, section));
    if [section, id, first, last, zone_type, element] == [0; 6] {
        Some("is all zeros, but every record given is a section".to_string())
    } else if !matches!(section, 10 | 12 | 13) {
        Some(format!("has section id {section}, not 10 (nodes), 12 (cells) or 13 (faces)"))
    } else if id == 0 || id as usize > MAX_ROWS {
        Some(format!("is of zone {id}, but zone ids are 1 to {MAX_ROWS}"))
    } else if first == 0 {
        Some(format!("has first 0, but {kind} count from 1"))
    } else if last < first {
        Some(format!("has last {}, below its first, {}", both_bases(last), both_bases(first)))
    } else if last > total {
        Some(format!("has last {}, but the total of {kind} is {}", both_bases(last), both_bases(total)))
    } else if !is_listed(section, zone_type) {
        Some(format!("has type {}, which is not listed for {kind}", both_bases(zone_type)))
    } else if section == 10 && element != 0 {
        Some(format!("has element {element}, but records of nodes have 0"))
    } else if section == 12 && element > 6 || section == 13 && !matches!(element, 0 | 2..=4) {
        Some(format!("has element {}, which is not listed for {kind}", both_bases(element)))
    } else {
        None
    }
}

/// The indices that an earlier record of the same kind has too.
fn shared(zones: &[Zone], place: usize) -> Option<String> {
    let zone = &zones[place];
    let shares = |other: &Zone| other.section == zone.section && other.first <= zone.last && zone.first <= other.last;
    let earlier = zones[..place].iter().position(shares)?;
    let other = &zones[earlier];
    let indices = span(section_name(zone.section), zone.first.max(other.first), zone.last.min(other.last));
    Some(format!("has {indices}, which {} has too", record_name(earlier, other)))
}

/// The first indices of a kind that no record has.
fn gap(tables: &MeshTables, zones: &[Zone], section: u32) -> Option<Blame> {
    let mut ranges: Vec<(u32, u32)> =
        zones.iter().filter(|zone| zone.section == section).map(|zone| (zone.first, zone.last)).collect();
    ranges.sort_unstable();
    let mut due = 1;
    // A range behind the last one stands for the end.
    ranges.push((total(tables, section) + 1, 0));
    for (first, last) in ranges {
        if due < first {
            let verb = if due + 1 == first { "is" } else { "are" };
            let message = format!("{} {verb} in no zone record", span(section_name(section), due, first - 1));
            return Blame::new(row_of(section, due), message);
        }
        due = last + 1;
    }
    None
}

/// The row of this index among the rows of a kind.
pub(crate) fn row_of(section: u32, index: u32) -> Culprit {
    match section {
        10 => Culprit::Node(index),
        12 => Culprit::Cell(index),
        _ => Culprit::Face(index),
    }
}

/// `record 2 (zone 26 (hex 1a))` would be hard to read, so the zone is decimal here.
pub(crate) fn record_name(place: usize, zone: &Zone) -> String {
    format!("record {place} (zone {})", zone.zone)
}
