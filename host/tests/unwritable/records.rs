//! Lines of 18 that a record crosses.

use super::{changed, many, refused, refused_tables, taken, written};
use crate::generate::documents::FACE_TYPES;
use crate::generate::given::Given;
use ravneket::Culprit::{Cell, Face, Node, Record, Totals};

#[test]
fn records_at_the_limit() {
    let records = |total: u32| {
        let zones = (1..=total).flat_map(|index| [10, index, index, index, 1, 0]).collect();
        Given { zones, ..many(10, total) }
    };
    written(&records(64));
    refused_tables(&records(65), Totals, "there are 65 zone records, but a mesh has at most 64");
    let message = "record 5 (zone 0) is all zeros, but every record given is a section";
    refused(Record(5), message, |given| given.zones.extend([0; 6]));
}

#[test]
fn words_of_a_record() {
    let ids = "not 10 (nodes), 12 (cells) or 13 (faces)";
    refused(Record(1), &format!("record 1 (zone 2) has section id 11, {ids}"), |given| given.zones[6] = 11);
    refused(Record(4), &format!("record 4 (zone 5) has section id 14, {ids}"), |given| given.zones[24] = 14);
    for zone in [1, 65_535] {
        taken(|given| given.zones[7] = zone);
    }
    for zone in [0, 65_536] {
        let message = format!("record 1 (zone {zone}) is of zone {zone}, but zone ids are 1 to 65535");
        refused(Record(1), &message, |given| given.zones[7] = zone);
    }
    refused(Record(3), "record 3 (zone 4) has first 0, but faces count from 1", |given| given.zones[20] = 0);
    refused(Record(3), "record 3 (zone 4) has last 0, below its first, 1", |given| given.zones[21] = 0);
    let message = "record 4 (zone 5) has last 26 (hex 1a), but the total of faces is 4";
    refused(Record(4), message, |given| given.zones[27] = 26);
    let message = "record 0 (zone 1) has last 5, but the total of nodes is 4";
    refused(Record(0), message, |given| given.zones[3] = 5);
}

/// Sets the type of all faces or cells, or that of the nodes.
fn with_type(section: u32, ztype: u32) -> Given {
    changed(|given| {
        given.zones.chunks_exact_mut(6).filter(|record| record[0] == section).for_each(|record| record[4] = ztype);
        match section {
            12 => given.cell_rows.chunks_exact_mut(2).for_each(|row| row[1] = ztype),
            13 => given.face_rows.chunks_exact_mut(8).for_each(|row| row[7] = ztype),
            _ => {}
        }
    })
}

#[test]
fn types() {
    let listed = |section: u32, ztype: u32| match section {
        10 => ztype <= 2,
        12 => [0, 1, 32].contains(&ztype),
        _ => FACE_TYPES.contains(&ztype) || ztype >= 1000 && FACE_TYPES.contains(&(ztype - 1000)),
    };
    for (section, place, kind) in [(10, 0, "nodes"), (12, 1, "cells"), (13, 3, "faces")] {
        for ztype in (0..=40).chain(998..=1040).chain([2002, 2003, u32::MAX]) {
            let given = with_type(section, ztype);
            if listed(section, ztype) {
                written(&given);
            } else {
                let number = if ztype < 10 { ztype.to_string() } else { format!("{ztype} (hex {ztype:x})") };
                let message =
                    format!("record {place} (zone {}) has type {number}, which is not listed for {kind}", place + 1);
                refused_tables(&given, Record(place), &message);
            }
        }
    }
}

#[test]
fn elements_of_a_record() {
    refused(Record(0), "record 0 (zone 1) has element 1, but records of nodes have 0", |given| given.zones[5] = 1);
    for element in 0..=6 {
        taken(|given| {
            given.zones[11] = element;
            given.cell_rows[..4].chunks_exact_mut(2).for_each(|row| row[0] = element.max(1));
        });
    }
    let message = "record 1 (zone 2) has element 7, which is not listed for cells";
    refused(Record(1), message, |given| given.zones[11] = 7);
    for element in [0, 2, 3, 4] {
        taken(|given| {
            given.zones[23] = element;
            given.face_rows[..16].chunks_exact_mut(8).for_each(|row| (row[0], row[3]) = (element.max(2), 0));
        });
    }
    for element in [1, 5] {
        let message = format!("record 3 (zone 4) has element {element}, which is not listed for faces");
        refused(Record(3), &message, |given| given.zones[23] = element);
    }
}

#[test]
fn indices_shared_or_missing() {
    let message = "record 4 (zone 5) has face 2, which record 3 (zone 4) has too";
    refused(Record(4), message, |given| given.zones[26] = 2);
    let message = "record 2 (zone 3) has cells 1 to 2, which record 1 (zone 2) has too";
    refused(Record(2), message, |given| given.zones[14] = 1);
    // The row agrees with both records.
    let message = "record 5 (zone 9) has node 4, which record 0 (zone 1) has too";
    refused(Record(5), message, |given| given.zones.extend([10, 9, 4, 4, 1, 0]));
    refused(Face(4), "face 4 is in no zone record", |given| given.zones[27] = 3);
    refused(Face(3), "faces 3 to 4 are in no zone record", |given| given.zones.truncate(24));
    refused(Cell(1), "cells 1 to 2 are in no zone record", |given| drop(given.zones.drain(6..12)));
    refused(Node(1), "node 1 is in no zone record", |given| given.zones[2] = 2);
    // Of a kind without rows no record is missed.
    taken(|given| {
        given.cells = 0;
        given.zones.drain(6..18);
    });
}
