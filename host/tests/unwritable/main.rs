//! Every line of refusal 18, on both sides: the tables next to it are written, those beyond it are refused, and the row or record that is named is the right one.

#[path = "../generate/mod.rs"]
mod generate;
mod records;
mod rows;

use generate::given::Given;
use ravneket::{raw, write_tables, Culprit, Unwritten};
use Culprit::Totals;

/// Four nodes; two tetrahedra, and a wedge in a mixed section; two faces of three nodes, and a mixed section of two more.
fn base() -> Given {
    Given {
        dimension: 3,
        nodes: 4,
        faces: 4,
        cells: 3,
        mantissas: vec![1, 0, 0, 0, -25, 0, 0, 0, 0, 7, 7, 0],
        exponents: vec![0, 0, 0, 0, -2, 0, 0, 0, 0, 1, -1, 0],
        face_rows: [
            [3, 1, 2, 3, 0, 1, 0, 3],
            [3, 2, 3, 4, 0, 2, 1, 3],
            [3, 1, 2, 4, 0, 0, 3, 5],
            [2, 9, 1, 0, 0, 9, 0, 5],
        ]
        .concat(),
        cell_rows: vec![2, 1, 2, 1, 6, 32],
        zones: [
            [10, 1, 1, 4, 1, 0],
            [12, 2, 1, 2, 1, 2],
            [12, 3, 3, 3, 32, 0],
            [13, 4, 1, 2, 3, 3],
            [13, 5, 3, 4, 5, 0],
        ]
        .concat(),
    }
}

fn changed(change: impl FnOnce(&mut Given)) -> Given {
    let mut given = base();
    change(&mut given);
    given
}

fn written(given: &Given) -> Vec<u8> {
    let text = write_tables(&given.tables()).unwrap_or_else(|refusal| panic!("{refusal}"));
    assert!(given.read_back(&text, raw::read) == given.clone().cut(), "another mesh is read back");
    text
}

fn taken(change: impl FnOnce(&mut Given)) {
    written(&changed(change));
}

fn refused_tables(given: &Given, culprit: Culprit, message: &str) {
    let refusal = write_tables(&given.tables()).expect_err(message);
    assert_eq!(refusal.to_string(), format!("refused 18 (Unwritable): {message}"));
    let Unwritten::Unwritable(Some(blame)) = refusal else { panic!("nobody is to blame: {message}") };
    assert_eq!((blame.culprit, blame.message.as_str()), (culprit, message));
    // Whatever the room, it is 18, and nothing is touched.
    for room in [0, 7, given.room().min(100_000)] {
        let (mut text, mut answer) = (vec![0xee; room], [77]);
        assert_eq!((given.write(raw::write, &mut text, &mut answer), answer), (18, [0]), "{message}");
        assert!(text.iter().all(|&byte| byte == 0xee), "{message}");
    }
}

fn refused(culprit: Culprit, message: &str, change: impl FnOnce(&mut Given)) {
    refused_tables(&changed(change), culprit, message);
}

#[test]
fn dimension() {
    taken(|_| ());
    taken(|given| given.dimension = 2);
    refused(Totals, "the dimension is 1, not 2 or 3", |given| given.dimension = 1);
    refused(Totals, "the dimension is 4, not 2 or 3", |given| given.dimension = 4);
}

#[test]
fn totals_and_rows() {
    let nodes = |total, rows| format!("the total of nodes is {total}, but the whole rows of nodes given are {rows}");
    refused(Totals, &nodes(5, 4), |given| given.nodes = 5);
    refused(Totals, &nodes(4, 3), |given| given.mantissas.truncate(11));
    refused(Totals, &nodes(4, 3), |given| given.exponents.truncate(11));
    let message = "the total of cells is 3, but the whole rows of cells given are 2";
    refused(Totals, message, |given| given.cell_rows.truncate(5));
    let message = "the total of faces is 4294967295, but a mesh has at most 65535";
    refused(Totals, message, |given| given.faces = u32::MAX);
    let message = "the total of faces is 4, but the whole rows of faces given are 3";
    refused(Totals, message, |given| given.face_rows.truncate(31));
    let longer = changed(|given| {
        given.mantissas.extend([10, 20]);
        given.exponents.push(9_999);
        given.face_rows.extend([77; 12]);
        given.cell_rows.extend([77; 3]);
        given.zones.extend([77; 5]);
    });
    assert_eq!(written(&longer), written(&base()), "rows behind the totals, and a part of a record, are not looked at");
}

/// A mesh of so many nodes, faces or cells alone, in one record.
fn many(section: u32, total: u32) -> Given {
    let mut given = Given { dimension: 2, zones: vec![section, 1, 1, total, 1, 0], ..Given::default() };
    let rows = total as usize;
    match section {
        10 => (given.nodes, given.mantissas, given.exponents) = (total, vec![0; 3 * rows], vec![0; 3 * rows]),
        12 => (given.cells, given.cell_rows) = (total, [1, 1].repeat(rows)),
        _ => (given.faces, given.face_rows, given.zones[4]) = (total, [2, 1, 1, 0, 0, 0, 0, 3].repeat(rows), 3),
    }
    given
}

#[test]
fn totals_at_the_limit() {
    for (section, kind) in [(10, "nodes"), (12, "cells"), (13, "faces")] {
        written(&many(section, 65_535));
        let message = format!("the total of {kind} is 65536, but a mesh has at most 65535");
        refused_tables(&many(section, 65_536), Totals, &message);
    }
}
