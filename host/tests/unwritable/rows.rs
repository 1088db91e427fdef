//! Lines of 18 that a row crosses.

use super::{refused, taken};
use crate::generate::given::Given;
use ravneket::Culprit::{Cell, Face, Node};

/// One over the largest mantissa.
const TOO_LARGE: i64 = 1_000_000_000_000_000_000;

#[test]
fn types_of_rows() {
    let message = "face 2 has type 5, pressure outlet, in its row, but its record 3 (zone 4) has type 3, wall";
    refused(Face(2), message, |given| given.face_rows[15] = 5);
    let message = "face 3 has type 1003 (hex 3eb), wall (non-conformal), in its row, but its record 4 (zone 5) has type 5, pressure outlet";
    refused(Face(3), message, |given| given.face_rows[23] = 1003);
    let message = "cell 3 has type 0, dead, in its row, but its record 2 (zone 3) has type 32 (hex 20), inactive";
    refused(Cell(3), message, |given| given.cell_rows[5] = 0);
}

#[test]
fn nodes_of_a_face() {
    let message = "face 1 has 4 nodes in its row, but its record 3 (zone 4) is for faces of 3";
    refused(Face(1), message, |given| given.face_rows[0] = 4);
    for count in [2, 3, 4] {
        taken(|given| given.face_rows[16..20].copy_from_slice(&[count, 1, 2, if count > 2 { 9 } else { 0 }]));
    }
    refused(Face(3), "face 3 has 1 node in its row, but faces have 2 to 4", |given| given.face_rows[16] = 1);
    refused(Face(3), "face 3 has 5 nodes in its row, but faces have 2 to 4", |given| given.face_rows[16] = 5);
    let message = "face 4 has 2 nodes, but node 10 (hex a) stands at position 3 of its row, which must be 0";
    refused(Face(4), message, |given| given.face_rows[28] = 10);
    let message = "face 1 has 3 nodes, but node 1 stands at position 3 of its row, which must be 0";
    refused(Face(1), message, |given| given.face_rows[4] = 1);
    // What a face names is for the audit to judge.
    taken(|given| given.face_rows[25..27].copy_from_slice(&[0, u32::MAX]));
    taken(|given| given.face_rows[29..31].copy_from_slice(&[u32::MAX, u32::MAX]));
}

#[test]
fn elements_of_cells() {
    let message =
        "cell 2 has element 4, hexahedron, in its row, but its record 1 (zone 2) is for element 2, tetrahedron";
    refused(Cell(2), message, |given| given.cell_rows[2] = 4);
    for element in 1..=6 {
        taken(|given| given.cell_rows[4] = element);
    }
    refused(Cell(3), "cell 3 has element 0 in its row, but elements are 1 to 6", |given| given.cell_rows[4] = 0);
    refused(Cell(3), "cell 3 has element 7 in its row, but elements are 1 to 6", |given| given.cell_rows[4] = 7);
}

#[test]
fn the_third_pair_of_a_flat_mesh() {
    let flat = |mantissa: i64, exponent: i32| {
        move |given: &mut Given| (given.dimension, given.mantissas[5], given.exponents[5]) = (2, mantissa, exponent)
    };
    taken(flat(0, 0));
    refused(Node(2), "node 2 has z 5e0, but the mesh is flat (2D) and its z must be 0", flat(5, 0));
    refused(Node(2), "node 2 has z 0e1, but the mesh is flat (2D) and its z must be 0", flat(0, 1));
    taken(|given| given.mantissas[5] = 5);
}

#[test]
fn pairs() {
    let with = |mantissa: i64, exponent: i32| {
        move |given: &mut Given| (given.mantissas[4], given.exponents[4]) = (mantissa, exponent)
    };
    let cases = [
        (with(0, 1), "0e1, but the exponent of zero is 0"),
        (with(0, -400), "0e-400, but the exponent of zero is 0"),
        (with(10, 0), "10e0, but no mantissa is divisible by ten"),
        (with(-120, 3), "-120e3, but no mantissa is divisible by ten"),
        (with(TOO_LARGE, 0), "1000000000000000000e0, but no mantissa is divisible by ten"),
        (with(TOO_LARGE + 1, 0), "1000000000000000001e0, but a mantissa has at most 18 digits"),
        (with(-TOO_LARGE - 1, 0), "-1000000000000000001e0, but a mantissa has at most 18 digits"),
        (with(i64::MIN, 0), "-9223372036854775808e0, but a mantissa has at most 18 digits"),
        (with(i64::MAX, 0), "9223372036854775807e0, but a mantissa has at most 18 digits"),
        (with(1, 401), "1e401, but exponents are -400 to 400"),
        (with(-1, -401), "-1e-401, but exponents are -400 to 400"),
        (with(1, i32::MIN), "1e-2147483648, but exponents are -400 to 400"),
    ];
    for (change, message) in cases {
        refused(Node(2), &format!("node 2 has y {message}"), change);
    }
    for (mantissa, exponent) in [(0, 0), (1, 0), (9, 0), (11, 0), (TOO_LARGE - 1, 400), (1 - TOO_LARGE, -400)] {
        taken(with(mantissa, exponent));
    }
}
