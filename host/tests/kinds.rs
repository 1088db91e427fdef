//! A mesh for every kind of fault, 1 to 9: the decoded fault, its texts and the mark under the word it is about.

use ravneket::locate::{faces_naming, Rows};
use ravneket::{Decimal, Dimension, Fault, Lines, Mesh, Side};

const TOTALS: &str = "(2 2)(10 (0 1 3 0 2))(12 (0 1 1 0))(13 (0 1 3 0))";
const NODES: &str = "(10 (1 1 3 1 2)(0 0 1 0 0 1))";

/// The triangle with a cell section and a face section to choose.
fn triangle(cells: &str, faces: &str) -> String {
    format!("{TOTALS}\n{NODES}{cells}\n{faces}\n")
}

/// What is shown of a fault: its text with the mesh, the line and the mark.
fn shown(text: &str, fault: &Fault) -> [String; 3] {
    let mesh = Mesh::read(text.as_bytes()).unwrap();
    let rows = Rows::find(text.as_bytes(), &[*fault]);
    let words = rows.words(fault, &mesh).expect("the row is found");
    let snippet = Lines::new(text.as_bytes()).snippet(words);
    [fault.explain(&mesh), snippet.line, snippet.marks]
}

fn check(text: &str, faults: &[Fault], brief: &str, due: [&str; 3]) {
    let mesh = Mesh::read(text.as_bytes()).unwrap();
    let audit = mesh.audit();
    assert_eq!((audit.total, &audit.faults[..]), (faults.len() as u64, faults));
    assert_eq!(faults[0].to_string(), brief);
    assert_eq!(shown(text, &faults[0]), due);
}

const TRIANGLE: &str = "(12 (2 1 1 1 1))";

#[test]
fn k1_number_of_nodes() {
    let text = triangle(TRIANGLE, "(13 (3 1 3 3 0)(2 1 2 0 1 2 2 3 0 1 3 3 1 2 0 1))");
    check(
        &text,
        &[Fault::NodeCount { face: 3 }],
        "face 3: its number of nodes does not fit the dimension",
        [
            "face 3: it has 3 nodes, but a face of a flat mesh (2D) has 2; zone 3, wall",
            "(13 (3 1 3 3 0)(2 1 2 0 1 2 2 3 0 1 3 3 1 2 0 1))",
            "                                    ^",
        ],
    );
}

#[test]
fn k1_marks_the_row_where_the_count_is_the_sections() {
    let text = "(2 3)(10 (0 1 2 0))(13 (0 1 1a 0))(10 (1 1 2 1)(0 0 0 1 1 1))\n(13 (3 1 1a 3 2)(".to_string()
        + &"1 2 0 0 ".repeat(25)
        + "\n 2 1 0\t0 ))";
    let mesh = Mesh::read(text.as_bytes()).unwrap();
    let fault = Fault::NodeCount { face: 26 };
    assert_eq!(mesh.audit().faults.last(), Some(&fault));
    assert_eq!(fault.to_string(), "face 26 (hex 1a): its number of nodes does not fit the dimension");
    let explained = "face 26 (hex 1a): it has 2 nodes, but a face of a solid mesh (3D) has 3 or 4; zone 3, wall";
    assert_eq!(shown(&text, &fault), [explained, " 2 1 0 0 ))", " ^~~~~~~"]);
}

#[test]
fn k2_node_outside() {
    let faults = [Fault::NodeOutside { face: 1, position: 0 }, Fault::NodeOutside { face: 3, position: 1 }];
    let text = triangle(TRIANGLE, "(13 (a 1 3 24 2)(0 1 0 1 1 2 0 1 2 1F 0 1))");
    check(
        &text,
        &faults,
        "face 1: the node at position 0 is 0 or above the number of nodes",
        [
            "face 1: the node at position 0 is 0, but nodes count from 1; zone 10 (hex a), outflow",
            "(13 (a 1 3 24 2)(0 1 0 1 1 2 0 1 2 1F 0 1))",
            "                 ^",
        ],
    );
    let [explained, _, marks] = shown(&text, &faults[1]);
    let due = "face 3: the node at position 1 is 31 (hex 1f), but the mesh has 3 nodes; zone 10 (hex a), outflow";
    assert_eq!((explained.as_str(), marks.as_str()), (due, "                                   ^~"));
}

#[test]
fn k3_node_twice() {
    let text = triangle(TRIANGLE, "(13 (3 1 3 3 2)(1 2 0 1 2 3 0 1 3 3 0 1))");
    check(
        &text,
        &[Fault::NodeTwice { face: 3, position: 1 }],
        "face 3: the node at position 1 stands before it too",
        [
            "face 3: node 3 stands at position 0 and again at position 1; zone 3, wall",
            "(13 (3 1 3 3 2)(1 2 0 1 2 3 0 1 3 3 0 1))",
            "                                  ^",
        ],
    );
}

#[test]
fn k4_cell_beyond() {
    let text = triangle(TRIANGLE, "(13 (3 1 3 3 2)(1 2 0 1 2 3 0 1 3 1 0 ff))");
    let faults = [Fault::CellBeyond { face: 3, side: Side::Left }, Fault::FaceCount { cell: 1, count: 2 }];
    check(
        &text,
        &faults,
        "face 3: the left cell is above the number of cells",
        [
            "face 3: the left cell is 255 (hex ff), but the mesh has 1 cell; zone 3, wall",
            "(13 (3 1 3 3 2)(1 2 0 1 2 3 0 1 3 1 0 ff))",
            "                                      ^~",
        ],
    );
    let right = triangle(TRIANGLE, "(13 (3 1 3 3 2)(1 2 0 1 2 3 0 1 3 1 2 1))");
    let [_, _, marks] = shown(&right, &Fault::CellBeyond { face: 3, side: Side::Right });
    assert_eq!(marks, "                                    ^");
}

#[test]
fn k5_same_cell() {
    let text = triangle(TRIANGLE, "(13 (3 1 3 3 2)(1 2 0 1 2 3 0 1 3 1 1 1))");
    check(
        &text,
        &[Fault::SameCell { face: 3 }, Fault::FaceCount { cell: 1, count: 4 }],
        "face 3: the same cell is on both sides",
        [
            "face 3: cell 1 is on both sides; zone 3, wall",
            "(13 (3 1 3 3 2)(1 2 0 1 2 3 0 1 3 1 1 1))",
            "                                    ^~~",
        ],
    );
}

#[test]
fn k6_interior_open() {
    let text = triangle(TRIANGLE, "(13 (3 1 3 2 2)(1 2 1 0 2 3 0 1 3 1 0 1))");
    let faults = [1, 2, 3].map(|face| Fault::InteriorOpen { face });
    check(
        &text,
        &faults,
        "face 1: it is interior, but a side has no cell",
        [
            "face 1: its type is 2, interior, but it has no cell on the left; zone 3, interior",
            "(13 (3 1 3 2 2)(1 2 1 0 2 3 0 1 3 1 0 1))",
            "                      ^",
        ],
    );
    let [explained, _, marks] = shown(&text, &faults[1]);
    assert!(explained.contains("no cell on the right"));
    assert_eq!(marks, "                            ^");
}

#[test]
fn k7_no_cell() {
    let text = triangle(TRIANGLE, "(13 (3 1 2 3 2)(1 2 0 1 2 3 0 1))(13 (4 3 3 3ea 2)(3 1 0 0))");
    let faults = [Fault::InteriorOpen { face: 3 }, Fault::NoCell { face: 3 }, Fault::FaceCount { cell: 1, count: 2 }];
    check(
        &text,
        &faults,
        "face 3: it is interior, but a side has no cell",
        [
            "face 3: its type is 1002 (hex 3ea), interior, but it has no cell on either side; zone 4, interior (non-conformal)",
            "(13 (3 1 2 3 2)(1 2 0 1 2 3 0 1))(13 (4 3 3 3ea 2)(3 1 0 0))",
            "                                                       ^~~",
        ],
    );
    assert_eq!(faults[1].to_string(), "face 3: there is no cell on either side");
    let [explained, _, marks] = shown(&text, &faults[1]);
    assert_eq!(explained, "face 3: there is no cell on either side; zone 4, interior (non-conformal)");
    assert_eq!(marks.trim_start(), "^~~");
}

#[test]
fn k8_element() {
    let text = triangle("(12 (2 1 1 1 0)( 2))", "(13 (3 1 3 3 2)(1 2 0 1 2 3 0 1 3 1 0 1))");
    check(
        &text,
        &[Fault::Element { cell: 1 }, Fault::FaceCount { cell: 1, count: 3 }],
        "cell 1: its element does not fit the dimension",
        [
            "cell 1: element 2, a tetrahedron, does not fit a flat mesh (2D); zone 2, active",
            "(10 (1 1 3 1 2)(0 0 1 0 0 1))(12 (2 1 1 1 0)( 2))",
            "                                              ^",
        ],
    );
}

#[test]
fn k9_number_of_faces() {
    let text = triangle("(12 (2 1 1 1 3))", "(13 (3 1 3 3 2)(1 2 0 1 2 3 0 1 3 1 0 1))");
    let fault = Fault::FaceCount { cell: 1, count: 3 };
    check(
        &text,
        &[fault],
        "cell 1: 3 face sides name it, which does not fit its element",
        [
            "cell 1: 3 face sides name it, but element 3, a quadrilateral, has 4 faces; zone 2, active",
            "(10 (1 1 3 1 2)(0 0 1 0 0 1))(12 (2 1 1 1 3))",
            "                                          ^",
        ],
    );
    let mesh = Mesh::read(text.as_bytes()).unwrap();
    assert_eq!(mesh.audit().counts, [3]);
    assert_eq!(faces_naming(&mesh, &[fault])[&1], [1, 2, 3]);
}

#[test]
fn kinds_have_names_and_advice() {
    let kinds: Vec<_> = Fault::kinds().collect();
    assert_eq!(kinds.len(), 9);
    let fault = Fault::CellBeyond { face: 1, side: Side::Left };
    assert_eq!((fault.kind(), fault.name(), fault.advice()), kinds[3]);
}

/// More faults than the first list holds, so that the audit is asked twice: none is lost.
#[test]
fn all_faults_are_listed_however_many() {
    let text = "(2 2)(10 (0 1 1 0))(13 (0 1 1388 0))(10 (1 1 1 1)(0 0))\n(13 (3 1 1388 3 2)(\n".to_string()
        + &"0 0 0 0\n".repeat(5000)
        + "))";
    let audit = Mesh::read(text.as_bytes()).unwrap().audit();
    assert_eq!((audit.total, audit.faults.len()), (15000, 15000));
    assert_eq!(audit.faults[14998], Fault::NodeOutside { face: 5000, position: 1 });
    assert_eq!(audit.faults[14999], Fault::NodeTwice { face: 5000, position: 1 });
    let rows = Rows::find(text.as_bytes(), &audit.faults);
    let row = rows.face(5000).unwrap();
    assert_eq!(Lines::new(text.as_bytes()).place(row.left.start).line, 5002);
    assert_eq!((rows.face(5001), rows.cell(1)), (None, None));
}

#[test]
fn views_give_what_the_file_says() {
    let text = "(2 3)(10 (0 1 3 0))(12 (0 1 2 0))(13 (0 1 2 0))(10 (1 1 3 2)(1.5 -2e3 .25 0 0 0 1e400 -1 7))
(12 (a 1 2 20 0)(2 6))(13 (b 2 2 a 3)(1 2 3 0 2))(13 (c 1 1 18 4)(1 2 3 4 1 0))";
    let mesh = Mesh::read(text.as_bytes()).unwrap();
    assert_eq!(mesh.dimension(), Dimension::Three);
    assert_eq!((mesh.nodes().len(), mesh.faces().len(), mesh.cells().len(), mesh.zones().len()), (3, 2, 2, 4));
    let first = mesh.nodes().next().unwrap();
    assert_eq!(first.map(|value| value.to_string()), ["15e-1", "-2e3", "25e-2"]);
    assert_eq!(first[1].to_f64(), -2000.0);
    assert_eq!(mesh.nodes().nth(2).unwrap()[0], Decimal { mantissa: 1, exponent: 400 });
    let face = mesh.face(1).unwrap();
    assert_eq!((face.count, face.nodes, face.right, face.left, face.zone_type), (4, &[1, 2, 3, 4][..], 1, 0, 24));
    assert_eq!(mesh.face(2).unwrap().nodes, [1, 2, 3]);
    assert_eq!((mesh.face(0), mesh.face(3), mesh.cell(0), mesh.cell(3)), (None, None, None, None));
    assert_eq!(mesh.cell(2).map(|cell| (cell.element, cell.zone_type)), Some((6, 32)));
    let zone = mesh.zone_of(13, 1).unwrap();
    assert_eq!((zone.0, zone.1.zone, zone.1.first, zone.1.last, zone.1.element), (3, 12, 1, 1, 4));
    assert_eq!(mesh.face_table(), [4, 1, 2, 3, 4, 1, 0, 24, 3, 1, 2, 3, 0, 0, 2, 10]);
    assert_eq!(mesh.cell_table(), [2, 32, 6, 32]);
    assert_eq!(mesh.zone_table()[..6], [10, 1, 1, 3, 2, 0]);
    assert_eq!((mesh.mantissa_table()[0], mesh.exponent_table()[0]), (15, -1));
}
