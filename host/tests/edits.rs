//! Rows and records of a mesh set anew.

use ravneket::{Decimal, Mesh, Side};

const TEXT: &str = "(2 2)(10 (0 1 3 0))(12 (0 1 1 0))(13 (0 1 3 0))(10 (1 1 3 1)(0 0 1 0 0 1))(12 (2 1 1 1 1))
(13 (3 1 3 3 2)(1 2 0 1 2 3 0 1 3 4 0 2))";
const VALUE: Decimal = Decimal { mantissa: -125, exponent: -2 };

fn mesh() -> Mesh {
    Mesh::read(TEXT.as_bytes()).unwrap()
}

#[test]
fn each_edit_answers_what_was_there() {
    let mut mesh = mesh();
    assert_eq!(mesh.set_coordinate(2, 1, VALUE), Ok(Decimal::default()));
    assert_eq!(mesh.set_face_node(3, 1, 1), Ok(4));
    assert_eq!(mesh.set_side(3, Side::Left, 1), Ok(2));
    assert_eq!(mesh.set_side(1, Side::Right, 9), Ok(0));
    assert_eq!(mesh.set_face_nodes(2, &[3, 2]), Ok(vec![2, 3]));
    assert_eq!(mesh.set_zone_type(2, 36), Ok(3));
    assert_eq!(mesh.set_zone_type(1, 32), Ok(1));
    assert_eq!(mesh.set_zone_element(1, 3), Ok(1));
    assert_eq!(mesh.set_zone_id(0, 26), Ok(1));
    let due = "(2 2)\n(10 (0 1 3 0 2))\n(12 (0 1 1 0 0))\n(13 (0 1 3 0 0))
(10 (1a 1 3 1 2)(\n0e0 0e0\n1e0 -125e-2\n0e0 1e0))
(12 (2 1 1 20 3))
(13 (3 1 3 24 2)(\n1 2 9 1\n3 2 0 1\n3 1 0 1))\n";
    assert_eq!(String::from_utf8(mesh.to_text().unwrap()).unwrap(), due);
    assert_eq!(Mesh::read(due.as_bytes()), Ok(mesh));
}

#[test]
fn a_record_made_mixed_takes_rows_of_other_sorts() {
    let mut mesh = mesh();
    mesh.set_face_nodes(1, &[1, 2, 3]).unwrap();
    mesh.set_element(1, 3).unwrap();
    assert!(mesh.to_text().unwrap_err().to_string().contains("cell 1 has element 3, quadrilateral, in its row"));
    mesh.set_zone_element(1, 0).unwrap();
    assert!(mesh.to_text().unwrap_err().to_string().contains("is for faces of 2"));
    mesh.set_zone_element(2, 0).unwrap();
    assert_eq!(Mesh::read(&mesh.to_text().unwrap()), Ok(mesh));
}

#[test]
fn a_refused_edit_changes_nothing() {
    let mut mesh = mesh();
    let refused = [
        mesh.set_coordinate(4, 0, VALUE).unwrap_err().to_string(),
        mesh.set_coordinate(1, 2, VALUE).unwrap_err().to_string(),
        mesh.set_face_node(0, 0, 1).unwrap_err().to_string(),
        mesh.set_face_node(2, 2, 1).unwrap_err().to_string(),
        mesh.set_face_nodes(1, &[1; 5]).unwrap_err().to_string(),
        mesh.set_element(2, 1).unwrap_err().to_string(),
        mesh.set_zone_id(3, 1).unwrap_err().to_string(),
    ];
    let due = [
        "there is no node 4; the mesh has 3 nodes",
        "there is no coordinate 2 in a 2D mesh",
        "there is no face 0; the mesh has 3 faces",
        "there is no position 2 in face 2; it has 2 nodes, from position 0",
        "there is no room for 5 nodes in a face; it has at most 4",
        "there is no cell 2; the mesh has 1 cell",
        "there is no record 3; the mesh has 3 records, from 0",
    ];
    assert_eq!(refused, due);
    assert_eq!(mesh, self::mesh());
}
