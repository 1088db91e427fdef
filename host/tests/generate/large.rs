//! Large files, written as a mesher writes them: a row a line.

use super::grids::{Face, Model};
use super::words;

/// A mesh with as many nodes, faces and cells as a file may have; it means nothing.
pub fn model() -> Model {
    let total = 65_535;
    let points = (1..=total).map(|node| (0..3).map(|axis| words::word(&format!("{}.{node}", axis * 7))).collect());
    let node = |number: u32| number % (total + 1);
    let faces = (1..=total).map(|face| Face {
        nodes: (0..2 + face % 3).map(|place| node(face * 7 + place * 3)).collect(),
        right: node(face),
        left: node(face + 1),
    });
    let cells = (1..=total).map(|cell| 1 + cell % 6);
    Model { dimension: 3, points: points.collect(), faces: faces.collect(), cells: cells.collect() }
}

/// Its text. Inner faces, which come first, and others are a zone each; elements are told by row if `mixed`, else by zone.
pub fn text(model: &Model, mixed: bool) -> Vec<u8> {
    let totals = [model.points.len(), model.faces.len(), model.cells.len()];
    let dimension = model.dimension;
    let mut text =
        format!("(0 \"grid (made for a test)\")\n(2 {dimension})\n(10 (0 1 {:x} 0 {dimension}))\n", totals[0])
            .into_bytes();
    text.extend(format!("(13 (0 1 {:x} 0))\n(12 (0 1 {:x} 0))\n", totals[1], totals[2]).into_bytes());
    text.extend(format!("(10 (1 1 {:x} 1 {dimension})(\n", totals[0]).into_bytes());
    for point in &model.points {
        text.extend(point.join(&b' '));
        text.push(b'\n');
    }
    text.extend(b"))\n");
    let element = if mixed { 0 } else { model.cells[0] };
    text.extend(format!("(12 (2 1 {:x} 1 {element})", totals[2]).into_bytes());
    if mixed {
        text.push(b'(');
        for cell in &model.cells {
            text.extend(format!("{cell} ").into_bytes());
        }
        text.push(b')');
    }
    text.extend(b")\n");
    let inner = model.faces.iter().take_while(|face| face.right != 0 && face.left != 0).count();
    face_zone(&mut text, &model.faces[..inner], "3", 1, 2, mixed);
    face_zone(&mut text, &model.faces[inner..], "4", inner + 1, 3, mixed);
    text
}

fn face_zone(text: &mut Vec<u8>, faces: &[Face], zone: &str, first: usize, ztype: u32, mixed: bool) {
    let Some(face) = faces.first() else { return };
    let element = if mixed { 0 } else { face.nodes.len() };
    text.extend(format!("(13 ({zone} {first:x} {:x} {ztype:x} {element})(\n", first + faces.len() - 1).into_bytes());
    for face in faces {
        if mixed {
            text.extend(format!("{} ", face.nodes.len()).into_bytes());
        }
        for node in &face.nodes {
            text.extend(format!("{node:x} ").into_bytes());
        }
        text.extend(format!("{:x} {:x}\n", face.right, face.left).into_bytes());
    }
    text.extend(b"))\n");
}

/// Refused files of so many bytes, and their numbers.
pub fn refused(bytes: usize) -> Vec<(Vec<u8>, u32)> {
    let filled = |start: &[u8], fill: u8, end: &[u8]| {
        let mut text = start.to_vec();
        text.resize(bytes - end.len(), fill);
        text.extend(end);
        text
    };
    vec![
        (filled(b"", b' ', b""), 13),
        (filled(b"(0 \"", b'(', b""), 2),
        (filled(b"(0 \"", b'(', b"\")"), 13),
        (filled(b"(0 ", b'a', b")"), 13),
        (filled(b"(0", b'0', b")"), 3),
        (filled(b"(2 ", b'0', b"2)"), 3),
        (filled(b"(10 (0 1 1 0 2))(10 (1 1 1 1)(1 ", b'0', b"))"), 3),
        (filled(b"(0 ", b'(', b""), 12),
    ]
}
