//! Texts that the proved writer writes, byte for byte; room and file size to the byte.

mod generate;
mod plain;

use generate::given::{Given, Writer};
use ravneket::{raw, write_tables, Mesh, Unwritten, MAX_BYTES};
use std::path::PathBuf;

/// The text of the mesh that another text says.
fn again(text: &str) -> String {
    let mesh = Mesh::read(text.as_bytes()).unwrap();
    let written = mesh.to_text().unwrap();
    assert_eq!(Mesh::read(&written), Ok(mesh));
    String::from_utf8(written).unwrap()
}

#[test]
fn a_flat_mesh() {
    let text = "(2 2)(10 (0 1 3 0 2))(12 (0 1 1 0))(13 (0 1 3 0))
(10 (1 1 3 1 2)(0 0 1 0 0 1))(12 (2 1 1 1 1))
(13 (3 1 3 3 2)(1 2 0 1 2 3 0 1 3 4 0 2))";
    let due = "(2 2)\n(10 (0 1 3 0 2))\n(12 (0 1 1 0 0))\n(13 (0 1 3 0 0))
(10 (1 1 3 1 2)(\n0e0 0e0\n1e0 0e0\n0e0 1e0))
(12 (2 1 1 1 1))
(13 (3 1 3 3 2)(\n1 2 0 1\n2 3 0 1\n3 4 0 2))\n";
    assert_eq!(again(text), due);
    assert_eq!(again(due), due);
}

/// Mixed sections, sections out of order, comments and other sections between, digits of all sorts.
#[test]
fn a_solid_mesh() {
    let text = "(0 \"grid\")(13 (0 1 3 7))(10 (0 1 2 0))(12 (0 1 b 0))(45 (9 wall duct)())(2 3)
(12 (FFFF 2 B 20 0)(1 2 3 4 5 6 1 2 3 4))(13 (a 2 3 3ea 0)(02 1 2 0 00ab 4 ffffffff 1 2 10 F 0))
(10 (1 2 2 0)(-12.50e-2 1e400 999999999999999999))(13 (0b 1 1 24 3)(1 2 10000000 0 C))(12 (1 1 1 0 6))
(10 (2 1 1 2 3)(-0.0 120 -.001e-397))";
    let due = "(2 3)\n(10 (0 1 2 0 3))\n(12 (0 1 b 0 0))\n(13 (0 1 3 0 0))
(12 (ffff 2 b 20 0)(\n1\n2\n3\n4\n5\n6\n1\n2\n3\n4))
(13 (a 2 3 3ea 0)(\n2 1 2 0 ab\n4 ffffffff 1 2 10 f 0))
(10 (1 2 2 0 3)(\n-125e-3 1e400 999999999999999999e0))
(13 (b 1 1 24 3)(\n1 2 10000000 0 c))
(12 (1 1 1 0 6))
(10 (2 1 1 2 3)(\n0e0 12e1 -1e-400))\n";
    assert_eq!(again(text), due);
    assert_eq!(again(due), due);
}

#[test]
fn meshes_without_rows() {
    let none = "(2 3)\n(10 (0 1 0 0 3))\n(12 (0 1 0 0 0))\n(13 (0 1 0 0 0))\n";
    assert_eq!(again("(13 (0 1 0 0))(10 (0 1 0 0 3))"), none, "cells are declared even where there are none");
    let given = Given { dimension: 3, ..Given::default() };
    assert_eq!(write_tables(&given.tables()).unwrap(), none.as_bytes());
    let text = "(2 2)(10 (0 1 1 0))(13 (0 1 1 0))(13 (1 1 1 3 2)(1 1 0 0))(10 (1 1 1 1)(5 5))";
    let due = "(2 2)\n(10 (0 1 1 0 2))\n(12 (0 1 0 0 0))\n(13 (0 1 1 0 0))\n(13 (1 1 1 3 2)(\n1 1 0 0))\n(10 (1 1 1 1 2)(\n5e0 5e0))\n";
    assert_eq!(again(text), due);
}

#[test]
fn the_guides_examples() {
    let folder = PathBuf::from(env!("CARGO_MANIFEST_DIR")).join("../examples");
    let read = |name: &str| std::fs::read_to_string(folder.join(name)).unwrap();
    for name in ["guide-1.msh", "guide-2.msh", "guide-3.msh", "clean.msh", "three-faults.msh"] {
        let written = again(&read(name));
        assert_eq!(again(&written), written);
    }
    let due = "(2 2)\n(10 (0 1 8 0 2))\n(12 (0 1 3 0 0))\n(13 (0 1 a 0 0))
(12 (7 1 3 1 3))
(13 (2 1 2 2 2)(\n1 2 1 2\n3 4 2 3))
(13 (3 3 5 3 2)(\n5 1 1 0\n1 3 2 0\n3 6 3 0))
(13 (4 6 8 3 2)(\n7 4 3 0\n4 2 2 0\n2 8 1 0))
(13 (5 9 9 a 2)(\n8 5 1 0))
(13 (6 a a 24 2)(\n6 7 3 0))
(10 (1 1 8 1 2)(\n1e0 0e0\n1e0 1e0\n2e0 0e0\n2e0 1e0\n0e0 0e0\n3e0 0e0\n3e0 1e0\n0e0 1e0))\n";
    assert_eq!(again(&read("guide-1.msh")), due);
}

/// Writes with the proved writer and the plain one, which agree: number, length, bytes.
fn both(given: &Given, room: usize) -> (u32, u64, Vec<u8>) {
    let run = |writer: Writer| {
        let (mut text, mut answer) = (vec![0xee; room], [77]);
        let number = given.write(writer, &mut text, &mut answer);
        (number, answer[0], text)
    };
    let (proved, plain) = (run(raw::write), run(plain::write));
    assert!(proved == plain, "proved {} {}, plain {} {}", proved.0, proved.1, plain.0, plain.1);
    proved
}

#[test]
fn room_to_the_byte() {
    let mesh = Mesh::read(b"(2 2)(10 (0 1 1 0))(13 (0 1 0 0))(10 (1 1 1 1)(1 -2))").unwrap();
    let text = mesh.to_text().unwrap();
    let given = Given {
        dimension: 2,
        nodes: 1,
        mantissas: mesh.mantissa_table().to_vec(),
        exponents: mesh.exponent_table().to_vec(),
        zones: mesh.zone_table().to_vec(),
        ..Given::default()
    };
    let length = text.len();
    for room in [0, 1, length - 1] {
        let (number, answer, left) = both(&given, room);
        assert_eq!((number, answer), (19, 0));
        assert!(left.iter().all(|&byte| byte == 0xee));
    }
    for room in [length, length + 1, length + 1_000] {
        let (number, answer, left) = both(&given, room);
        assert_eq!((number, answer, &left[..length]), (0, length as u64, &text[..]));
        assert!(left[length..].iter().all(|&byte| byte == 0xee));
    }
}

/// 65,535 nodes and faces whose text is so many bytes long, by words that are cut.
fn as_long_as(bytes: usize) -> Given {
    let total = 65_535;
    let mut given = Given { dimension: 3, nodes: total, faces: total, ..Given::default() };
    given.mantissas = vec![-999_999_999_999_999_999; 3 * total as usize];
    given.exponents = vec![-400; 3 * total as usize];
    given.face_rows = [4, u32::MAX, u32::MAX, u32::MAX, u32::MAX, u32::MAX, u32::MAX, 3].repeat(total as usize);
    given.zones = [[13, 1, 1, total, 3, 0], [10, 1, 1, total, 1, 0]].concat();
    let sections = "(2 3)\n(10 (0 1 ffff 0 3))\n(12 (0 1 0 0 0))\n(13 (0 1 ffff 0 0))\n(13 (1 1 ffff 3 0)())\n(10 (1 1 ffff 1 3)())\n";
    let mut over = sections.len() + (3 * 25 + 2 + 6 * 9) * total as usize - bytes;
    for word in given.face_rows.iter_mut().filter(|word| **word == u32::MAX) {
        let digits = over.min(7);
        *word >>= 4 * digits;
        over -= digits;
    }
    assert_eq!(over, 0);
    given
}

#[test]
fn the_file_size_to_the_byte() {
    let given = as_long_as(MAX_BYTES);
    let (number, length, text) = both(&given, MAX_BYTES);
    assert_eq!((number, length), (0, MAX_BYTES as u64));
    assert!(given.read_back(&text, raw::read) == given && given.read_back(&text, plain::read) == given);
    assert!(write_tables(&given.tables()) == Ok(text));
    assert_eq!(both(&given, MAX_BYTES - 1).0, 19);
    // One byte more, with all the room there may be.
    let given = as_long_as(MAX_BYTES + 1);
    let (number, length, text) = both(&given, MAX_BYTES + 9);
    assert_eq!((number, length), (19, 0));
    assert!(text.iter().all(|&byte| byte == 0xee));
    let refusal = write_tables(&given.tables()).unwrap_err();
    assert_eq!(refusal, Unwritten::TextRoom { bytes: MAX_BYTES as u64 + 1 });
    let due = "refused 19 (TextRoom): the text would have 8388609 bytes, but a file has at most 8388608";
    assert_eq!(refusal.to_string(), due);
    // 18 comes first, however long the text would be.
    let mut spoilt = given;
    spoilt.mantissas[0] = 10;
    assert_eq!(both(&spoilt, 0).0, 18);
}
