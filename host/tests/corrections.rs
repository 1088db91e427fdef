//! Corrections: each form, and each thing that can be wrong with one.

mod common;

use common::{Folder, Said};

/// Two triangles, in a zone of which other sections have the id too; zones 1 and 4 are of one section each.
const MESH: &str = "(2 2)(10 (0 1 4 0))(12 (0 1 2 0))(13 (0 1 5 0))(10 (1 1 4 1)(0 0 1 0 0 1 1 1))(12 (3 1 2 1 1))
(13 (3 1 1 2 2)(2 3 1 2))(13 (4 2 5 3 2)(1 2 1 0 3 1 1 0 2 4 2 0 4 3 2 0))";
const TEXT: &str = "(2 2)\n(10 (0 1 4 0 2))\n(12 (0 1 2 0 0))\n(13 (0 1 5 0 0))
(10 (1 1 4 1 2)(\n0e0 0e0\n1e0 0e0\n0e0 1e0\n1e0 1e0))\n(12 (3 1 2 1 1))\n(13 (3 1 1 2 2)(\n2 3 1 2))
(13 (4 2 5 3 2)(\n1 2 1 0\n3 1 1 0\n2 4 2 0\n4 3 2 0))\n";

fn run(corrections: impl AsRef<[u8]>) -> Said {
    // Tests run at once and each has a folder of its own.
    let name = format!("corrections-{:?}", std::thread::current().id());
    let folder = Folder::new(&name).with("a.msh", MESH).with("fix", corrections);
    folder.run(&["write", "a.msh", "--with", "fix"])
}

/// The text with these parts changed, each of which stands in it once.
fn check(corrections: &str, changes: &[(&str, &str)]) {
    let mut due = TEXT.to_string();
    for (from, to) in changes {
        assert_eq!(due.matches(from).count(), 1, "{from}");
        due = due.replace(from, to);
    }
    assert_eq!(run(corrections), Said { status: 0, out: due, err: String::new() }, "{corrections}");
}

#[test]
fn no_corrections() {
    check("", &[]);
    check("# nothing\n\n   \t\r\n#", &[]);
    // Words that are the same as they were.
    check(
        "node 2 x 1.00\nface 5 left 0\nface 1 nodes 2 3\ncell 1 element triangle\nzone 4 type wall\nzone 1 id 1",
        &[],
    );
}

#[test]
fn nodes() {
    check("node 4 x -12.5e-1", &[("\n1e0 1e0)", "\n-125e-2 1e0)")]);
    check("node 1 y 999999999999999999e400", &[("\n0e0 0e0", "\n0e0 999999999999999999e400")]);
}

#[test]
fn faces() {
    check("face 1 right 2\nface 1 left 1", &[("2 3 1 2)", "2 3 2 1)")]);
    check("face 2 node 0 4\nface 2 node 1 26", &[("1 2 1 0", "4 1a 1 0")]);
    check("face 3 nodes 1 3\n face 3 left 4294967295", &[("3 1 1 0", "1 3 1 ffffffff")]);
    check(
        "zone 4 element mixed\nface 3 nodes 1 2 3 4",
        &[
            ("5 3 2)", "5 3 0)"),
            ("1 2 1 0", "2 1 2 1 0"),
            ("3 1 1 0", "4 1 2 3 4 1 0"),
            ("2 4 2 0", "2 2 4 2 0"),
            ("4 3 2 0", "2 4 3 2 0"),
        ],
    );
}

#[test]
fn cells() {
    check("record 1 element 0\ncell 2 element quadrilateral", &[("(12 (3 1 2 1 1))", "(12 (3 1 2 1 0)(\n1\n3))")]);
    check("record 1 element 3", &[("(12 (3 1 2 1 1))", "(12 (3 1 2 1 3))")]);
    check("record 1 type inactive", &[("(12 (3 1 2 1 1))", "(12 (3 1 2 20 1))")]);
}

#[test]
fn zones() {
    check("zone 4 type pressure outlet", &[("5 3 2)", "5 5 2)")]);
    check("zone 4 type mass-flow-inlet", &[("5 3 2)", "5 14 2)")]);
    check("zone 4 type 1036", &[("5 3 2)", "5 40c 2)")]);
    check("zone 1 type boundary nodes\nrecord 0 id 65535", &[("(10 (1 1 4 1 2)", "(10 (ffff 1 4 2 2)")]);
    // The last correction of a word counts.
    check("zone 4 type fan\nrecord 3 type 37\nzone 4 id 5\nzone 5 id 6", &[("(4 2 5 3 2)", "(6 2 5 25 2)")]);
}

/// Answers what is said behind the place, which is due.
fn bad(correction: &str, place: &str) -> String {
    let said = run(format!("# a\nface 1 left 2\n{correction}\n"));
    assert_eq!((said.status, said.out.as_str()), (3, ""), "{correction}");
    let lines: Vec<&str> = said.err.lines().collect();
    let [first, line, mark] = lines[..] else { panic!("{}", said.err) };
    assert_eq!(line, format!("     3 | {correction}"));
    let column: usize = place.parse().unwrap();
    assert_eq!(mark.find('^'), Some(9 + column - 1));
    first.strip_prefix(&format!("fix:3:{place}: bad correction: ")).unwrap_or_else(|| panic!("{first}")).to_string()
}

#[test]
fn what_is_not_there() {
    assert_eq!(bad("face 6 left 1", "6"), "there is no face 6; the mesh has 5 faces");
    assert_eq!(bad("face 0 left 1", "6"), "there is no face 0; the mesh has 5 faces");
    assert_eq!(bad("node 5 x 0", "6"), "there is no node 5; the mesh has 4 nodes");
    assert_eq!(bad("node 4 z 0", "8"), "the mesh is flat (2D) and has no z");
    assert_eq!(bad("cell 3 element 1", "6"), "there is no cell 3; the mesh has 2 cells");
    assert_eq!(bad("face 7 node 9 1", "6"), "there is no face 7; the mesh has 5 faces");
    assert_eq!(bad("face 2 node 2 1", "13"), "there is no position 2 in face 2; it has 2 nodes, from position 0");
    assert_eq!(bad("face 2 nodes 1 2 3 4 5", "6"), "there is no room for 5 nodes in a face; it has at most 4");
    assert_eq!(bad("record 4 id 1", "8"), "there is no record 4; the mesh has 4 records, from 0");
    assert_eq!(bad("zone 2 id 1", "6"), "there is no zone 2; the mesh has 1, 3, 4");
    let several = "zone 3 is in several records: record 1, active cells 1 to 2; record 2, interior faces 1 to 1; name the one, as in `record 1`";
    assert_eq!(bad("zone 3 type wall", "6"), several);
}

#[test]
fn what_is_no_number() {
    assert_eq!(bad("face 1 left 4294967296", "13"), "the number is above 4294967295");
    assert_eq!(bad("face 1 left 1a", "13"), "numbers are decimal here, as in the report: 1a in a mesh file is 26");
    assert_eq!(bad("face -1 left 1", "6"), "a decimal number is due here");
    assert_eq!(bad("face 0x1 left 1", "6"), "a decimal number is due here");
    let reason = "this is not a decimal number of at most 64 bytes, 18 digits and a power of ten from -400 to 400";
    for value in ["nan", "1,5", "1234567890123456789", "1e401", "0 0))(0"] {
        match value.contains(' ') {
            false => assert_eq!(bad(&format!("node 1 x {value}"), "10"), reason),
            true => assert!(bad(&format!("node 1 x {value}"), "1").starts_with("this should be `node N x VALUE`")),
        }
    }
}

#[test]
fn what_is_no_correction() {
    assert_eq!(bad("edge 1 left 2", "1"), "a correction starts with node, face, cell, zone or record");
    assert_eq!(bad("Face 1 left 2", "1"), "a correction starts with node, face, cell, zone or record");
    for (correction, form) in [
        ("node 1", "`node N x VALUE`"),
        ("node 1 w 2", "`node N x VALUE`"),
        ("face 1 left", "`face N right CELL`"),
        ("face 1 left 2 3", "`face N right CELL`"),
        ("cell 1 type 1", "`cell N element ELEMENT`"),
        ("zone 4 first 1", "`zone ID type TYPE`"),
        ("record 1 id 2 3", "`record PLACE type TYPE`"),
    ] {
        assert!(bad(correction, "1").starts_with(&format!("this should be {form}")), "{correction}");
    }
    assert!(bad("zone 4 type glue", "13").starts_with("types of faces are interior, wall, "));
    assert!(bad("record 1 type wall", "15").starts_with("types of cells are dead, active, inactive, or "));
    assert!(bad("record 1 element brick", "18").starts_with("elements are 1 to 6, or triangle, "));
}

#[test]
fn all_bad_ones_are_told_and_nothing_can_command_the_terminal() {
    let said = run(b"face 9 left 1\nface 1 left 1\n\x1b[2J\xff 1\nface \x1b left 2\n");
    let places: Vec<&str> =
        said.err.lines().filter_map(|line| line.split_once(": bad correction")).map(|at| at.0).collect();
    assert_eq!((said.status, places), (3, vec!["fix:1:6", "fix:3:1", "fix:4:6"]));
    assert!(!said.err.contains('\x1b') && said.err.contains("the word is not UTF-8"), "{}", said.err);
    let said = run(vec![b'#'; 8_388_609]);
    assert_eq!((said.status, said.err.as_str()), (3, "ravneket: fix: is over 8388608 bytes\n"));
}

/// Numbers that no zone or cell can have are for the writer to refuse.
#[test]
fn what_has_no_text() {
    for (correction, reason) in [
        ("zone 4 type 6", "record 3 (zone 4) has type 6, which is not listed for faces"),
        ("zone 1 id 0", "record 0 (zone 0) is of zone 0, but zone ids are 1 to 65535"),
        ("zone 1 element 1", "record 0 (zone 1) has element 1, but records of nodes have 0"),
        (
            "cell 2 element 3",
            "cell 2 has element 3, quadrilateral, in its row, but its record 1 (zone 3) is for element 1, triangle",
        ),
        ("face 3 nodes 1", "face 3 has 1 node in its row, but its record 3 (zone 4) is for faces of 2"),
    ] {
        let said = run(correction);
        assert_eq!((said.status, said.out.as_str()), (2, ""), "{correction}");
        assert!(said.err.starts_with(&format!("a.msh: refused 18 (Unwritable): {reason}\n")), "{}", said.err);
    }
}
