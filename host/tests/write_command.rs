//! Runs `ravneket write`: where the text goes, what is overwritten, what is left when something fails.

mod common;

use common::{command, ravneket, Folder, Said, CLEAN, FAULTY};
use std::io::Write;
use std::path::Path;
use std::process::{Command, Stdio};

/// The text of `CLEAN`, up to the nodes of its last face.
const START: &str = "(2 2)\n(10 (0 1 3 0 2))\n(12 (0 1 1 0 0))\n(13 (0 1 3 0 0))
(10 (1 1 3 1 2)(\n0e0 0e0\n1e0 0e0\n0e0 1e0))\n(12 (2 1 1 1 1))\n(13 (3 1 3 3 2)(\n1 2 0 1\n2 3 0 1\n";
const MEND: &str = "# the last face\n\nface 3 node 1 1 # was 4\n  face 3 left 1\r\n";

fn clean() -> String {
    format!("{START}3 1 0 1))\n")
}

fn said(status: i32, out: &str, err: &str) -> Said {
    Said { status, out: out.to_string(), err: err.to_string() }
}

/// The names of all files, sorted.
fn files(folder: &Folder) -> Vec<String> {
    let names = std::fs::read_dir(&folder.0).unwrap().map(|file| file.unwrap().file_name().into_string().unwrap());
    let mut names: Vec<String> = names.collect();
    names.sort();
    names
}

fn content(folder: &Folder, name: &str) -> String {
    std::fs::read_to_string(folder.0.join(name)).unwrap()
}

#[test]
fn to_standard_output() {
    let folder = Folder::new("write-stdout").with("a.msh", CLEAN).with("b.msh", FAULTY).with("mend", MEND);
    assert_eq!(folder.run(&["write", "a.msh"]), said(0, &clean(), ""));
    assert_eq!(folder.run(&["write", "b.msh"]), said(0, &format!("{START}3 4 0 2))\n"), ""));
    assert_eq!(folder.run(&["write", "--with", "mend", "b.msh"]), said(0, &clean(), ""));
    assert_eq!(folder.run(&["write", "b.msh", "--with=mend", "-o", "-"]), said(0, &clean(), ""));
    assert_eq!(files(&folder), ["a.msh", "b.msh", "mend"]);
}

#[test]
fn to_a_file() {
    let folder = Folder::new("write-file").with("b.msh", FAULTY).with("mend", MEND);
    let due = "mend:3: face 3: the node at position 1 was 4, is 1
mend:4: face 3: the left cell was 2, is 1
c.msh: written: 3 nodes, 3 faces, 1 cell, 2D, 160 bytes, 2 corrections\n";
    assert_eq!(folder.run(&["write", "b.msh", "-o", "c.msh", "--with", "mend"]), said(0, due, ""));
    assert_eq!((content(&folder, "c.msh"), clean().len()), (clean(), 160));
    assert_eq!(folder.run(&["audit", "c.msh"]).status, 0);
    assert_eq!(folder.run(&["write", "-q", "b.msh", "--output=d.msh"]), said(0, "", ""));
    assert_eq!(files(&folder), ["b.msh", "c.msh", "d.msh", "mend"]);
}

#[test]
fn nothing_is_overwritten_unless_told() {
    let folder = Folder::new("write-force").with("a.msh", CLEAN).with("mend", "face 1 left 7");
    let there = "ravneket: a.msh: is there already; `--force` overwrites it\n";
    assert_eq!(folder.run(&["write", "a.msh", "-o", "a.msh", "--with", "mend"]), said(3, "", there));
    assert_eq!(content(&folder, "a.msh"), CLEAN);
    let told = folder.run(&["write", "a.msh", "-o", "a.msh", "--with", "mend", "--force"]);
    assert_eq!((told.status, told.err.as_str()), (0, ""));
    assert_eq!(content(&folder, "a.msh"), clean().replace("1 2 0 1", "1 2 0 7"));
    assert_eq!(files(&folder), ["a.msh", "mend"]);
}

#[test]
fn an_overwritten_file_keeps_its_permissions_and_links() {
    use std::os::unix::fs::{symlink, PermissionsExt};
    let folder = Folder::new("write-link").with("a.msh", CLEAN).with("old.msh", "x");
    let old = folder.0.join("old.msh");
    std::fs::set_permissions(&old, std::fs::Permissions::from_mode(0o640)).unwrap();
    symlink("old.msh", folder.0.join("link.msh")).unwrap();
    assert_eq!(folder.run(&["write", "a.msh", "-o", "link.msh", "-q"]).status, 3);
    assert_eq!(folder.run(&["write", "a.msh", "-o", "link.msh", "-q", "--force"]), said(0, "", ""));
    assert_eq!(content(&folder, "old.msh"), clean());
    assert!(folder.0.join("link.msh").is_symlink());
    assert_eq!(std::fs::metadata(&old).unwrap().permissions().mode() & 0o777, 0o640);
}

#[test]
fn what_is_no_plain_file_is_not_replaced() {
    let folder = Folder::new("write-places").with("a.msh", CLEAN);
    std::fs::create_dir(folder.0.join("sub")).unwrap();
    let told = |out: &str| {
        let said = folder.run(&["write", "a.msh", "--force", "-o", out]);
        assert_eq!((said.status, said.out.as_str()), (3, ""));
        said.err
    };
    assert_eq!(told("sub"), "ravneket: sub: is a folder\n");
    assert!(told("/dev/null").starts_with("ravneket: /dev/null: is not a plain file; "));
    assert!(told("none/b.msh").starts_with("ravneket: none/b.msh: can't be written: "));
    assert!(told("a.msh/b.msh").starts_with("ravneket: a.msh/b.msh: can't be written: "));
    assert_eq!(files(&folder), ["a.msh", "sub"]);
}

/// A file may have so few bytes here that the text does not fit, as on a full disk.
#[test]
fn a_failed_write_leaves_nothing() {
    let nodes = "(2 2)(10 (0 1 400 0))(13 (0 1 0 0))(10 (1 1 400 1)(".to_string() + &"1 2\n".repeat(1024) + "))";
    let folder = Folder::new("write-full").with("a.msh", nodes).with("old.msh", "old");
    let program = command(Path::new(env!("CARGO_BIN_EXE_ravneket")));
    let mut limited = Command::new("sh");
    limited.current_dir(&folder.0).args(["-c", "trap '' XFSZ; ulimit -f 4; exec \"$@\"", "sh"]);
    limited.arg(program.get_program()).args(program.get_args());
    let output = limited.args(["write", "a.msh", "--force", "-o", "old.msh"]).output().unwrap();
    let told = Said::of(output);
    assert_eq!((told.status, told.out.as_str()), (3, ""), "{}", told.err);
    assert!(told.err.starts_with("ravneket: old.msh: can't be written: "), "{}", told.err);
    assert_eq!((content(&folder, "old.msh").as_str(), files(&folder)), ("old", vec!["a.msh".into(), "old.msh".into()]));
    assert_eq!(folder.run(&["write", "a.msh", "--force", "-q", "-o", "old.msh"]), said(0, "", ""));
    assert!(content(&folder, "old.msh").len() > 8_000);
}

#[test]
fn refused_meshes() {
    let folder = Folder::new("write-refused")
        .with("c.msh", "(2 2)\n(2 nan)")
        .with("a.msh", CLEAN)
        .with("mend", "face 2 nodes 1 2 3");
    let due = "\
c.msh:2:4: refused 3 (Number): `nan` is not a hexadecimal number of 1 to 8 digits (section 2, byte 9)
     2 | (2 nan)
       |    ^~~
  mend: write whole numbers in hexadecimal without sign, point or 0x, as %x does\n";
    assert_eq!(folder.run(&["write", "c.msh", "-o", "d.msh"]), said(2, "", due));
    let due = "\
a.msh: refused 18 (Unwritable): face 2 has 3 nodes in its row, but its record 2 (zone 3) is for faces of 2
  mend: change the row or the record that is named, so that the two agree\n";
    assert_eq!(folder.run(&["write", "a.msh", "--with", "mend", "-o", "d.msh"]), said(2, "", due));
    assert_eq!(folder.run(&["write", "a.msh", "--with", "mend"]), said(2, "", due));
    assert_eq!(files(&folder), ["a.msh", "c.msh", "mend"]);
}

/// The file is within its size; its text is not, as each coordinate without an exponent gets one.
#[test]
fn a_mesh_that_is_too_long() {
    let digits = "-999999999999999999";
    let nodes = format!("{digits} ").repeat(3 * 20_000) + &format!("{digits}e-400 ").repeat(3 * 45_535);
    let faces = format!("4 {}", "ffffffff ".repeat(6)).repeat(65_535);
    let text = format!("(2 3)(10 (0 1 ffff 0))(13 (0 1 ffff 0))(10 (1 1 ffff 1)({nodes}))(13 (1 1 ffff 3 0)({faces}))");
    assert!(text.len() < 8_388_608);
    let folder = Folder::new("write-long").with("a.msh", text);
    let due = "\
a.msh: refused 19 (TextRoom): the text would have 8405192 bytes, but a file has at most 8388608
  mend: give coordinates fewer digits, or split the mesh\n";
    assert_eq!(folder.run(&["write", "a.msh", "-o", "d.msh"]), said(2, "", due));
    assert_eq!(files(&folder), ["a.msh"]);
}

#[test]
fn sections_that_are_left_out_are_told() {
    let folder = Folder::new("write-left-out")
        .with("a.msh", format!("(0 \"x\")(45 (1 a b)())(45 (2 c d)()){CLEAN}(18 (1 1 1 1)(1 2))"));
    let note = "ravneket: a.msh: not read, so not in the text: 1 section 18, 2 sections 45\n";
    assert_eq!(folder.run(&["write", "a.msh"]), said(0, &clean(), note));
    assert_eq!(folder.run(&["write", "a.msh", "-q"]), said(0, &clean(), ""));
}

fn with_input(folder: &Folder, arguments: &[&str], input: &str) -> Said {
    let mut child = ravneket();
    child.current_dir(&folder.0).args(arguments).stdin(Stdio::piped()).stdout(Stdio::piped()).stderr(Stdio::piped());
    let mut child = child.spawn().unwrap();
    child.stdin.take().unwrap().write_all(input.as_bytes()).unwrap();
    Said::of(child.wait_with_output().unwrap())
}

#[test]
fn standard_input_is_the_mesh_or_the_corrections() {
    let folder = Folder::new("write-stdin").with("b.msh", FAULTY).with("mend", MEND);
    assert_eq!(with_input(&folder, &["write", "-", "--with", "mend"], FAULTY), said(0, &clean(), ""));
    assert_eq!(with_input(&folder, &["write", "b.msh", "--with", "-"], MEND), said(0, &clean(), ""));
    let told = with_input(&folder, &["write", "b.msh", "--with", "-"], "x");
    assert!(told.err.starts_with("<stdin>:1:1: bad correction: "), "{}", told.err);
}

#[test]
fn wrong_calls_and_files_that_are_not_there() {
    let folder = Folder::new("write-calls").with("a.msh", CLEAN);
    for call in
        [&["write"][..], &["write", "a.msh", "a.msh"], &["write", "a.msh", "-o"], &["write", "-", "--with", "-"]]
    {
        let told = folder.run(call);
        assert_eq!((told.status, told.out.as_str(), told.err.lines().count()), (3, "", 1), "{call:?}");
        assert!(told.err.starts_with("ravneket: ") && told.err.ends_with("`ravneket --help` says how\n"));
    }
    assert_eq!(folder.run(&["write", "none"]), said(3, "", "ravneket: none: is not there\n"));
    assert_eq!(folder.run(&["write", "a.msh", "--with", "none"]), said(3, "", "ravneket: none: is not there\n"));
    assert_eq!(folder.run(&["write", "-h"]), folder.run(&["--help"]));
    let full = std::fs::File::options().write(true).open("/dev/full").unwrap();
    let told = Said::of(ravneket().current_dir(&folder.0).args(["write", "a.msh"]).stdout(full).output().unwrap());
    assert_eq!(told.status, 3);
    assert!(told.err.starts_with("ravneket: standard output can't be written: "), "{}", told.err);
}
