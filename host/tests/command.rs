//! Runs the command as a mesher does.

mod common;

use common::json::Json;
use common::{ravneket, Folder, Said, CLEAN, FAULTY};
use std::io::Write;
use std::process::Stdio;

const CLEAN_LINE: &str = "clean: 3 nodes, 3 faces, 1 cell, 2D, zones: 1 nodes, 2 active cells, 3 wall faces\n";

#[test]
fn text_of_a_clean_mesh() {
    let said = Folder::new("clean").with("a.msh", CLEAN).run(&["audit", "a.msh"]);
    assert_eq!(said, Said { status: 0, out: format!("a.msh: {CLEAN_LINE}"), err: String::new() });
}

#[test]
fn text_of_a_mesh_with_faults() {
    let said = Folder::new("faults").with("b.msh", FAULTY).run(&["audit", "b.msh"]);
    let due = "\
b.msh:3:35: fault 2 (node outside the mesh): face 3: the node at position 1 is 4, but the mesh has 3 nodes; zone 3, wall
     3 | (13 (3 1 3 3 2)(1 2 0 1 2 3 0 1 3 4 0 2))
       |                                   ^
  mend: count nodes from 1: if 0 stands here, add 1 to every node of every face; if the node is too high, check that it is written in hexadecimal and that the totals are of this mesh
b.msh:3:39: fault 4 (cell beyond the mesh): face 3: the left cell is 2, but the mesh has 1 cell; zone 3, wall
     3 | (13 (3 1 3 3 2)(1 2 0 1 2 3 0 1 3 4 0 2))
       |                                       ^
  mend: number cells from 1 without gaps: cells of a zone that was left out keep their numbers, or cells were counted over several exports
b.msh:2:43: fault 9 (wrong number of faces): cell 1: 2 face sides name it, but element 1, a triangle, has 3 faces; zone 2, active
     2 | (10 (1 1 3 1 2)(0 0 1 0 0 1))(12 (2 1 1 1 1))
       |                                           ^
  note: faces 1, 2 name it
  mend: if kinds 4, 5 or 7 are listed, mend them first; too few: a face zone was not exported, or the element is wrong; too many: a face was written twice, or the cell lies beside hanging nodes and there is nothing to mend
b.msh: 3 faults in 3 nodes, 3 faces, 1 cell, 2D
  by kind:
         1  kind 2, node outside the mesh
         1  kind 4, cell beyond the mesh
         1  kind 9, wrong number of faces
  by zone:
         1  zone 2, active cells 1 to 1
         2  zone 3, wall faces 1 to 3
";
    assert_eq!(said, Said { status: 1, out: due.to_string(), err: String::new() });
}

#[test]
fn text_of_a_refused_file() {
    // A long line, a tab, an escape byte and a byte that is not UTF-8: columns count bytes here.
    let text =
        [&b"(0 \"\x1b[2J\t\xff\")"[..], b"(2 2)".repeat(30).as_slice(), b"(2 nan)", b"(2 2)".repeat(30).as_slice()]
            .concat();
    let said = Folder::new("refused").with("c.msh", text).run(&["audit", "c.msh"]);
    let due = "\
c.msh:1:166: refused 3 (Number): `nan` is not a hexadecimal number of 1 to 8 digits (section 32, byte 165)
     1 | … 2)(2 2)(2 2)(2 2)(2 2)(2 2)(2 nan)(2 2)(2 2)(2 2)(2 2)(2 2)(2 2)(2 2)(2 2)(2 …
       |                                 ^~~
  mend: write whole numbers in hexadecimal without sign, point or 0x, as %x does
";
    assert_eq!(said, Said { status: 2, out: due.to_string(), err: String::new() });
}

#[test]
fn bytes_of_the_file_can_not_command_the_terminal() {
    let said = Folder::new("bytes").with("d.msh", b"(0 \"\x1b[2J\t\xff\xc3\xa9\") \x07x").run(&["audit", "d.msh"]);
    assert!(said.out.contains("     1 | (0 \"·[2J \u{fffd}é\") ·x\n       |               ^~\n"), "{}", said.out);
    assert!(!said.out.contains('\x1b') && !said.out.contains('\x07'));
}

#[test]
fn json_of_every_status() {
    let folder = Folder::new("json").with("a \"b\".msh", CLEAN).with("b.msh", FAULTY).with("c.msh", "(2 4)");
    let said = folder.run(&["audit", "--format=json", "a \"b\".msh", "b.msh", "c.msh", "d.msh"]);
    assert_eq!((said.status, said.err.as_str()), (3, "ravneket: d.msh: is not there\n"));
    let objects: Vec<Json> = said.out.lines().map(Json::parse).collect();
    let [clean, faulty, refused, error] = &objects[..] else { panic!("{objects:?}") };
    assert_eq!((clean["file"].text(), clean["status"].text()), ("a \"b\".msh", "clean"));
    assert_eq!((clean["total"].number(), clean["faults"].list().len(), clean["zones"].list().len()), (0, 0, 3));
    assert_eq!((faulty["status"].text(), faulty["total"].number(), faulty["dimension"].number()), ("faults", 3, 2));
    let totals = ["nodes", "faces", "cells"].map(|name| faulty["totals"][name].number());
    assert_eq!(totals, [3, 3, 1]);
    let zone = &faulty["zones"].list()[2];
    assert_eq!(
        ["section", "zone", "first", "last", "type", "element", "faults"].map(|name| zone[name].number()),
        [13, 3, 1, 3, 3, 2, 2]
    );
    assert_eq!((zone["kind"].text(), zone["type_name"].text()), ("faces", "wall"));
    let [node, cell, count] = faulty["faults"].list() else { panic!() };
    assert_eq!(
        ["kind", "face", "position", "zone", "line", "column", "offset"].map(|name| node[name].number()),
        [2, 3, 1, 3, 3, 35, 130]
    );
    assert_eq!(["kind", "face", "side", "line", "column"].map(|name| cell[name].number()), [4, 3, 1, 3, 39]);
    assert_eq!(["kind", "cell", "count", "line", "column"].map(|name| count[name].number()), [9, 1, 2, 2, 43]);
    assert_eq!(
        count["message"].text(),
        "cell 1: 2 face sides name it, but element 1, a triangle, has 3 faces; zone 2, active"
    );
    let kinds: Vec<i64> =
        faulty["kinds"].list().iter().map(|kind| 10 * kind["kind"].number() + kind["faults"].number()).collect();
    assert_eq!(kinds, [21, 41, 91]);
    let refusal = &refused["refusal"];
    assert_eq!(["number", "section", "offset", "line", "column"].map(|name| refusal[name].number()), [9, 1, 3, 1, 4]);
    assert_eq!((refusal["name"].text(), refusal["message"].text()), ("Type", "`4` is not a listed dimension (2 or 3)"));
    assert!(refused.get("totals").is_none() && refused.get("faults").is_none());
    assert_eq!((error["status"].text(), error["message"].text()), ("error", "is not there"));
}

#[test]
fn the_order_is_that_of_the_arguments_whatever_the_jobs() {
    let mut folder = Folder::new("order");
    let mut arguments = vec!["audit".to_string()];
    for at in 0..60 {
        let text = match at % 4 {
            0 => CLEAN.to_string(),
            1 => FAULTY.to_string(),
            2 => format!("(0 {})", "a ".repeat(3_000)),
            _ => "x".to_string(),
        };
        folder = folder.with(&format!("{at}.msh"), text);
        arguments.push(format!("{at}.msh"));
    }
    arguments.insert(20, "missing.msh".to_string());
    for format in ["text", "json", "paper"] {
        let run = |jobs: &str| {
            let mut all: Vec<&str> = arguments.iter().map(String::as_str).collect();
            all.extend(["--format", format, "--jobs", jobs]);
            folder.run(&all)
        };
        let one = run("1");
        assert_eq!((one.status, one.err.as_str()), (3, "ravneket: missing.msh: is not there\n"));
        assert_eq!(run("7"), one);
        assert_eq!(run("500"), one);
        let places: Vec<usize> = (0..60).map(|at| one.out.find(&format!("{at}.msh")).unwrap()).collect();
        assert!(places[10..].is_sorted() && one.out.lines().count() >= 60);
    }
}

#[test]
fn standard_input_stands_among_files() {
    let folder = Folder::new("stdin").with("a.msh", CLEAN);
    let mut child = ravneket();
    child
        .current_dir(&folder.0)
        .args(["audit", "a.msh", "-", "a.msh"])
        .stdin(Stdio::piped())
        .stdout(Stdio::piped())
        .stderr(Stdio::piped());
    let mut child = child.spawn().unwrap();
    child.stdin.take().unwrap().write_all(b"(2 4)").unwrap();
    let said = Said::of(child.wait_with_output().unwrap());
    let lines: Vec<&str> = said.out.lines().collect();
    assert!(lines[1].starts_with("<stdin>:1:4: refused 9 (Type): "), "{}", said.out);
    assert_eq!((lines[0], lines[5]), (lines[5], format!("a.msh: {CLEAN_LINE}").trim_end()));
    assert_eq!((said.status, lines[6]), (2, "3 files: 2 clean, 0 with faults, 1 refused, 0 not read"));
}

#[test]
fn what_can_not_be_read_is_told_and_the_rest_is_audited() {
    let folder = Folder::new("unread").with("a.msh", CLEAN);
    std::fs::create_dir(folder.0.join("sub")).unwrap();
    // The first has no bytes that can be read, the second more than the size it has.
    let files = ["sub", "none.msh", "/proc/self/mem", "/proc/self/status", "a.msh/b", "a.msh"];
    let said = folder.run(&[&["audit"], &files[..]].concat());
    let told: Vec<&str> = said.err.lines().collect();
    assert_eq!(told[0], "ravneket: sub: is a folder");
    assert_eq!(told[1], "ravneket: none.msh: is not there");
    assert!(told[2].starts_with("ravneket: /proc/self/mem: can't be read: "), "{}", told[2]);
    assert_eq!(
        told[3],
        "ravneket: /proc/self/status: changed while it was read; run it again when it is written to its end"
    );
    assert!(told[4].starts_with("ravneket: a.msh/b: can't be read: "), "{}", told[4]);
    assert_eq!(told.len(), 5);
    assert_eq!(
        (said.status, said.out),
        (3, format!("a.msh: {CLEAN_LINE}6 files: 1 clean, 0 with faults, 0 refused, 5 not read\n"))
    );
}

#[test]
fn a_file_without_permission() {
    use std::os::unix::fs::PermissionsExt;
    let folder = Folder::new("permission").with("a.msh", CLEAN);
    let path = folder.0.join("a.msh");
    std::fs::set_permissions(&path, std::fs::Permissions::from_mode(0o000)).unwrap();
    let said = folder.run(&["audit", "a.msh"]);
    // Nothing is barred to root.
    match std::fs::File::open(&path) {
        Ok(_) => assert_eq!((said.status, said.err.as_str()), (0, "")),
        Err(_) => {
            assert_eq!((said.status, said.err.as_str()), (3, "ravneket: a.msh: can't be read: permission denied\n"))
        }
    }
}

#[test]
fn an_empty_file_is_refused_and_told() {
    let folder = Folder::new("empty").with("e.msh", "").with("a.msh", CLEAN);
    let said = folder.run(&["audit", "e.msh", "a.msh"]);
    assert_eq!((said.status, said.err.as_str()), (2, "ravneket: e.msh: is empty\n"));
    assert!(said.out.starts_with("e.msh:1:1: refused 13 (Missing): the file is empty (section 0, byte 0)\n"));
    let said = folder.run(&["audit", "--format", "paper", "e.msh"]);
    assert_eq!((said.status, said.out.as_str()), (2, "refused 13 0 0\n"));
}

#[test]
fn the_status_is_the_highest() {
    let folder = Folder::new("status").with("0", CLEAN).with("1", FAULTY).with("2", "x");
    let cases: [(&[&str], i32); 7] = [
        (&["0"], 0),
        (&["1"], 1),
        (&["2"], 2),
        (&["3"], 3),
        (&["1", "0"], 1),
        (&["2", "1", "0"], 2),
        (&["3", "2", "0"], 3),
    ];
    for (files, status) in cases {
        for format in ["text", "json", "paper"] {
            let said = folder.run(&[&["audit", "--format", format, "--"], files].concat());
            assert_eq!(said.status, status, "{files:?} {format}");
        }
    }
}

#[test]
fn wrong_calls_are_told_with_status_3() {
    let folder = Folder::new("calls").with("a.msh", CLEAN);
    let calls: [&[&str]; 6] = [
        &[],
        &["a.msh"],
        &["audit"],
        &["audit", "--format", "xml", "a.msh"],
        &["audit", "--wrong", "a.msh"],
        &["audit", "-", "-"],
    ];
    for call in calls {
        let said = folder.run(call);
        assert_eq!((said.status, said.out.as_str(), said.err.lines().count()), (3, "", 1), "{call:?}");
        assert!(said.err.starts_with("ravneket: ") && said.err.ends_with("`ravneket --help` says how\n"));
    }
}

#[test]
fn help_and_version() {
    let folder = Folder::new("help");
    let help = folder.run(&["--help"]);
    assert_eq!((help.status, help.err.as_str()), (0, ""));
    assert!(help.out.starts_with("usage: ravneket audit") && help.out.lines().all(|line| line.chars().count() <= 80));
    assert_eq!(folder.run(&["audit", "--help"]), help);
    assert_eq!(folder.run(&["--version"]).out, format!("ravneket {}\n", env!("CARGO_PKG_VERSION")));
}

#[test]
fn limit_and_quiet() {
    let many = "(2 2)(10 (0 1 1 0))(13 (0 1 64 0))(10 (1 1 1 1)(0 0))(13 (3 1 64 3 2)(\n".to_string()
        + &"0 0 0 0\n".repeat(100)
        + "))";
    let folder = Folder::new("limit").with("m.msh", many).with("a.msh", CLEAN);
    let shown = |arguments: &[&str]| {
        let said = folder.run(&[&["audit", "m.msh", "a.msh"], arguments].concat());
        assert!(said.out.contains("m.msh: 300 faults in 1 node, 100 faces, 0 cells, 2D\n"));
        assert!(said.out.contains("       200  kind 2, node outside the mesh\n"));
        assert_eq!(said.out.contains("a.msh: clean"), !arguments.contains(&"--quiet"));
        (
            said.out.matches(": fault ").count(),
            said.out.matches("  mend: ").count(),
            said.out.contains("280 more faults not shown"),
        )
    };
    assert_eq!(shown(&[]), (20, 2, true));
    assert_eq!(shown(&["--limit", "1", "--quiet"]), (1, 1, false));
    assert_eq!(shown(&["--limit=0"]), (300, 2, false));
    let listed = |arguments: &[&str]| {
        let said = folder.run(&[&["audit", "--format=json", "m.msh"], arguments].concat());
        let object = Json::parse(said.out.trim_end());
        (object["total"].number(), object["faults"].list().len())
    };
    assert_eq!(listed(&[]), (300, 300));
    assert_eq!(listed(&["--limit", "7"]), (300, 7));
}
