//! Files at the limits, and outputs that can't be written.

mod common;

use common::{ravneket, Folder, Said, FAULTY};
use std::process::Stdio;

const MOST: usize = 8_388_608;

#[test]
fn a_file_one_byte_too_long() {
    let folder = Folder::new("long").with("long.msh", vec![b' '; MOST + 1]);
    let said = folder.run(&["audit", "long.msh"]);
    let due = "long.msh:1:1: refused 1 (TooLong): the file is over 8388608 bytes; it was not read
  mend: write fewer digits to a coordinate, leave out comments and sections that nobody needs, or split the mesh
";
    assert_eq!(said, Said { status: 2, out: due.to_string(), err: String::new() });
    let said = folder.run(&["audit", "--format", "paper", "long.msh"]);
    assert_eq!((said.status, said.out.as_str()), (2, "input over 65536\n"));
}

#[test]
fn a_file_of_the_most_bytes_is_read() {
    let text = "(2 2)(10 (0 1 0 0))(13 (0 1 0 0))";
    let said =
        Folder::new("most").with("m.msh", format!("{text}{}", " ".repeat(MOST - text.len()))).run(&["audit", "m.msh"]);
    let due = "m.msh: clean: 0 nodes, 0 faces, 0 cells, 2D, zones: none\n";
    assert_eq!(said, Said { status: 0, out: due.to_string(), err: String::new() });
}

#[test]
fn gigabytes_are_not_read() {
    let folder = Folder::new("giga");
    // A file with a hole: it takes no room on the disk.
    std::fs::File::create(folder.0.join("g.msh")).unwrap().set_len(1 << 36).unwrap();
    let said = folder.run(&["audit", "--format", "json", "g.msh"]);
    assert_eq!((said.status, said.err.as_str()), (2, ""));
    assert!(said.out.contains("\"number\":1,\"name\":\"TooLong\",\"section\":0,\"offset\":0,\"line\":1,\"column\":1,"));
}

/// 65,535 nodes, faces and dead cells; the left cell of the last face is to choose.
fn largest(last: &str) -> String {
    let mut text = "(2 2)(10 (0 1 ffff 0))(12 (0 1 ffff 0))(13 (0 1 ffff 0))\n(10 (1 1 ffff 1)(\n".to_string();
    text += &"0 -1.25e-3\n".repeat(65_535);
    text += "))(12 (2 1 ffff 0 1))(13 (ffff 1 ffff 3 2)(\n";
    for face in 1..65_535 {
        text += &format!("{face:x} {:x} 0 {face:x}\n", face + 1);
    }
    text + "ffff 1 0 " + last + "\n))\n"
}

#[test]
fn a_mesh_of_the_most_rows() {
    let folder = Folder::new("rows").with("ok.msh", largest("ffff")).with("bad.msh", largest("10000"));
    let said = folder.run(&["audit", "ok.msh"]);
    let due = "ok.msh: clean: 65535 nodes, 65535 faces, 65535 cells, 2D, zones: 1 nodes, 2 dead cells, 65535 (hex ffff) wall faces\n";
    assert_eq!(said, Said { status: 0, out: due.to_string(), err: String::new() });
    let said = folder.run(&["audit", "bad.msh"]);
    let due = "\
bad.msh:131073:10: fault 4 (cell beyond the mesh): face 65535 (hex ffff): the left cell is 65536 (hex 10000), but the mesh has 65535 cells; zone 65535 (hex ffff), wall
131073 | ffff 1 0 10000
       |          ^~~~~
";
    assert_eq!((said.status, said.err.as_str()), (1, ""));
    assert!(said.out.starts_with(due), "{}", said.out);
    assert!(said.out.ends_with("         1  zone 65535 (hex ffff), wall faces 1 to 65535 (hex 1 to ffff)\n"));
    let one_more = largest("ffff").replace("(13 (0 1 ffff 0))", "(13 (0 1 10000 0))");
    let said = folder.with("more.msh", one_more).run(&["audit", "more.msh"]);
    assert!(said.out.contains("refused 6 (Range): 65536 (hex 10000) faces are declared"), "{}", said.out);
}

/// Nobody reads: the command ends at once and says nothing.
#[test]
fn a_closed_pipe_ends_quietly() {
    let folder = Folder::new("pipe").with("b.msh", FAULTY);
    let mut command = ravneket();
    command.current_dir(&folder.0).arg("audit").args(vec!["b.msh"; 200]);
    let mut child = command.stdout(Stdio::piped()).stderr(Stdio::piped()).spawn().unwrap();
    drop(child.stdout.take());
    let said = Said::of(child.wait_with_output().unwrap());
    assert_eq!(said, Said { status: 1, out: String::new(), err: String::new() });
}

#[test]
fn a_full_disk_is_told() {
    let folder = Folder::new("full").with("b.msh", FAULTY);
    for arguments in [&["audit", "b.msh"][..], &["--help"]] {
        let full = std::fs::File::options().write(true).open("/dev/full").unwrap();
        let output = ravneket().current_dir(&folder.0).args(arguments).stdout(full).output();
        let said = Said::of(output.unwrap());
        assert_eq!(said.status, 3);
        assert!(said.err.starts_with("ravneket: standard output can't be written: "), "{}", said.err);
    }
}
