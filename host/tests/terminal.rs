//! The command at a terminal: progress while a batch takes long, and colours.

mod common;

use common::terminal::Terminal;
use common::{ravneket, Folder, CLEAN, FAULTY};
use std::io::Write;
use std::process::{Child, Stdio};
use std::time::Duration;

/// Longer than the command waits before it shows its progress.
const LONG: Duration = Duration::from_millis(1500);

/// A batch of two files that takes as long as its standard input is open.
fn batch(folder: &Folder, options: &[&str], err: Stdio) -> Child {
    let mut command = ravneket();
    command.current_dir(&folder.0).args(["audit", "a.msh", "-"]).args(options);
    command.stdin(Stdio::piped()).stdout(Stdio::piped()).stderr(err).spawn().unwrap()
}

/// Gives the batch its last file, and answers its status and what it wrote.
fn finish(mut child: Child) -> (Option<i32>, String, String) {
    child.stdin.take().unwrap().write_all(CLEAN.as_bytes()).unwrap();
    let output = child.wait_with_output().unwrap();
    (output.status.code(), String::from_utf8(output.stdout).unwrap(), String::from_utf8(output.stderr).unwrap())
}

#[test]
fn progress_is_shown_and_wiped_away() {
    let folder = Folder::new("progress").with("a.msh", CLEAN);
    let (mut terminal, err) = Terminal::new();
    let child = batch(&folder, &[], err);
    terminal.wait_for("\r1 of 2 files\x1b[K");
    let (status, out, _) = finish(child);
    assert_eq!((status, out.lines().count()), (Some(0), 3), "{out}");
    assert!(out.ends_with("2 files: 2 clean, 0 with faults, 0 refused, 0 not read\n"), "{out}");
    let seen = terminal.to_the_end();
    assert!(seen.ends_with("\r1 of 2 files\x1b[K\r\x1b[K"), "it is wiped away at the end: {seen:?}");
    // A slow machine may show it before the first file is done, too.
    let rest = ["\r0 of 2 files\x1b[K", "\r1 of 2 files\x1b[K", "\r\x1b[K"]
        .iter()
        .fold(seen, |seen, part| seen.replace(part, ""));
    assert_eq!(rest, "", "nothing else is written");
}

#[test]
fn no_progress_where_it_is_not_wanted() {
    let folder = Folder::new("quiet").with("a.msh", CLEAN);
    let (terminal, err) = Terminal::new();
    let quiet = batch(&folder, &["--quiet"], err);
    let piped = batch(&folder, &[], Stdio::piped());
    std::thread::sleep(LONG);
    let (status, out, _) = finish(quiet);
    assert_eq!((status, out.as_str()), (Some(0), "2 files: 2 clean, 0 with faults, 0 refused, 0 not read\n"));
    assert_eq!(terminal.to_the_end(), "", "--quiet shows no progress");
    let (status, _, err) = finish(piped);
    assert_eq!((status, err.as_str()), (Some(0), ""), "what is no terminal gets no progress");
}

/// What the command writes to a terminal, with some variables set.
fn at_terminal(folder: &Folder, variables: &[(&str, &str)]) -> String {
    let (terminal, out) = Terminal::new();
    let mut command = ravneket();
    command.env_remove("NO_COLOR").env("TERM", "xterm").envs(variables.iter().copied());
    let mut child = command.current_dir(&folder.0).args(["audit", "b.msh"]).stdout(out).spawn().unwrap();
    drop(command); // it holds the terminal open
    let seen = terminal.to_the_end();
    assert_eq!(child.wait().unwrap().code(), Some(1));
    seen
}

/// The text without what stands between an escape and its `m`.
fn without_colours(text: &str) -> String {
    let mut parts = text.split("\x1b[");
    let first = parts.next().unwrap_or_default().to_string();
    parts.fold(first, |bare, part| bare + part.split_once('m').expect("a colour ends in `m`").1)
}

#[test]
fn colours_at_a_terminal_only() {
    let folder = Folder::new("colours").with("b.msh", FAULTY);
    let plain = folder.run(&["audit", "b.msh"]).out.replace('\n', "\r\n");
    assert!(!plain.contains('\x1b'));
    let coloured = at_terminal(&folder, &[]);
    assert!(coloured.contains("\x1b[1;31m") && coloured.contains("\x1b[0m"), "{coloured:?}");
    assert_eq!(without_colours(&coloured), plain, "colours change no text");
    assert_eq!(at_terminal(&folder, &[("NO_COLOR", "1")]), plain);
    assert_eq!(at_terminal(&folder, &[("TERM", "dumb")]), plain);
}
