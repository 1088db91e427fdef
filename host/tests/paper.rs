//! The format `paper` against the expected outputs of every case file, and the format `json` against `paper`.

mod common;

use common::json::Json;
use common::{ravneket, Folder, Said};
use std::path::PathBuf;

fn cases() -> PathBuf {
    PathBuf::from(env!("CARGO_MANIFEST_DIR")).join("../crates/meshcases")
}

/// The case files and what the report program prints of each: in `stdout` a file's name stands before its report.
fn due() -> Vec<(String, String)> {
    let names = std::fs::read_to_string(cases().join("args")).unwrap();
    let names: Vec<&str> = names.lines().collect();
    let mut due: Vec<(String, String)> = Vec::new();
    for line in std::fs::read_to_string(cases().join("stdout")).unwrap().lines() {
        match due.last_mut() {
            _ if names.contains(&line) => due.push((line.to_string(), String::new())),
            Some(last) => last.1 += &format!("{line}\n"),
            None => panic!("{line} stands before the first name"),
        }
    }
    let mut listed: Vec<&str> = due.iter().map(|case| case.0.as_str()).collect();
    assert_eq!(listed, names);
    listed.sort_unstable();
    let mut files: Vec<_> =
        std::fs::read_dir(cases().join("data")).unwrap().map(|file| file.unwrap().file_name()).collect();
    files.sort();
    assert_eq!(listed, files);
    due
}

fn run(arguments: &[&str], files: &[(String, String)]) -> Said {
    let names = files.iter().map(|case| &case.0);
    let output = ravneket().current_dir(cases().join("data")).args(arguments).args(names).output();
    Said::of(output.unwrap())
}

fn status(report: &str) -> i32 {
    match report.split([' ', '\n']).next().unwrap() {
        "clean" => 0,
        "faults" => 1,
        "refused" | "input" => 2,
        other => panic!("{other}"),
    }
}

#[test]
fn all_case_files_at_once() {
    let due = due();
    let all: String = due.iter().map(|(name, report)| format!("== {name}\n{report}")).collect();
    let said = run(&["audit", "--format", "paper"], &due);
    assert_eq!((said.status, said.err.as_str()), (2, "ravneket: line-empty-file.msh: is empty\n"));
    assert_eq!(said.out, all);
}

#[test]
fn each_case_file_alone() {
    for case in due() {
        let said = run(&["audit", "--format=paper"], std::slice::from_ref(&case));
        assert_eq!((said.out.as_str(), said.status), (case.1.as_str(), status(&case.1)), "{}", case.0);
    }
}

#[test]
fn json_says_the_same() {
    let due = due();
    let said = run(&["audit", "--format", "json"], &due);
    let mut compared = [0; 3];
    for ((name, report), line) in due.iter().zip(said.out.lines()) {
        let object = Json::parse(line);
        assert_eq!(object["file"].text(), name);
        let mut words = report.lines().next().unwrap().split(' ');
        let first = words.next().unwrap();
        let numbers: Vec<i64> = words.map(|word| word.parse().unwrap()).collect();
        // The report program has room for 1,024 rows, the command for all.
        if first == "refused" && numbers[0] == 7 {
            continue;
        }
        compared[usize::try_from(status(report)).unwrap()] += 1;
        match first {
            "clean" => {
                let totals = ["nodes", "faces", "cells"].map(|name| object["totals"][name].number());
                assert_eq!((object["status"].text(), numbers), ("clean", totals.to_vec()));
            }
            "faults" => {
                assert_eq!((object["status"].text(), numbers), ("faults", vec![object["total"].number()]));
                let lines: Vec<String> = object["faults"].list().iter().map(record).collect();
                let listed: Vec<&str> = report.lines().skip(1).collect();
                assert_eq!(lines[..listed.len()], listed);
            }
            _ => {
                let place = ["number", "section", "offset"].map(|name| object["refusal"][name].number());
                assert_eq!((object["status"].text(), numbers), ("refused", place.to_vec()));
            }
        }
    }
    assert!(compared.iter().all(|&number| number > 10), "{compared:?}");
}

/// A fault as the report program prints it.
fn record(fault: &Json) -> String {
    let names = ["kind", "face", "cell", "position", "side", "count"];
    let numbers: Vec<String> =
        names.iter().filter_map(|name| fault.get(name)).map(|number| number.number().to_string()).collect();
    numbers.join(" ")
}

#[test]
fn the_buffer_of_the_report_program_has_65536_bytes() {
    let empty = "(2 2)(10 (0 1 0 0))(13 (0 1 0 0))";
    let padded = |bytes: usize| format!("{empty}{}", " ".repeat(bytes - empty.len()));
    let folder = Folder::new("buffer").with("fits", padded(65536)).with("over", padded(65537));
    let said = folder.run(&["audit", "--format", "paper", "fits"]);
    assert_eq!((said.status, said.out.as_str()), (0, "clean 0 0 0\n"));
    let said = folder.run(&["audit", "--format", "paper", "over"]);
    assert_eq!((said.status, said.out.as_str()), (2, "input over 65536\n"));
    assert_eq!(folder.run(&["audit", "over"]).status, 0);
}
