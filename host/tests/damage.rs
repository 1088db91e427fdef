//! Case files with damage: whatever the reader and the audit say, places and texts can be found for it, and the rows that are marked hold the words of the tables.

mod shares;

use ravneket::locate::Rows;
use ravneket::token::hexadecimal;
use ravneket::{Fault, Lines, Mesh, Refusal};
use shares::{shared, summed};
use std::ops::Range;
use std::path::{Path, PathBuf};

/// A small generator of numbers, the same in every run.
struct Numbers(u64);

impl Numbers {
    fn below(&mut self, most: usize) -> usize {
        self.0 ^= self.0 << 13;
        self.0 ^= self.0 >> 7;
        self.0 ^= self.0 << 17;
        (self.0 >> 16) as usize % most
    }
}

fn damaged(text: &[u8], numbers: &mut Numbers) -> Vec<u8> {
    let mut text = text.to_vec();
    for _ in 0..=numbers.below(3) {
        if text.is_empty() {
            break;
        }
        let at = numbers.below(text.len());
        match numbers.below(6) {
            0 => drop(text.remove(at)),
            1 => text.insert(at, b" ()\"0f.\xc3\r\n"[numbers.below(10)]),
            2 => text.truncate(at),
            3 => text[at] = numbers.below(256) as u8,
            // Digits for digits: most of these files are still read, and have faults.
            _ => {
                let digits: Vec<usize> = (0..text.len()).filter(|&at| text[at].is_ascii_hexdigit()).collect();
                if !digits.is_empty() {
                    text[digits[numbers.below(digits.len())]] = b"0123456789af"[numbers.below(12)];
                }
            }
        }
    }
    text
}

fn check_mark(text: &[u8], lines: &Lines, words: Range<usize>) {
    let snippet = lines.snippet(words.clone());
    assert!(words.end <= text.len() && snippet.place == lines.place(words.start));
    let (line, marks) = (snippet.line.chars().count(), snippet.marks.chars().count());
    assert!(line <= 80 && (1..=line.max(1) + 1).contains(&marks), "{snippet:?}");
    assert!(snippet.line.chars().chain(snippet.marks.chars()).all(|shown| !shown.is_control()));
}

fn check_refusal(text: &[u8], refusal: &Refusal) {
    let lines = Lines::new(text);
    check_mark(text, &lines, refusal.word(text));
    assert_eq!(refusal.word(text).start as u64, refusal.offset, "the offset is that of a token");
    assert_eq!(lines.place(refusal.offset as usize), refusal.place(text));
    let said = [refusal.explain(text), refusal.advice(text).to_string()];
    assert!(said.iter().all(|said| !said.is_empty() && !said.contains(char::is_control)), "{said:?}");
}

fn check_fault(text: &[u8], mesh: &Mesh, rows: &Rows, lines: &Lines, fault: &Fault) {
    let words = rows.words(fault, mesh).expect("every fault of a mesh that was read has its words");
    check_mark(text, lines, words.clone());
    let value = |words: &Range<usize>| hexadecimal(&text[words.clone()]).expect("a number");
    if let Some(cell) = fault.cell() {
        assert_eq!(value(&words), mesh.cell(cell).unwrap().element);
    }
    if let Some(index) = fault.face() {
        let (row, face) = (rows.face(index).unwrap(), mesh.face(index).unwrap());
        assert_eq!(row.nodes.iter().map(value).collect::<Vec<u32>>(), face.nodes);
        assert_eq!((value(&row.right), value(&row.left)), (face.right, face.left));
        assert!(row.whole().start <= words.start && words.end <= row.whole().end);
    }
    let (place, zone) = fault.zone(mesh).expect("every row is in a zone");
    assert_eq!(mesh.zones().nth(place), Some(zone));
    assert!(fault.explain(mesh).contains(&format!("; zone {}", zone.zone)));
}

/// Refusals by number and faults by kind of a file that was damaged in some ways.
fn damage_told(file: &Path, numbers: &mut Numbers) -> ([u64; 18], [u64; 10]) {
    let whole = std::fs::read(file).unwrap();
    let rounds = if whole.len() > 2000 { 1 } else { 15 };
    let (mut refused, mut kinds) = ([0; 18], [0; 10]);
    for _ in 0..rounds {
        let text = damaged(&whole, numbers);
        match Mesh::read(&text) {
            Err(refusal) => {
                refused[usize::from(refusal.kind.number())] += 1;
                check_refusal(&text, &refusal);
            }
            Ok(mesh) => {
                let audit = mesh.audit();
                let (rows, lines) = (Rows::find(&text, &audit.faults), Lines::new(&text));
                for fault in &audit.faults {
                    kinds[usize::from(fault.kind())] += 1;
                    check_fault(&text, &mesh, &rows, &lines, fault);
                }
            }
        }
    }
    (refused, kinds)
}

#[test]
fn damage_is_always_told() {
    let folder = PathBuf::from(env!("CARGO_MANIFEST_DIR")).join("../crates/meshcases/data");
    let mut files: Vec<_> = std::fs::read_dir(folder).unwrap().map(|file| file.unwrap().path()).collect();
    files.sort();
    let told = shared(|share, shares| {
        let own = files.iter().enumerate().skip(share).step_by(shares);
        // Each file has numbers of its own, so that it does not matter who runs it.
        own.map(|(place, file)| damage_told(file, &mut Numbers(0x9e37_79b9_7f4a_7c15 + place as u64)))
            .collect::<Vec<_>>()
    });
    let (refused, kinds): (Vec<_>, Vec<_>) = told.into_iter().flatten().unzip();
    let (refused, kinds) = (summed(refused), summed(kinds));
    // All but those that need a long file, small tables or a call of the audit alone.
    assert!([2, 3, 4, 5, 6, 8, 9, 10, 12, 13, 14].iter().all(|&number| refused[number] > 0), "{refused:?}");
    assert!(kinds[1..].iter().all(|&number| number > 0), "{kinds:?}");
}
