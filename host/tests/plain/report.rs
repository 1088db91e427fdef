//! The report program's output.

use std::io::Write;

use super::{audit, read, CELL_WORDS, FACE_WORDS, NODE_WORDS, ZONE_WORDS};

const INPUT: usize = 65_536;
const ROWS: usize = 1_024;
const ZONES: usize = 64;
const LIST: usize = 4_096;

/// As `ravneket::raw::report`.
pub fn report(text: &[u8], out: &mut [u8]) -> usize {
    let lines = lines(text);
    let length = lines.len().min(out.len());
    out[..length].copy_from_slice(&lines[..length]);
    length
}

fn lines(text: &[u8]) -> Vec<u8> {
    if text.len() > INPUT {
        return format!("input over {INPUT}\n").into_bytes();
    }
    let (mut mantissas, mut exponents) = ([0; ROWS * NODE_WORDS], [0; ROWS * NODE_WORDS]);
    let (mut faces, mut cells) = ([0; ROWS * FACE_WORDS], [0; ROWS * CELL_WORDS]);
    let (mut zones, mut said) = ([0; ZONES * ZONE_WORDS], [0; 7]);
    let number = read(text, &mut mantissas, &mut exponents, &mut faces, &mut cells, &mut zones, &mut said);
    if number != 0 {
        return format!("refused {number} {} {}\n", said[0], said[1]).into_bytes();
    }
    let [_, _, dimension, n, f, c, _] = said;
    let (mut counts, mut list, mut told) = ([0; ROWS], [0; LIST], [0; 2]);
    let totals = [dimension, n, f, c].map(|number| number as u32);
    let [dimension, n32, f32, c32] = totals;
    audit(dimension, n32, f32, c32, &faces, &cells, &mut counts, &mut list, &mut told);
    if told[0] == 0 {
        return format!("clean {n} {f} {c}\n").into_bytes();
    }
    let mut lines = format!("faults {}\n", told[0]).into_bytes();
    records(&list[..told[1] as usize], &mut lines);
    lines
}

/// A line for each record: its kind, and the numbers of its body.
fn records(mut list: &[u8], lines: &mut Vec<u8>) {
    while let [kind, high, low, rest @ ..] = list {
        let index = u16::from_be_bytes([*high, *low]);
        let extra = match kind {
            2..=4 => 1,
            9 => 3,
            _ => 0,
        };
        write!(lines, "{kind} {index}").expect("a vector takes all");
        if extra > 0 {
            let number = rest[..extra].iter().fold(0, |number, &byte| number << 8 | u32::from(byte));
            write!(lines, " {number}").expect("a vector takes all");
        }
        lines.push(b'\n');
        list = &rest[extra..];
    }
}
