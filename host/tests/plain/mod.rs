//! A second reader, audit, report and writer, written by hand from the requirements paper and from nothing else: the other side of the differential test, and what the benchmark measures against.
//!
//! The reader makes two passes over the text at most, copies neither text nor tokens, and writes nothing unless the whole file is good. The writer makes two passes over the tables: one judges and measures, the other writes.

#![allow(dead_code, unused_imports)]

mod audit;
mod coordinate;
mod fill;
mod header;
mod report;
mod scan;
mod sections;
mod survey;
mod write;

pub use audit::audit;
pub use report::report;
pub use write::write;

use scan::{Bad, TOO_LONG};
use survey::Room;

/// Most bytes of a file.
const FILE_BYTES: usize = 8_388_608;
/// Most nodes, faces, cells, and the highest zone id.
const MOST: u32 = 65_535;
/// Most regular sections of a file.
const MOST_ZONES: usize = 64;

const NODE_WORDS: usize = 3;
const FACE_WORDS: usize = 8;
const CELL_WORDS: usize = 2;
const ZONE_WORDS: usize = 6;

/// As `ravneket::raw::read`.
pub fn read(
    text: &[u8],
    mantissas: &mut [i64],
    exponents: &mut [i32],
    faces: &mut [u32],
    cells: &mut [u32],
    zones: &mut [u32],
    answer: &mut [u64],
) -> u32 {
    if text.len() > FILE_BYTES {
        return refuse(0, Bad { number: TOO_LONG, offset: 0 }, answer);
    }
    let nodes = mantissas.len().min(exponents.len()) / NODE_WORDS;
    let room = Room {
        rows: [nodes, faces.len() / FACE_WORDS, cells.len() / CELL_WORDS],
        zones: MOST_ZONES.min(zones.len() / ZONE_WORDS),
    };
    match survey::survey(text, &room) {
        Err((section, bad)) => refuse(section, bad, answer),
        Ok(found) => {
            fill::fill(text, &found, mantissas, exponents, faces, cells, zones);
            let [nodes, faces, cells] = found.totals.map(u64::from);
            let parts = found.parts().len() as u64;
            put(answer, &[0, 0, found.dimension.into(), nodes, faces, cells, parts]);
            0
        }
    }
}

fn refuse(section: u64, bad: Bad, answer: &mut [u64]) -> u32 {
    put(answer, &[section, bad.offset as u64, 0, 0, 0, 0, 0]);
    bad.number
}

/// Writes as many of `words` as `answer` has room for.
fn put(answer: &mut [u64], words: &[u64]) {
    for (place, word) in answer.iter_mut().zip(words) {
        *place = *word;
    }
}
