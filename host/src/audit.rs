//! The audit of tables.

use crate::fault::Fault;
use crate::mesh::refusal;
use crate::raw;
use crate::refusal::Refusal;

/// The list's first length. Most meshes have few faults; for more the audit is asked again.
const FIRST_GUESS: usize = 4096;
/// The longest record.
const MOST_BYTES: u64 = 6;

/// What the audit found.
#[derive(Clone, Debug, PartialEq, Eq)]
pub struct Audit {
    /// How many faults there are; all of them are in `faults`.
    pub total: u64,
    /// The faults: faces rising, then cells rising.
    pub faults: Vec<Fault>,
    /// For each cell how many face sides name it.
    pub counts: Vec<u32>,
}

/// Tables that the audit takes. They may hold any words and any totals.
#[derive(Clone, Copy, Debug, PartialEq, Eq)]
pub struct Tables<'a> {
    /// 2 or 3; any other is refused with 15.
    pub dimension: u32,
    /// How many nodes there are.
    pub nodes: u32,
    /// How many faces there are; more than the whole rows lent is refused with 16.
    pub faces: u32,
    /// How many cells there are; more than the whole rows lent is refused with 16.
    pub cells: u32,
    /// Face rows of eight words: node count, four nodes, right cell, left cell, zone type.
    pub face_rows: &'a [u32],
    /// Cell rows of two words: element, zone type.
    pub cell_rows: &'a [u32],
}

/// Audits any tables and lists all their faults. The counts of cells 1 to `cells` end as the number of face sides naming each, later ones stay. Refusals 15, 16 and 17 (fewer counts than cells) change nothing.
pub fn audit_tables(tables: &Tables, counts: &mut [u32]) -> Result<Vec<Fault>, Refusal> {
    let (total, faults) = listed(tables, counts, FIRST_GUESS)?;
    if faults.len() as u64 == total {
        return Ok(faults);
    }
    let room = usize::try_from(total * MOST_BYTES).expect("a list of all faults fits the memory");
    let (total, faults) = listed(tables, counts, room)?;
    assert_eq!(faults.len() as u64, total, "the proved audit left out records that had room");
    Ok(faults)
}

fn listed(tables: &Tables, counts: &mut [u32], room: usize) -> Result<(u64, Vec<Fault>), Refusal> {
    let mut list = vec![0; room];
    let mut answer = [0; raw::AUDIT_WORDS];
    let number = raw::audit(
        tables.dimension,
        tables.nodes,
        tables.faces,
        tables.cells,
        tables.face_rows,
        tables.cell_rows,
        counts,
        &mut list,
        &mut answer,
    );
    if number != 0 {
        return Err(refusal(number, 0, 0));
    }
    let written = usize::try_from(answer[raw::BYTES]).expect("bytes written fit the list");
    Ok((answer[raw::TOTAL], Fault::decode_list(&list[..written])))
}
