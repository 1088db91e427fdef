//! Good tables for the writer, changed in a word or two.

use super::given::Given;
use super::Random;

/// Sorts of changes. The last two are harmless: they change no more than the text, or nothing at all.
pub const SORTS: usize = 26;
pub const HARMLESS: std::ops::Range<usize> = 24..26;

/// The row that was changed: the id of its kind's sections, and its index.
pub type Row = (u32, u32);

/// Changes tables in one of the sorts; answers the row if that alone was changed. None if there is nothing of the sort.
pub fn spoil(random: &mut Random, given: &mut Given, sort: usize) -> Option<Option<Row>> {
    match sort {
        0 => given.dimension = random.pick(&[0, 1, 4, 5, u32::MAX]),
        1..=3 => total(random, [&mut given.nodes, &mut given.faces, &mut given.cells][sort - 1]),
        4 => shorten(random, given)?,
        5..=10 => record(random, given, sort - 5)?,
        11 => one_more(random, given),
        12 => {
            let start = 6 * random.below((given.zones.len() / 6).max(1));
            given.zones.get(start..start + 6)?;
            given.zones.drain(start..start + 6);
        }
        13..=15 => return face(random, given, sort).map(|index| Some((13, index))),
        16 | 17 => return cell(random, given, sort).map(|index| Some((12, index))),
        18..=22 => return node(random, given, sort).map(|index| Some((10, index))),
        23 => {
            let record = given.zones.get(..6)?.to_vec();
            while given.zones.len() < 65 * 6 {
                given.zones.extend(&record);
            }
        }
        24 => {
            let row = 8 * pick_row(random, given.faces, given.face_rows.len() / 8)?;
            let place = random.pick(&[1, 2, 5, 6]);
            given.face_rows[row + place] = random.word() as u32;
        }
        _ => {
            let behind = 8 * (given.faces as usize);
            *given.face_rows.get_mut(behind)? ^= random.word() as u32;
        }
    }
    Some(None)
}

/// A row within the total and the table, from 0.
fn pick_row(random: &mut Random, total: u32, rows: usize) -> Option<usize> {
    let rows = rows.min(total as usize);
    (rows > 0).then(|| random.below(rows))
}

fn total(random: &mut Random, total: &mut u32) {
    let other = [total.wrapping_add(1), total.wrapping_sub(1), 65_535, 65_536, u32::MAX];
    *total = random.pick(&other);
}

/// Takes words from the end of a table, so that at least one row of the totals is not whole.
fn shorten(random: &mut Random, given: &mut Given) -> Option<()> {
    let missing = random.between(1, 2);
    let rows = [given.nodes, given.nodes, given.faces, given.cells];
    let table = random.below(4);
    let left = (rows[table] as usize * [3, 3, 8, 2][table]).checked_sub(missing)?;
    match table {
        0 => given.mantissas.truncate(left),
        1 => given.exponents.truncate(left),
        2 => given.face_rows.truncate(left),
        _ => given.cell_rows.truncate(left),
    }
    Some(())
}

/// Changes a word of a record.
fn record(random: &mut Random, given: &mut Given, word: usize) -> Option<()> {
    let at = 6 * pick_row(random, u32::MAX, given.zones.len() / 6)? + word;
    let old = given.zones[at];
    let any = random.below(45) as u32 + random.pick(&[0, 0, 1000]);
    given.zones[at] = match word {
        0 => random.pick(&[0, 2, 10, 11, 12, 13, 14, u32::MAX]),
        1 => random.pick(&[0, 65_535, 65_536, u32::MAX]),
        2 | 3 => random.pick(&[0, old.wrapping_add(1), old.wrapping_sub(1), u32::MAX]),
        4 => random.pick(&[any, any, old ^ 1, 1000, u32::MAX]),
        _ => random.pick(&[0, 1, 2, 3, 4, 5, 6, 7, u32::MAX]),
    };
    Some(())
}

/// A record more: zeros, or one that is there already.
fn one_more(random: &mut Random, given: &mut Given) {
    let start = 6 * random.below((given.zones.len() / 6).max(1));
    let again = given.zones.get(start..start + 6).map_or(vec![0; 6], <[u32]>::to_vec);
    let record = if random.once_in(2) { vec![0; 6] } else { again };
    given.zones.truncate(given.zones.len() / 6 * 6);
    given.zones.extend(record);
}

fn face(random: &mut Random, given: &mut Given, sort: usize) -> Option<u32> {
    let at = pick_row(random, given.faces, given.face_rows.len() / 8)?;
    let row = &mut given.face_rows[8 * at..8 * at + 8];
    match sort {
        13 => row[7] ^= random.pick(&[1, 2, 1000, u32::MAX]),
        14 => row[0] = random.pick(&[0, 1, 2, 3, 4, 5, u32::MAX]),
        _ => {
            let used = row[0].min(4) as usize;
            *row[1..5][used..].last_mut()? = random.pick(&[1, u32::MAX]);
        }
    }
    Some(at as u32 + 1)
}

fn cell(random: &mut Random, given: &mut Given, sort: usize) -> Option<u32> {
    let at = pick_row(random, given.cells, given.cell_rows.len() / 2)?;
    match sort {
        16 => given.cell_rows[2 * at] = random.pick(&[0, 1, 2, 3, 4, 5, 6, 7, u32::MAX]),
        _ => given.cell_rows[2 * at + 1] ^= random.pick(&[1, 32, u32::MAX]),
    }
    Some(at as u32 + 1)
}

fn node(random: &mut Random, given: &mut Given, sort: usize) -> Option<u32> {
    let at = pick_row(random, given.nodes, given.mantissas.len().min(given.exponents.len()) / 3)?;
    let flat = given.dimension == 2;
    let axis = if sort == 18 { 2 } else { random.below(if flat { 2 } else { 3 }) };
    let (mantissa, exponent) = (&mut given.mantissas[3 * at + axis], &mut given.exponents[3 * at + axis]);
    const TOO_LARGE: i64 = 1_000_000_000_000_000_000;
    match sort {
        18 if flat => (*mantissa, *exponent) = random.pick(&[(1, 0), (0, 1), (i64::MIN, -1)]),
        18 => return None,
        19 => (*mantissa, *exponent) = (0, random.pick(&[1, -1, 400, i32::MIN])),
        20 => *mantissa = random.pick(&[10, -10, 120, TOO_LARGE - 10]),
        21 => *mantissa = random.pick(&[TOO_LARGE, TOO_LARGE + 1, -TOO_LARGE - 1, i64::MIN, i64::MAX]),
        _ if *mantissa == 0 => return None,
        _ => *exponent = random.pick(&[401, -401, i32::MAX, i32::MIN]),
    }
    Some(at as u32 + 1)
}
