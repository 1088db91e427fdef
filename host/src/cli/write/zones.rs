//! Corrections of zone records.

use super::corrections::{element_of, element_text};
use super::line::{Bad, Word};
use crate::cli::text::{span, zone_kind};
use ravneket::names::{both_bases, counted, is_listed, section_name, type_name, type_number, type_text};
use ravneket::{Mesh, Zone};

/// The place of the one record that has this zone id.
pub fn by_id(mesh: &Mesh, word: &Word) -> Result<usize, Bad> {
    let id = word.number()?;
    let found: Vec<(usize, Zone)> = mesh.zones().enumerate().filter(|(_, zone)| zone.zone == id).collect();
    match &found[..] {
        [(place, _)] => Ok(*place),
        [] => {
            let mut ids: Vec<u32> = mesh.zones().map(|zone| zone.zone).collect();
            ids.sort_unstable();
            ids.dedup();
            let ids: Vec<String> = ids.into_iter().map(both_bases).collect();
            let has = if ids.is_empty() { "none".to_string() } else { ids.join(", ") };
            Err(word.bad(format!("there is no zone {id}; the mesh has {has}")))
        }
        [(first, _), ..] => {
            let all: Vec<String> =
                found.iter().map(|(place, zone)| format!("record {place}, {}", rows(zone))).collect();
            let all = all.join("; ");
            Err(word.bad(format!("zone {id} is in several records: {all}; name the one, as in `record {first}`")))
        }
    }
}

/// Sets a word of a record.
pub fn correct(mesh: &mut Mesh, index: &Word, place: usize, field: &Word, values: &[Word]) -> Result<String, Bad> {
    let gone = |error: ravneket::NotThere| index.bad(error.to_string());
    let Some(zone) = mesh.zones().nth(place) else {
        let total = counted(mesh.zones().len(), "record");
        return Err(index.bad(format!("there is no record {place}; the mesh has {total}, from 0")));
    };
    let (before, after) = match (field.text, values) {
        ("type", _) => {
            let new = type_of(zone.section, values)?;
            let old = mesh.set_zone_type(place, new).map_err(gone)?;
            (type_told(zone.section, old), type_told(zone.section, new))
        }
        ("element", [value]) => {
            let new = element_of(value)?;
            let old = mesh.set_zone_element(place, new).map_err(gone)?;
            match zone.section {
                12 => (element_text(old), element_text(new)),
                _ => (old.to_string(), new.to_string()),
            }
        }
        (_, [value, ..]) => {
            let new = value.number()?;
            (both_bases(mesh.set_zone_id(place, new).map_err(gone)?), both_bases(new))
        }
        _ => return Err(field.bad("a value is due behind this")),
    };
    Ok(format!("record {place} (zone {}), {}: the {} was {before}, is {after}", zone.zone, rows(&zone), field.text))
}

/// A type by its number or its name, which may have several words.
fn type_of(section: u32, words: &[Word]) -> Result<u32, Bad> {
    let name = words.iter().map(|word| word.text).collect::<Vec<_>>().join(" ");
    if let Some(number) = type_number(section, &name) {
        return Ok(number);
    }
    if let [word] = words {
        if word.text.starts_with(|first: char| first.is_ascii_digit()) {
            return word.number();
        }
    }
    let all = (0..1000).filter(|&number| is_listed(section, number)).map(|number| type_name(section, number));
    let reason = format!(
        "types of {} are {}, or their decimal numbers",
        section_name(section),
        all.collect::<Vec<_>>().join(", ")
    );
    Err(Bad { words: words[0].at..words[words.len() - 1].range().end, reason })
}

fn type_told(section: u32, number: u32) -> String {
    format!("{}, {}", both_bases(number), type_text(section, number))
}

/// `wall faces 3 to 5`.
fn rows(zone: &Zone) -> String {
    format!("{} {}", zone_kind(zone), span(zone))
}
