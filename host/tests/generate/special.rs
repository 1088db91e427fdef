//! Files at one limit: depth, zones, ids, zone ids, coordinates, cells of none.

use super::documents::{self, Document, Section};
use super::words;
use super::Random;

/// A file at a limit, or one over it.
pub fn document(random: &mut Random) -> Document {
    match random.below(6) {
        0 => depth(random),
        1 => zones(random),
        2 => id(random),
        3 => zone_id(random),
        4 => total(random),
        _ => unclosed(random),
    }
}

fn with(random: &mut Random, extra: Section) -> Document {
    let mut document = Document::any(random);
    let at = random.below(document.sections.len() + 1);
    document.sections.insert(at, extra);
    document
}

/// Depth 63 to 66, in a section that is stepped over.
fn depth(random: &mut Random) -> Document {
    let depth = random.between(63, 66);
    let mut section = vec![b"(".to_vec(), words::word("0")];
    section.extend(vec![b"(".to_vec(); depth - 1]);
    section.push(b"\"(((\"".to_vec());
    section.extend(vec![b")".to_vec(); depth]);
    with(random, section)
}

/// 63 to 66 regular sections of one kind or of several.
fn zones(random: &mut Random) -> Document {
    let count = random.between(63, 66) as u32;
    let nodes = random.pick(&[count, count - 2, 20]).min(count);
    let faces = random.pick(&[0, (count - nodes) / 2, count - nodes]);
    let cells = count - nodes - faces;
    let mut sections = vec![documents::dimension_section(random, 2)];
    for (id, total) in [(10, nodes), (13, faces), (12, cells)] {
        sections.push(documents::numbered(random, id, &[0, 1, total, 0], None));
    }
    for index in 1..=nodes {
        let body = vec![words::word("1.5"), words::coordinate(random)];
        sections.push(documents::numbered(random, 10, &[1, index, index, 1], Some(body)));
    }
    for index in 1..=faces {
        let body = [1, 2, 0, 0].map(|number| words::hexadecimal(random, number)).to_vec();
        sections.push(documents::numbered(random, 13, &[index, index, index, 3, 2], Some(body)));
    }
    for index in 1..=cells {
        sections.push(documents::numbered(random, 12, &[index, index, index, 1, 1], None));
    }
    Document { sections }
}

/// An id at a limit.
fn id(random: &mut Random) -> Document {
    let ids = [
        "1999", "2000", "2010", "3999", "4000", "99999", "100000", "02000", "01999", "00002", "000002", "2x", "x",
        "10a", "-1",
    ];
    let mut section = documents::stepped_over(random);
    section[1] = words::word(random.pick(&ids));
    with(random, section)
}

/// A zone id at its limit.
fn zone_id(random: &mut Random) -> Document {
    let mut document = Document::any(random);
    let zone = random.pick(&["ffff", "10000", "ffffffff", "0000ffff", "fffffffff"]);
    let regular: Vec<usize> = (0..document.sections.len()).filter(|&at| document.sections[at].len() > 10).collect();
    if !regular.is_empty() {
        document.sections[random.pick(&regular)][3] = words::word(zone);
    }
    document
}

/// Totals that no section covers, at their limit and over it.
fn total(random: &mut Random) -> Document {
    let mut sections = vec![documents::dimension_section(random, 3)];
    for id in [10, 13, 12] {
        let total = random.pick(&[0, 0, 0, 1, 79, 80, 81, 0xffff, 0x10000]);
        let first = random.pick(&[1, 1, 1, 1, 0, 2]);
        sections.push(documents::numbered(random, id, &[0, first, total, 0], None));
    }
    random.shuffle(&mut sections);
    if random.once_in(4) {
        sections.pop();
    }
    Document { sections }
}

/// A string that does not end.
fn unclosed(random: &mut Random) -> Document {
    let mut document = Document::any(random);
    let at = random.below(document.sections.len());
    let section = &mut document.sections[at];
    let place = random.below(section.len());
    section.insert(place, words::word("\"no end ("));
    document
}

/// A file where one coordinate is near its limits.
pub fn coordinate(random: &mut Random) -> Document {
    let dimension = random.between(2, 3);
    let mut body: Vec<_> = (0..dimension * 2).map(|_| words::coordinate(random)).collect();
    let place = random.below(body.len());
    body[place] = words::coordinate_at_limits(random);
    let mut sections = vec![documents::numbered(random, 10, &[0, 1, 2, 0, dimension as u32], None)];
    sections.push(documents::numbered(random, 10, &[1, 1, 2, 1], Some(body)));
    sections.push(documents::numbered(random, 13, &[0, 1, 0, 0], None));
    Document { sections }
}
