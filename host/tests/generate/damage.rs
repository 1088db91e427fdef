//! Damage done to good files.

use super::documents::{self, Document};
use super::words;
use super::Random;

/// Changes one byte, or two, in some way.
pub fn byte(random: &mut Random, text: &mut Vec<u8>) {
    if text.is_empty() {
        text.push(random.below(256) as u8);
        return;
    }
    let at = random.below(text.len());
    let any = random.below(256) as u8;
    let likely = random.pick(b"()\" \t\n\r0123456789abcdefABCDEFgx.-+eE\x0b\x0c\x00\x7f\x80\xff");
    let new = if random.once_in(4) { any } else { likely };
    let other = random.below(text.len());
    match random.below(5) {
        0 => {
            text.remove(at);
        }
        1 => text.insert(at, new),
        2 => text[at] = new,
        3 => text.swap(at, other),
        _ => {
            let to = random.between(at, text.len().min(at + 6));
            text.drain(at..to);
        }
    }
}

/// Deletes, inserts, doubles, swaps or replaces one token.
pub fn token(random: &mut Random, document: &mut Document) {
    let Some((section, at)) = place(random, document) else { return };
    let tokens = &mut document.sections[section];
    let other = random.below(tokens.len());
    match random.below(8) {
        0 => {
            tokens.remove(at);
        }
        1 => tokens.insert(at, words::limit(random)),
        2 => tokens.insert(at, tokens[at].clone()),
        3 => tokens.swap(at, other),
        4 => tokens[at] = moved(random, &tokens[at]),
        5 => tokens[at] = words::strange(random),
        _ => tokens[at] = words::limit(random),
    }
}

fn place(random: &mut Random, document: &Document) -> Option<(usize, usize)> {
    if document.sections.is_empty() {
        return None;
    }
    let section = random.below(document.sections.len());
    let length = document.sections[section].len();
    (length > 0).then(|| (section, random.below(length)))
}

/// The number next to this one, or 1000 from it.
fn moved(random: &mut Random, token: &[u8]) -> words::Token {
    let Some(number) = std::str::from_utf8(token).ok().and_then(|text| u32::from_str_radix(text, 16).ok()) else {
        return words::limit(random);
    };
    let by = random.pick(&[1, 1, 1u32.wrapping_neg(), 1000, 1000u32.wrapping_neg(), 2]);
    words::hexadecimal(random, number.wrapping_add(by))
}

/// Changes a word of the header of a section that is read.
pub fn header(random: &mut Random, document: &mut Document) {
    let headers: Vec<usize> = (0..document.sections.len())
        .filter(|&section| {
            let id = std::str::from_utf8(&document.sections[section][1]).ok().and_then(|id| id.parse().ok());
            matches!(id, Some(2u32 | 10 | 12 | 13)) && document.sections[section].len() > 3
        })
        .collect();
    if headers.is_empty() {
        return;
    }
    let tokens = &mut document.sections[random.pick(&headers)];
    // A header is `( id ( zone first last type fifth )`, section 2 `( id N )`.
    let at = if tokens[2] == b"(" { 3 + random.below(5) } else { 2 };
    if at >= tokens.len() {
        return;
    }
    tokens[at] = match random.below(6) {
        0 => moved(random, &tokens[at]),
        1 => words::limit(random),
        _ => near_listed(random, at),
    };
}

/// A word for this place of a header, listed there or next to one that is.
fn near_listed(random: &mut Random, at: usize) -> words::Token {
    let small = random.below(9) as u32;
    let number = match at {
        3 => random.pick(&[0, 1, 0xfffe, 0xffff, 0x1_0000, u32::MAX]),
        4 => random.pick(&[0, 1, 2, small]),
        5 => random.pick(&[0, 1, small, 0xffff, 0x1_0000]),
        6 => random.below(40) as u32 + random.pick(&[0, 0, 1000, 1000, 2000]),
        _ => small,
    };
    words::hexadecimal(random, number)
}

/// Replaces a number within a body by one near the elements.
pub fn body(random: &mut Random, document: &mut Document) {
    let long: Vec<usize> = (0..document.sections.len()).filter(|&at| document.sections[at].len() > 12).collect();
    if long.is_empty() {
        return;
    }
    let tokens = &mut document.sections[random.pick(&long)];
    // The first word of a body is at 10, behind `( id ( zone first last type fifth ) (`; later ones are at any place.
    let at = if random.once_in(2) { 10 } else { random.between(10, tokens.len() - 3) };
    let number = random.below(9) as u32;
    tokens[at] = words::hexadecimal(random, number);
}

/// Removes, doubles, moves or swaps whole sections, or puts in another.
pub fn section(random: &mut Random, document: &mut Document) {
    let sections = &mut document.sections;
    let another = match random.below(3) {
        0 => documents::stepped_over(random),
        1 => {
            let dimension = random.pick(&[2, 3]);
            documents::dimension_section(random, dimension)
        }
        _ => {
            let id = random.pick(&[10, 12, 13]);
            let header = [0, 1, random.below(4) as u32, 0, random.pick(&[2, 3])];
            documents::numbered(random, id, &header, None)
        }
    };
    let at = random.below(sections.len().max(1));
    if sections.is_empty() {
        sections.push(another);
        return;
    }
    let other = random.below(sections.len());
    match random.below(6) {
        0 => {
            sections.remove(at);
        }
        1 => sections.insert(random.below(at + 1), sections[at].clone()),
        2 => sections.push(sections[at].clone()),
        3 => {
            let section = sections.remove(at);
            sections.insert(random.below(sections.len() + 1), section);
        }
        4 => sections.swap(at, other),
        _ => sections.insert(at, another),
    }
}

/// Tokens with no order at all.
pub fn soup(random: &mut Random) -> Vec<u8> {
    let mut text = Vec::new();
    for _ in 0..random.below(40) {
        match random.below(8) {
            0 => text.extend(words::strange(random)),
            1 => text.extend(words::coordinate_at_limits(random)),
            2 => text.extend_from_slice(random.pick(&[
                &b"(10 (0 1 2 0 2))"[..],
                b"(13 (0 1 0 0))",
                b"(2 2)",
                b"(0 \"x\")",
            ])),
            3 => text.push(random.below(256) as u8),
            4 => text.push(b'('),
            5 => text.push(b')'),
            _ => text.extend(words::limit(random)),
        }
        if random.once_in(2) {
            text.push(random.pick(b" \t\n\r"));
        }
    }
    text
}
