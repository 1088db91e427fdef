//! A good file as a list of sections, each a list of tokens, so that damage can be done token by token.

use super::grids::{Face, Model};
use super::words::{self, Token};
use super::Random;

pub type Section = Vec<Token>;

pub struct Document {
    pub sections: Vec<Section>,
}

pub const FACE_TYPES: [u32; 15] = [2, 3, 4, 5, 7, 8, 9, 10, 12, 14, 20, 24, 31, 36, 37];

impl Document {
    /// A good file of any sort.
    pub fn any(random: &mut Random) -> Document {
        let model = Model::any(random);
        Document::of(random, &model)
    }

    /// A file that says this mesh, split and ordered in some way.
    pub fn of(random: &mut Random, model: &Model) -> Document {
        let nodes = node_sections(random, model);
        let faces = face_sections(random, model);
        let cells = cell_sections(random, model);
        let other = (0..random.pick(&[0, 0, 1, 3])).map(|_| stepped_over(random)).collect();
        let mut queues: [Vec<Section>; 4] = [nodes, faces, cells, other];
        for queue in &mut queues {
            queue.reverse();
        }
        let mut sections = Vec::new();
        while queues.iter().any(|queue| !queue.is_empty()) {
            let queue = random.below(4);
            sections.extend(queues[queue].pop());
        }
        if random.once_in(6) {
            sections.push(dimension_section(random, model.dimension));
        }
        Document { sections }
    }

    /// Its bytes, with blanks of some sort between the tokens.
    pub fn text(&self, random: &mut Random) -> Vec<u8> {
        let style = random.below(3);
        let mut text = Vec::new();
        let mut in_word = false;
        for token in self.sections.iter().flatten() {
            let word = |byte: Option<&u8>| byte.is_some_and(|byte| !b"()\"".contains(byte));
            let needed = in_word && word(token.first());
            let blanks = match style {
                0 => usize::from(needed),
                1 => 1,
                _ => random.below(3).max(usize::from(needed)),
            };
            for _ in 0..blanks {
                text.push(if style < 2 { b' ' } else { random.pick(b" \t\n\r") });
            }
            text.extend_from_slice(token);
            in_word = word(token.last());
        }
        if random.once_in(2) {
            text.push(b'\n');
        }
        text
    }
}

fn section(id: Token, inside: Vec<Token>) -> Section {
    let mut section = vec![b"(".to_vec(), id];
    section.extend(inside);
    section.push(b")".to_vec());
    section
}

fn bracketed(inside: impl IntoIterator<Item = Token>) -> Vec<Token> {
    let mut tokens = vec![b"(".to_vec()];
    tokens.extend(inside);
    tokens.push(b")".to_vec());
    tokens
}

pub fn dimension_section(random: &mut Random, dimension: u32) -> Section {
    let number = words::hexadecimal(random, dimension);
    section(words::id(random, 2), vec![number])
}

/// A section of numbers: a header, and a body if there is one.
pub fn numbered(random: &mut Random, id: u32, header: &[u32], body: Option<Vec<Token>>) -> Section {
    let mut inside = bracketed(header.iter().map(|&number| words::hexadecimal(random, number)).collect::<Vec<_>>());
    if let Some(body) = body {
        inside.extend(bracketed(body));
    }
    section(words::id(random, id), inside)
}

fn declaration(random: &mut Random, id: u32, total: usize) -> Section {
    let mut header = vec![0, 1, total as u32, random.pick(&[0, 0, 1, 99, u32::MAX])];
    if random.once_in(2) {
        header.push(random.pick(&[0, 0, 7, u32::MAX]));
    }
    numbered(random, id, &header, None)
}

/// Splits 1 to `total` into ranges, in any order.
pub fn ranges(random: &mut Random, total: usize) -> Vec<(usize, usize)> {
    let parts = random.pick(&[1, 1, 2, 3, 5]);
    let mut ends: Vec<usize> = (1..parts).map(|_| random.below(total + 1)).collect();
    ends.push(total);
    ends.sort_unstable();
    let mut first = 1;
    let mut ranges = Vec::new();
    for end in ends {
        if first <= end {
            ranges.push((first, end));
        }
        first = first.max(end + 1);
    }
    if random.once_in(2) {
        random.shuffle(&mut ranges);
    }
    ranges
}

pub fn zone(random: &mut Random) -> u32 {
    let any = random.between(1, 65_535) as u32;
    random.pick(&[1, 1, 2, 3, 9, 0xffff, any])
}

fn node_sections(random: &mut Random, model: &Model) -> Vec<Section> {
    let (dimension, total) = (model.dimension, model.points.len());
    let mut sections = Vec::new();
    let known = random.below(3);
    if known == 0 {
        sections.push(dimension_section(random, dimension));
    }
    let mut header = vec![0, 1, total as u32, random.pick(&[0, 1, 0xabcd])];
    if known == 1 || total == 0 && known == 2 || random.once_in(3) {
        header.push(dimension);
    }
    sections.push(numbered(random, 10, &header, None));
    for (first, last) in ranges(random, total) {
        let mut header = vec![zone(random), first as u32, last as u32, random.below(3) as u32];
        if known == 2 || random.once_in(2) {
            header.push(dimension);
        }
        let body = model.points[first - 1..last].iter().flatten().cloned().collect();
        sections.push(numbered(random, 10, &header, Some(body)));
    }
    sections
}

fn face_sections(random: &mut Random, model: &Model) -> Vec<Section> {
    let total = model.faces.len();
    let mut sections = vec![declaration(random, 13, total)];
    for (first, last) in ranges(random, total) {
        let rows = &model.faces[first - 1..last];
        let inner = rows.iter().all(|face| face.right != 0 && face.left != 0) || random.once_in(8);
        let ztype = random.pick(&FACE_TYPES[usize::from(!inner)..]) + random.pick(&[0, 0, 1000]);
        let count = rows[0].nodes.len();
        let alike = rows.iter().all(|face| face.nodes.len() == count);
        let element = if alike && !random.once_in(3) { count as u32 } else { 0 };
        let body = rows.iter().flat_map(|face| face_words(random, face, element == 0)).collect();
        let header = [zone(random), first as u32, last as u32, ztype, element];
        sections.push(numbered(random, 13, &header, Some(body)));
    }
    sections
}

fn face_words(random: &mut Random, face: &Face, mixed: bool) -> Vec<Token> {
    let mut numbers = Vec::new();
    if mixed {
        numbers.push(face.nodes.len() as u32);
    }
    numbers.extend(&face.nodes);
    numbers.extend([face.right, face.left]);
    numbers.into_iter().map(|number| words::hexadecimal(random, number)).collect()
}

fn cell_sections(random: &mut Random, model: &Model) -> Vec<Section> {
    let total = model.cells.len();
    if total == 0 && random.once_in(2) {
        return Vec::new();
    }
    let mut sections = vec![declaration(random, 12, total)];
    for (first, last) in ranges(random, total) {
        let rows = &model.cells[first - 1..last];
        let alike = rows.iter().all(|element| *element == rows[0]);
        let element = if alike && !random.once_in(3) { rows[0] } else { 0 };
        let body: Vec<Token> = rows.iter().map(|&element| words::hexadecimal(random, element)).collect();
        let header = [zone(random), first as u32, last as u32, random.pick(&[0, 1, 1, 1, 32]), element];
        sections.push(numbered(random, 12, &header, (element == 0).then_some(body)));
    }
    sections
}

/// A section that is stepped over: comments, strings with parentheses, nesting.
pub fn stepped_over(random: &mut Random) -> Section {
    const IDS: [u32; 18] = [0, 0, 0, 1, 3, 4, 9, 11, 14, 18, 39, 45, 58, 59, 61, 1999, 4000, 99_999];
    let mut inside = Vec::new();
    let mut depth = 0;
    for _ in 0..random.below(12) {
        match random.below(6) {
            0 => {
                inside.push(b"(".to_vec());
                depth += 1;
            }
            1 if depth > 0 => {
                inside.push(b")".to_vec());
                depth -= 1;
            }
            2 | 3 => inside
                .push(random.pick(&[&b"\"text\""[..], b"\"\"", b"\")(\"", b"\"a (b\n\"", b"\"\xc3\xa4)\""]).to_vec()),
            _ => inside.push(random.pick(&[&b"word"[..], b"1", b"zz-top", b"2010", b"'", b"\x00"]).to_vec()),
        }
    }
    inside.extend(vec![b")".to_vec(); depth]);
    let number = random.pick(&IDS);
    section(words::id(random, number), inside)
}
