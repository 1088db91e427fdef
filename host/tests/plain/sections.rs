//! The writer's second pass: the text of tables that are known to be good.

use super::header::Kind;
use super::write::{Tables, Zone};
use super::{CELL_WORDS, FACE_WORDS, NODE_WORDS, ZONE_WORDS};

/// A text with room for all that is put to it.
pub struct Text<'a> {
    bytes: &'a mut [u8],
    at: usize,
}

impl<'a> Text<'a> {
    pub fn new(bytes: &'a mut [u8]) -> Self {
        Text { bytes, at: 0 }
    }

    /// The next bytes, to be filled.
    #[inline(always)]
    fn next(&mut self, count: usize) -> &mut [u8] {
        let next = &mut self.bytes[self.at..self.at + count];
        self.at += count;
        next
    }

    fn put(&mut self, bytes: &[u8]) {
        self.next(bytes.len()).copy_from_slice(bytes);
    }

    /// A hexadecimal number behind a byte.
    #[inline(always)]
    fn hexadecimal(&mut self, before: u8, mut number: u32) {
        let place = self.next(1 + hexadecimal_digits(number));
        place[0] = before;
        for digit in place[1..].iter_mut().rev() {
            *digit = b"0123456789abcdef"[(number & 15) as usize];
            number >>= 4;
        }
    }

    /// A decimal number behind a byte.
    #[inline(always)]
    fn decimal(&mut self, before: u8, negative: bool, mut size: u64) {
        let sign = usize::from(negative);
        let place = self.next(1 + sign + decimal_digits(size));
        place[0] = before;
        if negative {
            place[1] = b'-';
        }
        for digit in place[1 + sign..].iter_mut().rev() {
            *digit = b'0' + (size % 10) as u8;
            size /= 10;
        }
    }
}

/// Writes the text of good tables, which `text` is as long as.
pub fn put_text(tables: &Tables, text: &mut Text) {
    let dimension = b'0' + tables.dimension as u8;
    text.put(&[b'(', b'2', b' ', dimension, b')', b'\n']);
    for (kind, fifth) in [(Kind::Nodes, dimension), (Kind::Cells, b'0'), (Kind::Faces, b'0')] {
        text.put(id(kind));
        text.put(b"0 1");
        text.hexadecimal(b' ', tables.total(kind) as u32);
        text.put(&[b' ', b'0', b' ', fifth, b')', b')', b'\n']);
    }
    for record in tables.zones.chunks_exact(ZONE_WORDS) {
        let zone = tables.zone(record).expect("the tables are good");
        put_section(tables, &zone, text);
    }
}

fn id(kind: Kind) -> &'static [u8] {
    match kind {
        Kind::Nodes => b"(10 (",
        Kind::Cells => b"(12 (",
        Kind::Faces => b"(13 (",
    }
}

fn put_section(tables: &Tables, zone: &Zone, text: &mut Text) {
    let opening = &id(zone.kind)[..4];
    text.put(opening);
    text.hexadecimal(b'(', zone.zone);
    for number in [zone.first as u32, zone.last as u32, zone.ztype] {
        text.hexadecimal(b' ', number);
    }
    let fifth = if zone.kind == Kind::Nodes { tables.dimension } else { zone.element };
    text.hexadecimal(b' ', fifth);
    if zone.kind == Kind::Cells && zone.element != 0 {
        return text.put(b"))\n");
    }
    text.put(b")(");
    let (from, to) = (zone.first - 1, zone.last);
    match zone.kind {
        Kind::Nodes => {
            let rows = from * NODE_WORDS..to * NODE_WORDS;
            put_points(tables.dimension, &tables.mantissas[rows.clone()], &tables.exponents[rows], text);
        }
        Kind::Faces => put_faces(zone.element == 0, &tables.faces[from * FACE_WORDS..to * FACE_WORDS], text),
        Kind::Cells => put_cells(&tables.cells[from * CELL_WORDS..to * CELL_WORDS], text),
    }
    text.put(b"))\n");
}

fn put_points(dimension: u32, mantissas: &[i64], exponents: &[i32], text: &mut Text) {
    for (mantissas, exponents) in mantissas.chunks_exact(NODE_WORDS).zip(exponents.chunks_exact(NODE_WORDS)) {
        let mut before = b'\n';
        for (mantissa, exponent) in mantissas.iter().zip(exponents).take(dimension as usize) {
            text.decimal(before, *mantissa < 0, mantissa.unsigned_abs());
            text.decimal(b'e', *exponent < 0, exponent.unsigned_abs().into());
            before = b' ';
        }
    }
}

fn put_faces(mixed: bool, rows: &[u32], text: &mut Text) {
    for row in rows.chunks_exact(FACE_WORDS) {
        let row: &[u32; FACE_WORDS] = row.try_into().expect("chunks are rows");
        let count = row[0] as usize;
        let mut before = b'\n';
        for &word in &row[usize::from(!mixed)..=count] {
            text.hexadecimal(before, word);
            before = b' ';
        }
        text.hexadecimal(b' ', row[5]);
        text.hexadecimal(b' ', row[6]);
    }
}

fn put_cells(rows: &[u32], text: &mut Text) {
    for (row, place) in rows.chunks_exact(CELL_WORDS).zip(text.next(rows.len()).chunks_exact_mut(2)) {
        place.copy_from_slice(&[b'\n', b'0' + row[0] as u8]);
    }
}

/// How many hexadecimal digits a number has.
#[inline(always)]
pub fn hexadecimal_digits(number: u32) -> usize {
    (35 - (number | 1).leading_zeros()) as usize / 4
}

/// How many decimal digits a number has.
#[inline(always)]
pub fn decimal_digits(number: u64) -> usize {
    number.checked_ilog10().unwrap_or(0) as usize + 1
}
