//! Tables for the writer: good ones, with words of every length.

use super::documents::{ranges, zone, FACE_TYPES};
use super::lent::{sizes, Lent, Reader};
use super::Random;
use ravneket::MeshTables;

/// A writer over lent slices.
pub type Writer = fn(u32, u32, u32, u32, &[i64], &[i32], &[u32], &[u32], &[u32], &mut [u8], &mut [u64]) -> u32;

/// What a writer is given.
#[derive(Clone, PartialEq, Debug, Default)]
pub struct Given {
    pub dimension: u32,
    pub nodes: u32,
    pub faces: u32,
    pub cells: u32,
    pub mantissas: Vec<i64>,
    pub exponents: Vec<i32>,
    pub face_rows: Vec<u32>,
    pub cell_rows: Vec<u32>,
    pub zones: Vec<u32>,
}

impl Given {
    /// What a reader has left, without the rows behind the totals.
    pub fn left(lent: &Lent) -> Given {
        let [dimension, nodes, faces, cells, zones] = [2, 3, 4, 5, 6].map(|place| lent.answer[place] as usize);
        Given {
            dimension: dimension as u32,
            nodes: nodes as u32,
            faces: faces as u32,
            cells: cells as u32,
            mantissas: lent.mantissas[..3 * nodes].to_vec(),
            exponents: lent.exponents[..3 * nodes].to_vec(),
            face_rows: lent.faces[..8 * faces].to_vec(),
            cell_rows: lent.cells[..2 * cells].to_vec(),
            zones: lent.zones[..6 * zones].to_vec(),
        }
    }

    /// What a reader says of a text, lent as much room as these tables have.
    pub fn read_back(&self, text: &[u8], reader: Reader) -> Given {
        let rows = [self.nodes, self.faces, self.cells].map(|total| total as usize);
        let mut lent = Lent::new(sizes(rows[0], rows[1], rows[2], self.zones.len() / 6), 2);
        lent.read(text, reader);
        assert_eq!(lent.number, 0, "a written text was refused at {}", lent.answer[1]);
        Given::left(&lent)
    }

    /// Without rows behind the totals and words behind the last whole record.
    pub fn cut(mut self) -> Given {
        let rows = [self.nodes, self.faces, self.cells].map(|total| total as usize);
        self.mantissas.truncate(3 * rows[0]);
        self.exponents.truncate(3 * rows[0]);
        self.face_rows.truncate(8 * rows[1]);
        self.cell_rows.truncate(2 * rows[2]);
        self.zones.truncate(self.zones.len() / 6 * 6);
        self
    }

    pub fn write(&self, writer: Writer, text: &mut [u8], answer: &mut [u64]) -> u32 {
        let (pairs, rows) = ((&self.mantissas, &self.exponents), (&self.face_rows, &self.cell_rows));
        let Given { dimension, nodes, faces, cells, zones, .. } = self;
        writer(*dimension, *nodes, *faces, *cells, pairs.0, pairs.1, rows.0, rows.1, zones, text, answer)
    }

    /// As the crate takes them.
    pub fn tables(&self) -> MeshTables<'_> {
        MeshTables {
            dimension: self.dimension,
            nodes: self.nodes,
            faces: self.faces,
            cells: self.cells,
            mantissas: &self.mantissas,
            exponents: &self.exponents,
            face_rows: &self.face_rows,
            cell_rows: &self.cell_rows,
            zones: &self.zones,
        }
    }

    /// Bytes that are enough for the text, whatever the words are.
    pub fn room(&self) -> usize {
        100 + 60 * (self.zones.len() / 6)
            + 75 * (self.nodes as usize)
            + 56 * (self.faces as usize)
            + 2 * self.cells as usize
    }
}

/// Good tables of any sort; some with rows behind the totals.
pub fn tables(random: &mut Random) -> Given {
    let total = |random: &mut Random| random.pick(&[0, 1, 1, 2, 3, 5, 8, 17, 40]);
    let mut given = Given { dimension: random.pick(&[2, 3]), ..Given::default() };
    let mut records = Vec::new();
    for _ in 0..total(random) {
        given.point(random);
    }
    for (first, last) in ranges(random, given.nodes as usize) {
        records.push([10, zone(random), first as u32, last as u32, random.below(3) as u32, 0]);
    }
    let faces = total(random);
    for (first, last) in ranges(random, faces) {
        let ztype = random.pick(&FACE_TYPES) + random.pick(&[0, 0, 1000]);
        let element = random.pick(&[0, 0, 2, 3, 4]);
        records.push([13, zone(random), first as u32, last as u32, ztype, element]);
    }
    let cells = total(random);
    for (first, last) in ranges(random, cells) {
        let ztype = random.pick(&[0, 1, 1, 32]);
        records.push([12, zone(random), first as u32, last as u32, ztype, random.below(7) as u32]);
    }
    given.rows(random, &records);
    if random.once_in(2) {
        random.shuffle(&mut records);
    }
    given.zones = records.concat();
    if random.once_in(2) {
        given.spare(random);
    }
    given
}

impl Given {
    fn point(&mut self, random: &mut Random) {
        for axis in 0..3 {
            let (mantissa, exponent) = if axis < self.dimension { pair(random) } else { (0, 0) };
            self.mantissas.push(mantissa);
            self.exponents.push(exponent);
        }
        self.nodes += 1;
    }

    /// Rows of faces and cells that agree with their records.
    fn rows(&mut self, random: &mut Random, records: &[[u32; 6]]) {
        for &[section, _, first, last, ztype, element] in records {
            let (from, to) = (first as usize - 1, last as usize);
            if section == 12 {
                self.cells = self.cells.max(last);
                self.cell_rows.resize(self.cell_rows.len().max(2 * to), 0);
                for row in self.cell_rows[2 * from..2 * to].chunks_exact_mut(2) {
                    row[0] = if element == 0 { random.between(1, 6) as u32 } else { element };
                    row[1] = ztype;
                }
            } else if section == 13 {
                self.faces = self.faces.max(last);
                self.face_rows.resize(self.face_rows.len().max(8 * to), 0);
                for row in self.face_rows[8 * from..8 * to].chunks_exact_mut(8) {
                    row[0] = if element == 0 { random.between(2, 4) as u32 } else { element };
                    let nodes = 1..=row[0] as usize;
                    row[nodes].iter_mut().for_each(|node| *node = word(random));
                    row[5..7].iter_mut().for_each(|cell| *cell = word(random));
                    row[7] = ztype;
                }
            }
        }
    }

    /// Words behind the totals, whole rows and parts; of zone records a part alone.
    fn spare(&mut self, random: &mut Random) {
        for _ in 0..random.below(12) {
            self.mantissas.push(random.word() as i64);
            self.face_rows.push(random.word() as u32);
        }
        for _ in 0..random.below(6) {
            self.exponents.push(random.word() as i32);
            self.cell_rows.push(random.word() as u32);
        }
        self.zones.extend((0..random.below(6)).map(|_| random.word() as u32));
    }
}

/// A word of any number of digits: at a limit of them, or between.
fn word(random: &mut Random) -> u32 {
    let digits = random.below(9) as u32;
    let limit = (1u64 << (4 * digits)) as u32;
    let any = (random.word() >> (64 - 4 * digits.max(1))) as u32;
    random.pick(&[0, 1, 2, limit, limit.wrapping_sub(1), any, any])
}

/// A pair as a reader leaves it, of any number of digits.
pub fn pair(random: &mut Random) -> (i64, i32) {
    let power = 10i64.pow(random.between(1, 18) as u32);
    let any = (random.word() >> 1) as i64 % power;
    let mut mantissa = random.pick(&[power - 1, power / 10 + 1, any, any, 0]);
    while mantissa != 0 && mantissa % 10 == 0 {
        mantissa /= 10;
    }
    if mantissa == 0 {
        return (0, 0);
    }
    let any = random.between(0, 800) as i32 - 400;
    let exponent = random.pick(&[0, 0, 1, 9, 10, 99, 100, 400, any]);
    (mantissa * random.pick(&[1, -1]), exponent * random.pick(&[1, -1]))
}
