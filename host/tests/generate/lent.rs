//! Slices to lend, filled with a pattern, so that a word written or left is seen.

/// A reader over lent slices.
pub type Reader = fn(&[u8], &mut [i64], &mut [i32], &mut [u32], &mut [u32], &mut [u32], &mut [u64]) -> u32;

/// An audit over lent slices.
pub type Auditor = fn(u32, u32, u32, u32, &[u32], &[u32], &mut [u32], &mut [u8], &mut [u64]) -> u32;

/// Words of each slice, in the order of `Reader`.
pub type Sizes = [usize; 6];

/// Sizes for so many rows of nodes, faces, cells and zones, and an answer of 7 words.
pub fn sizes(nodes: usize, faces: usize, cells: usize, zones: usize) -> Sizes {
    [3 * nodes, 3 * nodes, 8 * faces, 2 * cells, 6 * zones, 7]
}

/// A word of a pattern: all zeros, all ones, or another word at each place.
pub fn pattern(number: u64, place: usize) -> u64 {
    match number % 4 {
        0 => 0,
        1 => u64::MAX,
        _ => (place as u64 + number).wrapping_mul(0x9e37_79b9_7f4a_7c15),
    }
}

#[derive(Clone, PartialEq, Debug)]
pub struct Lent {
    pub number: u32,
    pub answer: Vec<u64>,
    pub mantissas: Vec<i64>,
    pub exponents: Vec<i32>,
    pub faces: Vec<u32>,
    pub cells: Vec<u32>,
    pub zones: Vec<u32>,
}

impl Lent {
    pub fn new(sizes: Sizes, number: u64) -> Lent {
        let words = |size: usize| (0..size).map(move |place| pattern(number, place));
        let short = |size: usize| words(size).map(|word| word as u32).collect();
        Lent {
            number: u32::MAX,
            mantissas: words(sizes[0]).map(|word| word as i64).collect(),
            exponents: words(sizes[1]).map(|word| word as i32).collect(),
            faces: short(sizes[2]),
            cells: short(sizes[3]),
            zones: short(sizes[4]),
            answer: words(sizes[5]).collect(),
        }
    }

    pub fn read(&mut self, text: &[u8], reader: Reader) {
        self.number = reader(
            text,
            &mut self.mantissas,
            &mut self.exponents,
            &mut self.faces,
            &mut self.cells,
            &mut self.zones,
            &mut self.answer,
        );
    }

    /// Where this one, the proved one's, and the plain one's differ.
    pub fn difference(&self, plain: &Lent) -> String {
        let mut said = format!("number: proved {}, plain {}\n", self.number, plain.number);
        said += &format!("answer: proved {:?}, plain {:?}\n", self.answer, plain.answer);
        said += &first("mantissas", &self.mantissas, &plain.mantissas);
        said += &first("exponents", &self.exponents, &plain.exponents);
        said += &first("faces", &self.faces, &plain.faces);
        said += &first("cells", &self.cells, &plain.cells);
        said += &first("zones", &self.zones, &plain.zones);
        said
    }
}

/// The first place where two slices differ.
pub fn first<T: PartialEq + std::fmt::Debug>(name: &str, proved: &[T], plain: &[T]) -> String {
    match proved.iter().zip(plain).position(|(proved, plain)| proved != plain) {
        Some(at) => format!("{name}[{at}]: proved {:?}, plain {:?}\n", proved[at], plain[at]),
        None => String::new(),
    }
}
