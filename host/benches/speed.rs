//! How fast the proved reader, audit and writer are, beside the plain ones of the differential test, in the same run.
//!
//! `cargo bench --bench speed -- [--quick] [--runs N] [--no-verdict]`. Ends with status 1 if a row is under 0.7 of the plain speed.
//! Under an emulator it prints the ratios and gives no verdict: there they tell how code is translated, not how fast it is.

#[path = "../tests/generate/mod.rs"]
mod generate;
mod measure;
#[path = "../tests/plain/mod.rs"]
mod plain;
mod writing;

use std::hint::black_box;
use std::time::Duration;

use generate::grids::{grid, Digits, Model};
use generate::lent::{sizes, Auditor, Lent, Reader};
use generate::{large, Random};
use measure::{in_turn, peak_memory, Pair, Worst};
use ravneket::raw;

struct Options {
    runs: usize,
    quick: bool,
    emulated: bool,
    verdict: bool,
}

fn options() -> Options {
    let words: Vec<String> = std::env::args().collect();
    let has = |word: &str| words.iter().any(|other| other == word);
    let quick = has("--quick");
    let runs = words.iter().position(|word| word == "--runs").and_then(|at| words.get(at + 1)?.parse().ok());
    let emulated = std::env::var("RAVNEKET_RUNNER").is_ok_and(|runner| !runner.is_empty());
    let verdict = !emulated && !has("--no-verdict");
    Options { runs: runs.unwrap_or(if quick { 3 } else { 9 }).max(1), quick, emulated, verdict }
}

/// A mesh to be read: its family, its size among the family's, its numbering, its text.
struct Mesh {
    family: &'static str,
    name: String,
    ordered: bool,
    text: Vec<u8>,
}

struct Family {
    name: &'static str,
    element: u32,
    sizes: [usize; 3],
    digits: Digits,
}

const FAMILIES: [Family; 4] = [
    Family { name: "2D quads", element: 3, sizes: [16, 60, 180], digits: Digits { places: 8, exponent: true } },
    Family { name: "2D triangles", element: 1, sizes: [12, 50, 146], digits: Digits { places: 16, exponent: true } },
    Family { name: "3D tetrahedra", element: 2, sizes: [3, 8, 17], digits: Digits { places: 6, exponent: false } },
    Family { name: "3D hexahedra", element: 4, sizes: [4, 12, 27], digits: Digits { places: 10, exponent: true } },
];

impl Family {
    fn model(&self, size: usize) -> Model {
        let solid = matches!(self.element, 2 | 4);
        grid(self.element, [size, size, if solid { size } else { 0 }], self.digits)
    }

    fn meshes(&self, quick: bool, meshes: &mut Vec<Mesh>) {
        let mut random = Random::new(1, self.element.into());
        let count = if quick { 2 } else { 3 };
        for &size in &self.sizes[..count] {
            let mut model = self.model(size);
            for ordered in [true, false] {
                if !ordered {
                    model.renumber(&mut random);
                }
                let text = large::text(&model, false);
                let name = format!("{} {size}, {}", self.name, if ordered { "in order" } else { "at random" });
                meshes.push(Mesh { family: self.name, name, ordered, text });
            }
        }
    }
}

/// Meshes of other shapes: the most rows, the most bytes, mixed elements, much that is stepped over.
fn others(quick: bool, meshes: &mut Vec<Mesh>) {
    let mut add =
        |name: &str, text: Vec<u8>| meshes.push(Mesh { family: "", name: name.to_string(), ordered: true, text });
    let digits = Digits { places: 17, exponent: true };
    let length = if quick { 500 } else { 13_106 };
    let mut beam = grid(4, [1, 1, length], digits);
    add("3D hexahedra, a beam", large::text(&beam, false));
    add("3D hexahedra, a beam, by row", large::text(&beam, true));
    for word in beam.points.iter_mut().flatten() {
        word.splice(..0, vec![b' '; 38 - word.len()]);
    }
    add("3D hexahedra, a beam, aligned", large::text(&beam, false));
    add("rows of all totals, mixed", large::text(&large::model(), true));
    let mesh = large::text(&FAMILIES[0].model(16), false);
    let mut comments = Vec::new();
    for line in 0..if quick { 10_000 } else { 150_000 } {
        comments.extend(format!("(0 \"a comment (of line {line})\")\n(45 ({line} fluid zone)())\n").into_bytes());
    }
    comments.truncate(8_388_608 - mesh.len());
    while !comments.ends_with(b"())\n") {
        comments.pop();
    }
    add("2D quads 16, comments", [&mesh[..], &comments].concat());
    add("2D quads 16, comments in front", [comments, mesh].concat());
}

/// Times both readers on a text, and answers the tables, which are equal.
fn read(options: &Options, text: &[u8]) -> (Pair, Lent) {
    let most = 65_535;
    let mut lent = Lent::new(sizes(most, most, most, 64), 0);
    lent.read(text, plain::read);
    let [nodes, faces, cells, zones] = [3, 4, 5, 6].map(|place| lent.answer[place] as usize);
    let mut tables = Lent::new(sizes(nodes, faces, cells, zones), 0);
    let mut other = tables.clone();
    tables.read(text, raw::read);
    other.read(text, plain::read);
    assert!(tables == other && tables.number == 0, "proved and plain differ, or refuse");
    let repeats = (if options.quick { 200_000 } else { 1_000_000 } / text.len()).max(1) as u32;
    let call = |reader: Reader| move |lent: &mut Lent| black_box(lent).read(black_box(text), reader);
    let pair = in_turn(options.runs, repeats, &mut tables, clear, &call(raw::read), &call(plain::read));
    (pair, other)
}

fn clear(lent: &mut Lent) {
    lent.mantissas.fill(0);
    lent.exponents.fill(0);
    lent.faces.fill(0);
    lent.cells.fill(0);
}

/// What an audit is given and what it leaves.
struct Audited<'a> {
    lent: &'a Lent,
    faces: &'a [u32],
    counts: Vec<u32>,
    list: Vec<u8>,
    answer: [u64; 2],
}

impl Audited<'_> {
    fn run(&mut self, audit: Auditor) {
        let [dimension, nodes, faces, cells] = [2, 3, 4, 5].map(|place| self.lent.answer[place] as u32);
        let (rows, list) = (black_box(self.faces), black_box(&mut self.list));
        audit(dimension, nodes, faces, cells, rows, &self.lent.cells, &mut self.counts, list, &mut self.answer);
    }
}

/// Times both audits on tables.
fn audit(options: &Options, lent: &Lent, faces: &[u32]) -> (Pair, u64) {
    let (counts, list) = (vec![0; lent.answer[5] as usize], vec![0; 16 * faces.len()]);
    let mut audited = Audited { lent, faces, counts, list, answer: [0; 2] };
    audited.run(raw::audit);
    let left = (audited.counts.clone(), audited.list.clone(), audited.answer);
    audited.run(plain::audit);
    assert!(left == (audited.counts.clone(), audited.list.clone(), audited.answer), "proved and plain differ");
    let rows = rows(lent);
    let repeats = (if options.quick { 50_000 } else { 300_000 } / rows).max(1) as u32;
    let clear = |audited: &mut Audited| audited.counts.fill(0);
    let call = |audit: Auditor| move |audited: &mut Audited| audited.run(audit);
    let pair = in_turn(options.runs, repeats, &mut audited, clear, &call(raw::audit), &call(plain::audit));
    (pair, audited.answer[0])
}

/// Faces and cells.
fn rows(lent: &Lent) -> usize {
    (lent.answer[4] + lent.answer[5]) as usize
}

/// Face rows with a fault in every other one, of all sorts.
fn spoilt(faces: &[u32]) -> Vec<u32> {
    let mut faces = faces.to_vec();
    for (at, row) in faces.chunks_exact_mut(8).enumerate().step_by(2) {
        match at / 2 % 5 {
            0 => row[1] = 0,
            1 => row[2] = row[1],
            2 => row[5] = u32::MAX,
            3 => row[6] = row[5],
            _ => row[0] = 9,
        }
    }
    faces
}

fn main() {
    let options = options();
    println!("proved and plain in turn, median of {} runs; tables are allocated and cleared before each and this is not timed", options.runs);
    if options.emulated {
        println!("under an emulator: neither seconds nor ratios are a measure of the code, and no verdict is given");
    }
    println!("a ratio is of runs one behind the other; a wide span means that the machine had other work");
    let mut meshes = Vec::new();
    for family in &FAMILIES {
        family.meshes(options.quick, &mut meshes);
    }
    others(options.quick, &mut meshes);
    let [mut worst_read, mut worst_audit, mut worst_write] = ["read", "audit", "write"].map(Worst::new);
    let measured = reads(&options, &meshes, &mut worst_read);
    audits(&options, &meshes, &measured, &mut worst_audit);
    writing::writes(&options, &meshes, &measured, &mut worst_write);
    growth(&meshes, &measured);
    match peak_memory() {
        Some(memory) => {
            println!("\npeak memory {memory} KiB{}", if options.emulated { ", the emulator's with it" } else { "" })
        }
        None => println!("\npeak memory is not told by this system"),
    }
    let worst = [worst_read, worst_audit, worst_write];
    println!("{}", worst.each_ref().map(Worst::say).join(", "));
    if options.verdict && worst.iter().any(Worst::is_defect) {
        std::process::exit(1);
    }
}

/// The table of reading. Answers what was measured and read, mesh by mesh.
fn reads(options: &Options, meshes: &[Mesh], worst: &mut Worst) -> Vec<(Pair, Lent)> {
    println!(
        "\n{:38} {:>8} {:>7} {:>12} {:>11} {:>6}  span",
        "read", "bytes", "rows", "proved MB/s", "plain MB/s", "ratio"
    );
    let line = |mesh: &Mesh| {
        let (pair, lent) = read(options, &mesh.text);
        worst.add(pair, &mesh.name);
        let (bytes, all) = (mesh.text.len(), rows(&lent) + lent.answer[3] as usize);
        println!("{:38} {bytes:8} {all:7} {}", mesh.name, pair.line(bytes, options.verdict));
        (pair, lent)
    };
    meshes.iter().map(line).collect()
}

/// The table of audits, each mesh as it is and spoilt.
fn audits(options: &Options, meshes: &[Mesh], measured: &[(Pair, Lent)], worst: &mut Worst) {
    println!(
        "\n{:38} {:>8} {:>7} {:>12} {:>11} {:>6}  span",
        "audit", "faults", "rows", "proved Mr/s", "plain Mr/s", "ratio"
    );
    for (mesh, (_, lent)) in meshes.iter().zip(measured) {
        for (name, faces) in [("", lent.faces.clone()), (", spoilt", spoilt(&lent.faces))] {
            let (pair, faults) = audit(options, lent, &faces);
            let name = format!("{}{name}", mesh.name);
            worst.add(pair, &name);
            println!("{name:38} {faults:8} {:7} {}", rows(lent), pair.line(rows(lent), options.verdict));
        }
    }
    println!("rows are faces and cells, Mr/s millions of them a second");
}

/// How the time for a byte grows from a family's smallest mesh to its largest.
fn growth(meshes: &[Mesh], measured: &[(Pair, Lent)]) {
    println!("\ntime per byte, largest mesh by smallest");
    for family in &FAMILIES {
        for (ordered, numbering) in [(true, "in order"), (false, "at random")] {
            let own = |(mesh, _): &(&Mesh, &(Pair, Lent))| mesh.family == family.name && mesh.ordered == ordered;
            let own: Vec<_> = meshes
                .iter()
                .zip(measured)
                .filter(own)
                .map(|(mesh, (pair, _))| (mesh.text.len() as f64, pair))
                .collect();
            let (Some((few, small)), Some((many, large))) = (own.first(), own.last()) else { continue };
            let grown = |small: Duration, large: Duration| large.as_secs_f64() / many / (small.as_secs_f64() / few);
            let (proved, plain) = (grown(small.proved, large.proved), grown(small.plain, large.plain));
            println!("{:38} proved {proved:.2}, plain {plain:.2}", format!("{}, {numbering}", family.name));
        }
    }
}
