//! The proved functions against a plain reader and audit, on inputs made from a seed: every number answered and every word of every lent slice must be equal.
//!
//! `RAVNEKET_INPUTS` sets the number of texts (100,000), `RAVNEKET_SEED` the seed (1), `RAVNEKET_CASE` runs one case alone.

mod generate;
mod plain;
mod shares;

use std::path::PathBuf;

use generate::lent::{first, pattern, sizes, Auditor, Lent, Sizes};
use generate::plan::{say, Plan};
use generate::{large, tables, Random};
use ravneket::raw;
use shares::{shared, summed};

const FILE_BYTES: usize = 8_388_608;
/// Rows of each kind that hold every small mesh.
const GENEROUS: usize = 80;
const ZONES: usize = 64;

/// Reads a text with both, into slices of the same sizes and pattern, and answers the plain one's.
fn both(text: &[u8], sizes: Sizes, number: u64, again: &dyn Fn() -> String) -> Lent {
    let mut proved = Lent::new(sizes, number);
    let mut plain = proved.clone();
    proved.read(text, raw::read);
    plain.read(text, plain::read);
    if proved != plain {
        let said = proved.difference(&plain);
        let shown = &text[..text.len().min(100_000)];
        panic!(
            "proved and plain differ\n{said}sizes {sizes:?}, pattern {number}\ninput b\"{}\"\n{}",
            shown.escape_ascii(),
            again()
        );
    }
    plain
}

/// Reads a text with all sorts of room; adds each answer to the tally.
fn all_rooms(random: &mut Random, text: &[u8], tally: &mut [u64], again: &dyn Fn() -> String) {
    let more = random.below(8);
    let rows = if random.once_in(2_000) { 65_535 } else { GENEROUS };
    let mut generous = sizes(rows, rows, rows, ZONES).map(|size| size + more);
    generous[5] = 7;
    let base = both(text, generous, random.word(), again);
    tally[base.number as usize] += 1;
    let mut also = |random: &mut Random, mut sizes: Sizes| {
        sizes[5] = random.pick(&[7, 7, 7, 0, 1, 2, 3, 4, 5, 6, 8, 9]);
        tally[both(text, sizes, random.word(), again).number as usize] += 1;
    };
    also(random, [0; 6]);
    if base.number != 0 {
        let sizes = generous.map(|size| random.below(size));
        return also(random, sizes);
    }
    let [nodes, faces, cells, zones] = [3, 4, 5, 6].map(|place| base.answer[place] as usize);
    let exact = sizes(nodes, faces, cells, zones);
    also(random, exact);
    let every = random.once_in(4);
    let one = random.below(5);
    for slice in (0..5).filter(|slice| every || *slice == one) {
        let mut short = exact;
        short[slice] = short[slice].saturating_sub(1);
        also(random, short);
    }
}

#[test]
fn texts() {
    let plan = Plan::new("texts", 1);
    let long = vec![b' '; FILE_BYTES + 9];
    let tallies = shared(|share, shares| {
        // The last place counts the inputs.
        let mut tally = [0; 19];
        for case in plan.cases.clone().skip(share).step_by(shares) {
            let mut random = Random::new(plan.seed, case);
            let again = || plan.again(case);
            tally[18] += 1;
            if case % 1_000 == 999 {
                let text = &long[..FILE_BYTES + random.between(1, 9)];
                all_rooms(&mut random, text, &mut tally, &again);
            } else {
                let text = generate::text(&mut random);
                all_rooms(&mut random, &text, &mut tally, &again);
            }
        }
        tally
    });
    let tally = summed(tallies);
    plan.tell(tally[18], "answers by number", &tally[..18], 0..=14);
}

#[test]
fn truncations() {
    let plan = Plan::new("truncations", 10_000);
    let mut tally = [0; 18];
    let mut inputs = 0;
    for case in plan.cases.clone() {
        let mut random = Random::new(plan.seed, case);
        let text = generate::good(&mut random);
        for end in 0..=text.len() {
            inputs += 1;
            all_rooms(&mut random, &text[..end], &mut tally, &|| plan.again(case));
        }
    }
    say(&format!("truncations: seed {}, {inputs} inputs, answers by number {tally:?}", plan.seed));
}

/// Audits with both, into slices of the same sizes and pattern: number, answer, counts, list.
fn both_audits(
    tables: &tables::Tables,
    list: usize,
    answer: usize,
    number: u64,
    again: &dyn Fn() -> String,
) -> (u32, Vec<u64>, Vec<u8>) {
    let run = |audit: Auditor| {
        let words = |size: usize| (0..size).map(|place| pattern(number, place));
        let mut counts: Vec<u32> = words(tables.counts).map(|word| word as u32).collect();
        let mut list: Vec<u8> = words(list).map(|word| word as u8).collect();
        let mut answer: Vec<u64> = words(answer).collect();
        let (faces, cells) = (&tables.face_rows, &tables.cell_rows);
        let (dimension, nodes) = (tables.dimension, tables.nodes);
        let number =
            audit(dimension, nodes, tables.faces, tables.cells, faces, cells, &mut counts, &mut list, &mut answer);
        (number, answer, counts, list)
    };
    let (proved, plain) = (run(raw::audit), run(plain::audit));
    if proved != plain {
        let said = first("counts", &proved.2, &plain.2) + &first("list", &proved.3, &plain.3);
        let input =
            format!("dimension {}, totals {} {} {}", tables.dimension, tables.nodes, tables.faces, tables.cells);
        let rows = format!("faces {:?}\ncells {:?}", tables.face_rows, tables.cell_rows);
        let answers = format!("proved {} {:?}, plain {} {:?}", proved.0, proved.1, plain.0, plain.1);
        let room = format!("counts {}, list {list}", tables.counts);
        panic!("proved and plain differ\n{answers}\n{said}{input}, {room}\n{rows}\n{}", again());
    }
    (plain.0, plain.1, plain.3)
}

/// Audits tables with all sorts of room; adds the answer and the kinds listed to the tallies.
fn all_lists(
    random: &mut Random,
    tables: &tables::Tables,
    numbers: &mut [u64],
    kinds: &mut [u64],
    again: &dyn Fn() -> String,
) {
    let room = 8 * tables.cell_rows.len() + 16 * tables.face_rows.len();
    let (number, answer, list) = both_audits(tables, room, 2, random.word(), again);
    numbers[number as usize] += 1;
    let needed = answer[1] as usize;
    let mut at = 0;
    while at < needed {
        kinds[list[at] as usize] += 1;
        at += [0, 3, 4, 4, 4, 3, 3, 3, 3, 6][list[at] as usize];
    }
    for list in [needed, needed.saturating_sub(1), random.below(21), random.below(needed + 1)] {
        let answer = random.pick(&[2, 2, 0, 1, 3, 4]);
        both_audits(tables, list, answer, random.word(), again);
    }
}

#[test]
fn audits() {
    let plan = Plan::new("audits", 2);
    let (mut numbers, mut kinds) = ([0; 18], [0; 10]);
    let mut inputs = 0;
    for case in plan.cases.clone() {
        let mut random = Random::new(plan.seed, case);
        let tables = tables::tables(&mut random);
        all_lists(&mut random, &tables, &mut numbers, &mut kinds, &|| plan.again(case));
        inputs += 1;
    }
    plan.tell(inputs, "answers by number", &numbers, 15..=17);
    plan.tell(inputs, "faults by kind", &kinds, 1..=9);
}

/// Reports with both, with room and without.
fn both_reports(random: &mut Random, text: &[u8], again: &dyn Fn() -> String) -> Vec<u8> {
    let mut room = 16_384;
    let mut said = Vec::new();
    for _ in 0..2 {
        let mut proved: Vec<u8> = (0..room).map(|place| pattern(room as u64 + 2, place) as u8).collect();
        let mut plain = proved.clone();
        let lengths = (raw::report(text, &mut proved), plain::report(text, &mut plain));
        if lengths.0 != lengths.1 || proved != plain {
            let (proved, plain) = (proved[..lengths.0].escape_ascii(), plain[..lengths.1].escape_ascii());
            panic!(
                "proved and plain differ\n{proved}\n{plain}\nroom {room}\ninput b\"{}\"\n{}",
                text.escape_ascii(),
                again()
            );
        }
        if said.is_empty() {
            said = plain[..lengths.1].to_vec();
        }
        room = random.below(said.len() + 3);
    }
    said
}

#[test]
fn reports() {
    let plan = Plan::new("reports", 10);
    let mut inputs = 0;
    let mut tally = [0; 3];
    for case in plan.cases.clone() {
        let mut random = Random::new(plan.seed, case);
        let mut text = generate::text(&mut random);
        if random.once_in(500) {
            text.resize(65_536, b' ');
        }
        let said = both_reports(&mut random, &text, &|| plan.again(case));
        tally[b"crf".iter().position(|first| *first == said[0]).expect("clean, refused or faults")] += 1;
        inputs += 1;
    }
    plan.tell(inputs, "clean, refused, with faults", &tally, 0..=2);
}

/// The folder with the cases of the repository.
fn folder() -> PathBuf {
    PathBuf::from(env!("CARGO_MANIFEST_DIR")).join("../crates/meshcases")
}

#[test]
fn files() {
    let mut random = Random::new(1, 0);
    let mut tally = [0; 18];
    let mut files = 0;
    for entry in std::fs::read_dir(folder().join("data")).expect("the cases are there") {
        let path = entry.expect("a folder can be read").path();
        let text = std::fs::read(&path).expect("a case can be read");
        let again = || path.display().to_string();
        for _ in 0..20 {
            all_rooms(&mut random, &text, &mut tally, &again);
        }
        both(&text, sizes(1_024, 1_024, 1_024, 64), 2, &again);
        both_reports(&mut random, &text, &again);
        files += 1;
    }
    say(&format!("files: {files} files, answers by number {tally:?}"));
    assert!(files >= 80);
}

/// Large files: a good one, which is also padded up to the longest and one byte over, and others of the greatest length.
#[test]
fn large() {
    let model = large::model();
    let totals = (model.points.len(), model.faces.len(), model.cells.len());
    let room = sizes(totals.0, totals.1, totals.2, 4);
    let mut text = large::text(&model, true);
    let again = || "cargo test --release --test differential large".to_string();
    let lent = both(&text, room, 2, &again);
    assert_eq!((lent.number, &lent.answer[2..]), (0, &[3, 65_535, 65_535, 65_535, 4][..]));
    let rows = tables::Tables {
        dimension: 3,
        nodes: 65_535,
        faces: 65_535,
        cells: 65_535,
        face_rows: lent.faces,
        cell_rows: lent.cells,
        counts: 65_535,
    };
    all_lists(&mut Random::new(1, 0), &rows, &mut [0; 18], &mut [0; 10], &again);
    text.resize(FILE_BYTES, b'\n');
    assert_eq!(both(&text, room, 3, &again).number, 0);
    for slice in 0..5 {
        let mut short = room;
        short[slice] -= 1;
        assert_eq!(both(&text, short, 2, &again).number, if slice < 4 { 7 } else { 11 });
    }
    text.push(b'\n');
    assert_eq!(both(&text, room, 3, &again).number, 1);
    for (text, number) in large::refused(FILE_BYTES) {
        assert_eq!(both(&text, sizes(9, 9, 9, 9), 3, &again).number, number);
    }
}

/// The plain side by itself says what the paper and the cases of the repository say.
#[test]
fn plain_alone() {
    let said = |text: &str| {
        let mut lent = Lent::new(sizes(9, 9, 9, 9), 0);
        lent.read(text.as_bytes(), plain::read);
        (lent.number, lent.answer[0], lent.answer[1])
    };
    for (text, answer) in [
        ("", (13, 0, 0)),
        ("x", (2, 0, 0)),
        ("(2 2", (2, 1, 4)),
        ("(2 4)", (9, 1, 3)),
        ("(2 2)(2 3)", (10, 2, 8)),
        ("(2010", (4, 1, 1)),
    ] {
        assert_eq!(said(text), answer, "{text}");
    }
    let names = std::fs::read_to_string(folder().join("args")).expect("the cases have names");
    let wanted = std::fs::read_to_string(folder().join("stdout")).expect("the cases have an output");
    let mut printed = String::new();
    for name in names.split_whitespace() {
        let text = std::fs::read(folder().join("data").join(name)).expect("a case can be read");
        let mut out = vec![0; 16_384];
        let length = plain::report(&text, &mut out);
        printed += &format!("{name}\n{}", String::from_utf8_lossy(&out[..length]));
    }
    assert_eq!(printed, wanted);
}
