//! The proved writer against a plain one, on tables made from a seed: number, length and every byte of the lent text must be equal. What is written is read back by the proved reader and by the plain one.
//!
//! `RAVNEKET_INPUTS`, `RAVNEKET_SEED` and `RAVNEKET_CASE` serve as in `differential`.

mod generate;
mod plain;
mod shares;

use generate::given::{self, Given, Writer};
use generate::lent::{first, pattern, sizes, Lent};
use generate::plan::{say, Plan};
use generate::spoil::{spoil, Row, HARMLESS, SORTS};
use generate::Random;
use ravneket::{raw, write_tables, Culprit, Unwritten};
use shares::{shared, summed};
use std::path::PathBuf;

/// Writes with both, into bytes of the same number and pattern: the answer's number, its words, the text.
fn both(
    given: &Given,
    room: usize,
    answer: usize,
    number: u64,
    again: &dyn Fn() -> String,
) -> (u32, Vec<u64>, Vec<u8>) {
    let lent: Vec<u8> = (0..room).map(|place| pattern(number, place) as u8).collect();
    let run = |writer: Writer| {
        let mut text = lent.clone();
        let mut answer: Vec<u64> = (0..answer).map(|place| pattern(number, place)).collect();
        (given.write(writer, &mut text, &mut answer), answer, text)
    };
    let (proved, plain) = (run(raw::write), run(plain::write));
    if proved != plain {
        let answers = format!("proved {} {:?}, plain {} {:?}", proved.0, proved.1, plain.0, plain.1);
        let said = first("text", &proved.2, &plain.2);
        panic!("proved and plain differ\n{answers}\n{said}room {room}\n{given:?}\n{}", again());
    }
    let length = if plain.0 == 0 { plain.1.first().map_or(room, |&length| length as usize) } else { 0 };
    assert!(plain.2[length..] == lent[length..], "bytes behind the text were changed\n{given:?}\n{}", again());
    plain
}

/// Writes with all sorts of room, adds each number to the tally, and answers the text or the number of the refusal.
fn all_rooms(
    random: &mut Random,
    given: &Given,
    tally: &mut [u64; 20],
    again: &dyn Fn() -> String,
) -> Result<Vec<u8>, u32> {
    // Totals that are refused may be of any size.
    let generous = given.room().min(12_000) + random.below(8);
    let (number, answer, mut text) = both(given, generous, 1, random.word(), again);
    tally[number as usize] += 1;
    let length = answer[0] as usize;
    text.truncate(length);
    let rooms = match number {
        0 => [length, length - 1, 0, random.below(length)],
        _ => [0, 1, random.below(40), random.below(1_000)],
    };
    for room in rooms {
        let words = random.pick(&[1, 1, 0, 2, 3]);
        let (other, answer, _) = both(given, room, words, random.word(), again);
        tally[other as usize] += 1;
        let due = if number == 0 && room < length { 19 } else { number };
        assert_eq!((other, answer.first()), (due, [length as u64 * u64::from(due == 0)][..words.min(1)].first()));
    }
    if number == 0 {
        Ok(text)
    } else {
        Err(number)
    }
}

/// Both readers get these tables from their text.
fn check_back(given: &Given, text: &[u8], again: &dyn Fn() -> String) {
    let due = given.clone().cut();
    assert!(due.read_back(text, raw::read) == due, "the proved reader gets other tables\n{}", again());
    assert!(due.read_back(text, plain::read) == due, "the plain reader gets other tables\n{}", again());
}

/// Somebody is to blame, and where one row alone was changed it is that row.
fn check_blame(given: &Given, row: Option<Row>, again: &dyn Fn() -> String) {
    let Err(Unwritten::Unwritable(Some(blame))) = write_tables(&given.tables()) else {
        panic!("nobody is to blame\n{given:?}\n{}", again())
    };
    let due = row.map(|(section, index)| match section {
        10 => Culprit::Node(index),
        12 => Culprit::Cell(index),
        _ => Culprit::Face(index),
    });
    assert_eq!(blame.culprit, due.unwrap_or(blame.culprit), "{}\n{given:?}\n{}", blame.message, again());
}

/// Numbers answered, and for each sort of change that came alone how often it was refused and how often not.
type Tally = ([u64; 20], [u64; SORTS], [u64; SORTS]);

fn one_case(random: &mut Random, tally: &mut Tally, again: &dyn Fn() -> String) {
    let mut given = given::tables(random);
    let changes = random.pick(&[0, 0, 1, 1, 1, 2]);
    let (mut last, mut row) = (0, None);
    for _ in 0..changes {
        // Some tables have nothing of a sort.
        (last, row) = loop {
            let sort = random.below(SORTS);
            if let Some(row) = spoil(random, &mut given, sort) {
                break (sort, row);
            }
        };
    }
    match all_rooms(random, &given, &mut tally.0, again) {
        Ok(text) => {
            check_back(&given, &text, again);
            assert!(write_tables(&given.tables()) == Ok(text), "the crate writes another text\n{}", again());
            tally.2[last] += u64::from(changes == 1);
        }
        Err(number) => {
            assert!(number == 18 && changes > 0, "good tables were refused\n{given:?}\n{}", again());
            check_blame(&given, row.filter(|_| changes == 1), again);
            tally.1[last] += u64::from(changes == 1);
        }
    }
}

#[test]
fn tables() {
    let plan = Plan::of("differential_write", "tables", 4);
    let tallies = shared(|share, shares| {
        let mut tally = ([0; 20], [0; SORTS], [0; SORTS]);
        let mut inputs = 0;
        for case in plan.cases.clone().skip(share).step_by(shares) {
            one_case(&mut Random::new(plan.seed, case), &mut tally, &|| plan.again(case));
            inputs += 1;
        }
        (tally, inputs)
    });
    let inputs = tallies.iter().map(|share| share.1).sum();
    let numbers = summed(tallies.iter().map(|share| share.0 .0));
    let refused = summed(tallies.iter().map(|share| share.0 .1));
    let taken = summed(tallies.iter().map(|share| share.0 .2));
    assert!(numbers[1..18].iter().all(|&number| number == 0), "{numbers:?}");
    plan.tell(inputs, "answers by number", &numbers, 18..=19);
    plan.tell(inputs, "refused by sort of change", &refused, 0..=HARMLESS.start - 1);
    plan.tell(inputs, "taken by sort of change", &taken, HARMLESS.start..=SORTS - 1);
    assert!(refused[HARMLESS].iter().all(|&number| number == 0), "{refused:?}");
    assert!(numbers[0] >= inputs / 2, "{numbers:?}");
}

/// What reading leaves can be written, and the text gives it back.
fn check_accepted(text: &[u8], random: &mut Random, again: &dyn Fn() -> String) -> bool {
    let mut lent = Lent::new(sizes(1_024, 1_024, 1_024, 64), 2);
    lent.read(text, raw::read);
    if lent.number != 0 {
        return false;
    }
    let given = Given::left(&lent);
    let written = all_rooms(random, &given, &mut [0; 20], again);
    let written = written.unwrap_or_else(|number| panic!("what was read is refused with {number}\n{}", again()));
    check_back(&given, &written, again);
    true
}

#[test]
fn texts() {
    let plan = Plan::of("differential_write", "texts", 4);
    let tallies = shared(|share, shares| {
        let mut tally = [0; 2];
        for case in plan.cases.clone().skip(share).step_by(shares) {
            let mut random = Random::new(plan.seed, case);
            let text = generate::text(&mut random);
            tally[usize::from(check_accepted(&text, &mut random, &|| plan.again(case)))] += 1;
        }
        tally
    });
    let tally = summed(tallies);
    plan.tell(tally[0] + tally[1], "refused, accepted and written", &tally, 0..=1);
    assert!(tally[1] >= tally[0] / 8, "{tally:?}");
}

#[test]
fn files() {
    let folder = PathBuf::from(env!("CARGO_MANIFEST_DIR")).join("../crates/meshcases/data");
    let mut written = 0;
    for entry in std::fs::read_dir(folder).expect("the cases are there") {
        let path = entry.expect("a folder can be read").path();
        let text = std::fs::read(&path).expect("a case can be read");
        written += usize::from(check_accepted(&text, &mut Random::new(1, 0), &|| path.display().to_string()));
    }
    say(&format!("files: {written} files written"));
    assert!(written >= 20);
}
