//! The table of writing: what was read, written again.

use std::hint::black_box;

use crate::generate::given::{Given, Writer};
use crate::generate::lent::Lent;
use crate::measure::{in_turn, Pair, Worst};
use crate::{plain, rows, Mesh, Options};
use ravneket::raw;

/// What a writer is given and what it leaves.
struct Written {
    given: Given,
    text: Vec<u8>,
    answer: [u64; 1],
}

impl Written {
    fn run(&mut self, writer: Writer) {
        let number = black_box(&self.given).write(writer, black_box(&mut self.text), &mut self.answer);
        assert_eq!(number, 0, "what was read can be written");
    }
}

/// Times both writers on tables; their texts are equal. Answers the length too.
fn write(options: &Options, lent: &Lent) -> (Pair, usize) {
    let given = Given::left(lent);
    let text = vec![0; given.room().min(8_388_608)];
    let mut written = Written { given, text, answer: [0] };
    written.run(raw::write);
    let left = (written.text.clone(), written.answer);
    written.text.fill(0);
    written.run(plain::write);
    assert!(left == (written.text.clone(), written.answer), "proved and plain differ");
    let length = written.answer[0] as usize;
    // With no byte to spare, as a caller may lend it.
    written.text.truncate(length);
    let repeats = (if options.quick { 200_000 } else { 1_000_000 } / length).max(1) as u32;
    let clear = |written: &mut Written| written.text.fill(0);
    let call = |writer: Writer| move |written: &mut Written| written.run(writer);
    (in_turn(options.runs, repeats, &mut written, clear, &call(raw::write), &call(plain::write)), length)
}

/// The table of writing, mesh by mesh.
pub fn writes(options: &Options, meshes: &[Mesh], measured: &[(Pair, Lent)], worst: &mut Worst) {
    println!(
        "\n{:38} {:>8} {:>7} {:>12} {:>11} {:>6}  span",
        "write", "bytes", "rows", "proved MB/s", "plain MB/s", "ratio"
    );
    for (mesh, (_, lent)) in meshes.iter().zip(measured) {
        let (pair, length) = write(options, lent);
        worst.add(pair, &mesh.name);
        let all = rows(lent) + lent.answer[3] as usize;
        println!("{:38} {length:8} {all:7} {}", mesh.name, pair.line(length, options.verdict));
    }
}
