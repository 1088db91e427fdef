//! A text or a call for every refusal of the reader and the audit, 1 to 17: number, section, offset, line, column, the words for people and what is marked.

use ravneket::{audit_tables, raw, Lines, Mesh, Place, Refusal, RefusalKind, Tables, MAX_BYTES};

const NODES: &str = "(10 (1 1 3 1 2)(0 0 1 0 0 1))";
const CELLS: &str = "(12 (2 1 1 1 1))";
const FACES: &str = "(13 (3 1 3 3 2)(1 2 0 1 2 3 0 1 3 1 0 1))";
const TOTALS: &str = "(2 2)(10 (0 1 3 0 2))(12 (0 1 1 0))(13 (0 1 3 0))";

fn triangle() -> String {
    format!("{TOTALS}\n{NODES}{CELLS}\n{FACES}\n")
}

/// The triangle with one thing changed, which stands in it once.
fn changed(from: &str, to: &str) -> String {
    let text = triangle();
    assert_eq!(text.matches(from).count(), 1, "{from}");
    text.replace(from, to)
}

fn refused(text: impl AsRef<[u8]>) -> Refusal {
    Mesh::read(text.as_ref()).expect_err("the text is refused")
}

/// What a refusal is to be.
struct Due {
    number: u8,
    section: u32,
    offset: u64,
    line: usize,
    column: usize,
    message: &'static str,
    mend: &'static str,
    /// The word that is marked.
    word: &'static str,
}

fn check(text: impl AsRef<[u8]>, due: Due) {
    let text = text.as_ref();
    let refusal = refused(text);
    assert_eq!((refusal.kind.number(), refusal.section, refusal.offset), (due.number, due.section, due.offset));
    assert_eq!(refusal.place(text), Place { line: due.line, column: due.column });
    assert_eq!(refusal.explain(text), due.message);
    assert!(refusal.advice(text).contains(due.mend), "{}", refusal.advice(text));
    assert_eq!(&text[refusal.word(text)], due.word.as_bytes());
    let marks = Lines::new(text).snippet(refusal.word(text)).marks;
    assert_eq!(marks.trim_start().chars().count(), due.word.chars().count().max(1));
}

#[test]
fn the_triangle_itself_is_taken() {
    assert_eq!(Mesh::read(triangle().as_bytes()).unwrap().audit().total, 0);
}

#[test]
fn r01_too_long() {
    // Spaces only: with one byte less the reader looks at them.
    let long = vec![b' '; MAX_BYTES + 1];
    let message = "the file is over 8388608 bytes";
    check(
        &long,
        Due { number: 1, section: 0, offset: 0, line: 1, column: 1, message, mend: "split the mesh", word: "" },
    );
    let most = refused(&long[1..]);
    assert_eq!((most.kind, most.offset), (RefusalKind::Missing, MAX_BYTES as u64));
}

#[test]
fn r02_grammar() {
    let message = "`)` stands here, but face 3 has 3 of its 4 words";
    let mend = "count the words of each row";
    let text = changed("3 1 0 1))", "3 1 1))");
    check(text, Due { number: 2, section: 7, offset: 133, line: 3, column: 38, message, mend, word: ")" });
    let message = "the file breaks off here: section 2 is `(2 2)` or `(2 3)`";
    check("(2 2", Due { number: 2, section: 1, offset: 4, line: 1, column: 5, message, mend: "cut off", word: "" });
    let message = "`x` stands here, outside any section";
    check("x", Due { number: 2, section: 0, offset: 0, line: 1, column: 1, message, mend: "comment", word: "x" });
    let message = "this string is never closed";
    check(
        "(0 \"é)",
        Due { number: 2, section: 1, offset: 3, line: 1, column: 4, message, mend: "quote", word: "\"é)" },
    );
    let message = "`)` stands here, outside any section";
    check("(2 2))", Due { number: 2, section: 1, offset: 5, line: 1, column: 6, message, mend: "too many", word: ")" });
}

#[test]
fn r02_grammar_of_headers_and_bodies() {
    let cases = [
        (changed("(0 1 3 0 2))", "(0 1 3 0 2)())"), "`(` stands here, but a declaration has no body"),
        (
            changed(CELLS, "(12 (2 1 1 1 1)(1))"),
            "`(` stands here, but a declaration and cells all of one element have no body",
        ),
        (
            changed(CELLS, "(12 (2 1 1 1))"),
            "`)` stands here, but a header of cells is `(zone first last type element)`",
        ),
        (changed("(0 0 1 0 0 1)", ""), "`)` stands here, but a body of nodes in parentheses is due"),
        (changed("0 0 1 0 0 1", "0 0 1 0 0"), "`)` stands here, but node 3 has 1 of its 2 words"),
        (changed("0 0 1 0 0 1", "0 0 1 0"), "`)` stands here, but node 3 is due"),
        (changed("3 1 0 1))", "3 1 0 1 0))"), "`0` stands here, but the rows ended with face 3"),
        (changed(CELLS, "(12 (2 1 1 1 0)())"), "`)` stands here, but cell 1 is due"),
        ("((2 2))".to_string(), "`(` stands here, but a section id is due"),
        ("(0 (a)".to_string(), "the file breaks off here, where something else is due"),
    ];
    for (text, message) in cases {
        let refusal = refused(&text);
        assert_eq!((refusal.kind, refusal.explain(text.as_bytes())), (RefusalKind::Grammar, message.to_string()));
    }
}

#[test]
fn r03_number() {
    let message = "`nan` is not a coordinate (a decimal number, at most 18 digits, no more than 64 bytes)";
    let text = changed("0 0 1 0 0 1", "0 0 1 0 nan 1");
    check(text, Due { number: 3, section: 5, offset: 74, line: 2, column: 25, message, mend: "locale", word: "nan" });
    let message = "`0x1` is not a hexadecimal number of 1 to 8 digits";
    let text = changed("3 1 0 1))", "3 1 0 0x1))");
    check(text, Due { number: 3, section: 7, offset: 134, line: 3, column: 39, message, mend: "%x", word: "0x1" });
    let message = "`a` is not a section id (1 to 5 decimal digits)";
    check(
        "(2 2)\r(a)",
        Due { number: 3, section: 2, offset: 7, line: 2, column: 2, message, mend: "decimal", word: "a" },
    );
}

#[test]
fn r04_binary() {
    let text = changed("(10 (1 1", "(3010 (1 1");
    let message = "section id `3010` stands for a binary body";
    check(text, Due { number: 4, section: 5, offset: 51, line: 2, column: 2, message, mend: "ASCII", word: "3010" });
}

#[test]
fn r05_undeclared() {
    let message = "nodes stand before their declaration `(10 (0 1 ...))`";
    let text = format!("(2 2)\n{NODES}\n{TOTALS}");
    check(text, Due { number: 5, section: 2, offset: 11, line: 2, column: 6, message, mend: "once each", word: "1" });
    let message = "faces are declared a second time";
    let text = format!("{TOTALS}(13 (0 1 3 0))");
    check(text, Due { number: 5, section: 5, offset: 54, line: 1, column: 55, message, mend: "once each", word: "0" });
}

#[test]
fn r06_range() {
    let message = "first is 0, but nodes count from 1";
    let text = changed("(1 1 3 1 2)", "(1 0 2 1 2)");
    check(text, Due { number: 6, section: 5, offset: 57, line: 2, column: 8, message, mend: "from 1", word: "0" });
    let cases = [
        (changed("(1 1 3 1 2)", "(1 1 10 1 2)"), "last is 16 (hex 10), but 3 nodes are declared"),
        (changed("(3 1 3 3 2)", "(3 3 2 3 2)"), "last, 2, is below first, 3"),
        (changed("(1 1 3 1 2)", "(1 4 4 1 2)"), "last is 4, but 3 nodes are declared"),
        (changed("(2 1 1 1 1)", "(10000 1 1 1 1)"), "zone id 65536 (hex 10000) is above 65535 (hex ffff)"),
        ("(13 (0 1 10000 0))".to_string(), "65536 (hex 10000) faces are declared, at most 65535 (hex ffff) are taken"),
        ("(12 (0 0 3 0))".to_string(), "a declaration of cells has first 0, not 1"),
    ];
    for (text, message) in cases {
        let refusal = refused(&text);
        assert_eq!((refusal.kind, refusal.explain(text.as_bytes())), (RefusalKind::Range, message.to_string()));
    }
}

#[test]
fn r07_table_room_with_tables_lent_short() {
    let text = triangle();
    let (mut m, mut e, mut f, mut c, mut z) = (vec![7; 6], vec![7; 9], vec![7; 24], vec![7; 2], vec![7; 18]);
    let mut answer = [7; raw::READ_WORDS];
    let number = raw::read(text.as_bytes(), &mut m, &mut e, &mut f, &mut c, &mut z, &mut answer);
    assert_eq!((number, answer), (7, [2, 12, 0, 0, 0, 0, 0]));
    assert!(m.iter().all(|&word| word == 7) && f.iter().chain(&c).chain(&z).all(|&word| word == 7));
    let refusal = Refusal { kind: RefusalKind::from_number(number).unwrap(), section: 2, offset: 12 };
    assert_eq!(refusal.place(text.as_bytes()), Place { line: 1, column: 13 });
    let due = "refused 7 (TableRoom): the declared total is more than there is room for; section 2, byte offset 12";
    assert_eq!(refusal.to_string(), due);
}

#[test]
fn r08_overlap() {
    let text = changed(FACES, "(13 (3 1 2 3 2)(1 2 0 1 2 3 0 1))\n(13 (4 2 3 a 2)(2 3 0 1 3 1 0 1))");
    let message = "face 2 is in section 7 of the file too, zone 3";
    check(text, Due { number: 8, section: 8, offset: 137, line: 4, column: 8, message, mend: "one behind", word: "2" });
}

#[test]
fn r09_type() {
    let text = changed("(3 1 3 3 2)", "(3 1 3 36 2)");
    let message = "`36`, decimal 54, is not a listed face type";
    check(
        text,
        Due { number: 9, section: 7, offset: 107, line: 3, column: 12, message, mend: "hexadecimal", word: "36" },
    );
    let cases = [
        ("(2 4)".to_string(), "`4` is not a listed dimension (2 or 3)"),
        (changed("(2 1 1 1 1)", "(2 1 1 1 7)"), "`7` is not a listed cell element"),
        (changed("(2 1 1 1 1)", "(2 1 1 1 0)(7)"), "`7` is not a listed element of a cell (1 to 6)"),
        (
            changed("(3 1 3 3 2)(1 2 0 1", "(3 1 3 3 0)(5 1 2 0 1"),
            "`5` is not a listed number of nodes of a face (2, 3 or 4)",
        ),
        (changed("(1 1 3 1 2)", "(1 1 3 3 2)"), "`3` is not a listed node type"),
    ];
    for (text, message) in cases {
        let refusal = refused(&text);
        assert_eq!((refusal.kind, refusal.explain(text.as_bytes())), (RefusalKind::Type, message.to_string()));
    }
}

#[test]
fn r10_dimension() {
    let message = "dimension `3` disagrees with an earlier one";
    let text = "(2 2)(2 3)";
    check(
        text,
        Due { number: 10, section: 2, offset: 8, line: 1, column: 9, message, mend: "(2 2) or (2 3)", word: "3" },
    );
    let message = "no dimension is known at this node section";
    let text = "(10 (0 1 1 0))\r\n(10 (1 1 1 1)(0 0))";
    check(text, Due { number: 10, section: 2, offset: 28, line: 2, column: 13, message, mend: "(2 2)", word: ")" });
    let message = "the file ends and no dimension was given";
    let text = "(10 (0 1 0 0))(13 (0 1 0 0))\n";
    check(text, Due { number: 10, section: 2, offset: 29, line: 2, column: 1, message, mend: "(2 2)", word: "" });
}

#[test]
fn r11_zone_room() {
    let mut text = "(2 2)(10 (0 1 41 0))(13 (0 1 0 0))\n".to_string();
    for node in 1..=65 {
        text += &format!("(10 (1 {node:x} {node:x} 1)(0 0))\n");
    }
    let message = "more than 64 regular sections";
    check(
        &text,
        Due { number: 11, section: 68, offset: 1418, line: 66, column: 6, message, mend: "join zones", word: "1" },
    );
}

#[test]
fn r12_depth() {
    let text = format!("(0 {}{})", "(".repeat(64), ")".repeat(64));
    let message = "parentheses more than 64 deep";
    check(text, Due { number: 12, section: 1, offset: 66, line: 1, column: 67, message, mend: "quotes", word: "(" });
}

#[test]
fn r13_missing() {
    let message = "the file ends, and faces `(13 (0 1 ...))` are never declared";
    let text = "(2 2)(10 (0 1 3 0 2))\n(10 (1 1 3 1 2)(0 0 1 0 0 1))\n";
    check(text, Due { number: 13, section: 3, offset: 52, line: 3, column: 1, message, mend: "total 0", word: "" });
    let message = "the file is empty";
    check(
        "",
        Due { number: 13, section: 0, offset: 0, line: 1, column: 1, message, mend: "nothing has reached", word: "" },
    );
    assert!(refused("(2 2)(13 (0 1 0 0))").explain(b"(2 2)(13 (0 1 0 0))").contains("nodes `(10"));
}

#[test]
fn r14_untiled() {
    let text = changed(FACES, "(13 (3 1 2 3 2)(1 2 0 1 2 3 0 1))");
    let message = "in no section: face 3";
    check(text, Due { number: 14, section: 7, offset: 130, line: 4, column: 1, message, mend: "every zone", word: "" });
    let text = "(2 2)(10 (0 1 1f 0))(13 (0 1 0 0))(10 (1 1c 1e 1)(0 0 0 0 0 0))(10 (1 1 2 1)(0 0 0 0))";
    assert_eq!(refused(text).explain(text.as_bytes()), "in no section: nodes 3 to 27 (hex 3 to 1b)");
    let text = "(2 2)(10 (0 1 3 0))(12 (0 1 c 0))(13 (0 1 0 0))(10 (1 3 3 1)(0 0))(10 (1 1 1 1)(0 0))(12 (1 1 2 1 1))";
    let message = "in no section: node 2; cells 3 to 12 (hex 3 to c)";
    assert_eq!(refused(text).explain(text.as_bytes()), message);
}

#[test]
fn r15_to_r17_of_the_audit() {
    let rows = [2, 1, 2, 0, 0, 0, 1, 3];
    let good = Tables { dimension: 2, nodes: 2, faces: 1, cells: 1, face_rows: &rows, cell_rows: &[1, 1] };
    let refused = |tables: Tables, counts: usize| {
        let mut counts = vec![7; counts];
        let refusal = audit_tables(&tables, &mut counts).unwrap_err();
        assert!(counts.iter().all(|&count| count == 7));
        assert_eq!((refusal.section, refusal.offset), (0, 0));
        refusal
    };
    let flat = refused(Tables { dimension: 4, ..good }, 1);
    assert_eq!(
        flat.to_string(),
        "refused 15 (AuditDimension): the audit was called with a dimension other than 2 and 3"
    );
    assert_eq!(refused(Tables { faces: 2, ..good }, 1).kind.number(), 16);
    assert_eq!(refused(Tables { nodes: 65536, ..good }, 1).kind.number(), 16);
    assert_eq!(refused(good, 0).kind.number(), 17);
    let mut counts = [7, 7];
    assert_eq!(audit_tables(&good, &mut counts).unwrap().len(), 1);
    assert_eq!(counts, [1, 7]);
}

#[test]
fn refusals_are_errors_with_a_text() {
    let error: Box<dyn std::error::Error> = Box::new(refused("x"));
    let due = "refused 2 (Grammar): a token of the wrong sort stands here; section 0, byte offset 0";
    assert_eq!(error.to_string(), due);
    let every: Vec<u8> = RefusalKind::all().map(RefusalKind::number).collect();
    assert_eq!(every, (1..=19).collect::<Vec<u8>>());
}
