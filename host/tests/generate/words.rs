//! Words of a file, in every way they may be written, and in ways they may not.

use super::Random;

pub type Token = Vec<u8>;

pub fn word(text: &str) -> Token {
    text.as_bytes().to_vec()
}

/// A number in hexadecimal: either case, sometimes with leading zeros.
pub fn hexadecimal(random: &mut Random, value: u32) -> Token {
    let digits = match random.below(8) {
        0 => format!("{value:08x}"),
        1 => format!("{value:03X}"),
        2 => format!("{value:X}"),
        _ => format!("{value:x}"),
    };
    digits.into_bytes()
}

/// A section's id: sometimes with leading zeros.
pub fn id(random: &mut Random, id: u32) -> Token {
    let digits = match random.below(10) {
        0 => format!("{id:05}"),
        1 => format!("{id:03}"),
        _ => id.to_string(),
    };
    digits.into_bytes()
}

/// A coordinate that is accepted.
pub fn coordinate(random: &mut Random) -> Token {
    match random.below(6) {
        0 => word(random.pick(&[
            "0",
            "1",
            "-0.0",
            ".5",
            "5.",
            "1e400",
            "1e-400",
            "0e999",
            "+.0E-999",
            "-1.50000000e-01",
        ])),
        1 => zero(random),
        2 => format!("{:.*e}", random.below(17), random.word() as i64 as f64 / 1e18).into_bytes(),
        _ => decimal(random, false),
    }
}

/// One of the words of a list.
fn one_of(random: &mut Random, list: &str) -> Token {
    let words: Vec<&str> = list.split(' ').collect();
    word(random.pick(&words))
}

/// Words that are no coordinates.
const NO_COORDINATES: &str = ". 1e 1e1000 0e1000 nan inf - + e5 .e5 1.2.3 --1 +-1 1e+ 1e- 1ee1 0x1 1f 1_0 1,5 1e5. \
    10e400 -10e400 1e-401 0.1e-400 1e401";

/// A coordinate near its limits: accepted or not.
pub fn coordinate_at_limits(random: &mut Random) -> Token {
    match random.below(4) {
        0 => one_of(random, NO_COORDINATES),
        1 => long(random),
        _ => decimal(random, true),
    }
}

fn zero(random: &mut Random) -> Token {
    let mut text = random.pick(&["", "-", "+"]).to_string();
    text += &"0".repeat(random.between(1, 30));
    if random.once_in(2) {
        text.push('.');
        text += &"0".repeat(random.below(20));
    }
    if random.once_in(2) {
        text += &format!("e{}{}", random.pick(&["", "-", "+"]), random.below(1000));
    }
    text.into_bytes()
}

/// Words of 63 to 66 bytes: zeros before a short number, or behind one with a point.
fn long(random: &mut Random) -> Token {
    let sign = random.pick(&["", "-", "+"]);
    let width = random.between(63, 66) - sign.len();
    if random.once_in(3) {
        let start = random.pick(&["1.", "12.5", "0.", ".25", "123456789012345678."]);
        return format!("{sign}{start:0<width$}").into_bytes();
    }
    let end = random.pick(&["1", ".5", "1.0", "0", "123456789012345678", "25e-3", "1e400", "0e999"]);
    format!("{sign}{end:0>width$}").into_bytes()
}

/// A decimal with 1 to 18 digits and an exponent within its limits; with `beyond`, sometimes one more of each.
fn decimal(random: &mut Random, beyond: bool) -> Token {
    let most = 18 + usize::from(beyond && random.once_in(2));
    let count = random.pick(&[1, 2, 3, 8, 17, most, most]).min(random.between(1, 2 * most));
    let mut digits: Vec<u8> = (0..count).map(|_| b'0' + random.below(10) as u8).collect();
    for end in [0, count - 1] {
        digits[end] = b'1' + random.below(9) as u8;
    }
    let (before, behind) = (random.pick(&[0, 0, 0, 1, 5]), random.pick(&[0, 0, 1, 3, 12]));
    let mut text = vec![b'0'; before];
    text.append(&mut digits);
    text.extend(vec![b'0'; behind]);
    let mut kept = behind as i32;
    if random.once_in(2) {
        let point = random.below(text.len() + 1);
        kept -= (text.len() - point) as i32;
        text.insert(point, b'.');
    }
    let farthest = 400 + i32::from(beyond && random.once_in(2));
    let inside = random.between(0, 800) as i32 - 400;
    let wanted = random.pick(&[farthest, -farthest, 0, inside]);
    if random.once_in(2) {
        text.push(random.pick(b"eE"));
        let exponent = wanted - kept;
        let sign = if exponent < 0 { "-" } else { random.pick(&["", "+"]) };
        let size = exponent.abs();
        text.extend(if random.once_in(4) { format!("{sign}{size:03}") } else { format!("{sign}{size}") }.into_bytes());
    }
    if random.once_in(3) {
        text.insert(0, random.pick(b"+-"));
    }
    text
}

/// Words at the limits of types, elements, totals and digits.
const LIMITS: &str =
    "0 1 2 3 4 5 6 7 8 9 a b c d e f 13 14 15 17 18 19 1e 1f 20 21 23 24 25 26 32 ffff 10000 FFFFFFFF \
    100000000 00000001 000000001 3e8 3ea 3EB 3ec 407 40c 40d 40e 7d2 fffffffff g";

/// A word at a limit, or of another sort.
pub fn limit(random: &mut Random) -> Token {
    match random.below(8) {
        0 => coordinate_at_limits(random),
        1 => strange(random),
        _ => one_of(random, LIMITS),
    }
}

/// Something that is no number, or no word.
pub fn strange(random: &mut Random) -> Token {
    const STRANGE: [&[u8]; 18] = [
        b"(", b")", b"()", b"\"\"", b"\"()\"", b"\"", b"x", b"0x1", b"-1", b"+1", b"1\"2\"", b"\x0c", b"\x00", b"\xff",
        b"1.0", b"1g", b"\"a\"b", b"'",
    ];
    random.pick(&STRANGE).to_vec()
}
