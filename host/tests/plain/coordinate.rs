//! Coordinates: exact decimals, a mantissa and an exponent of ten.

use super::scan::{ends_word, Scan, Step};

const WORD_BYTES: usize = 64;
const SIGNIFICANT: usize = 18;
const FARTHEST: i32 = 400;
/// Up to this written exponent the kept one is within its limits, since the word has 64 bytes at most.
const HARMLESS: i32 = 300;

const POWERS: [u64; 20] = powers();

const fn powers() -> [u64; 20] {
    let mut powers = [1; 20];
    let mut place = 1;
    while place < 20 {
        powers[place] = powers[place - 1] * 10;
        place += 1;
    }
    powers
}

/// A word taken apart: `value` is that of all its digits, exact if these are 19 at most.
struct Parts<'a> {
    negative: bool,
    whole: &'a [u8],
    fraction: &'a [u8],
    value: u64,
    exponent: i32,
    length: usize,
}

impl Scan<'_> {
    /// Judges a coordinate and steps over it.
    #[inline]
    pub fn coordinate(&mut self) -> Step<()> {
        let (rest, start) = self.rest();
        match apart(rest) {
            Some(parts) if ends_word(rest.get(parts.length)) && parts.good() => {
                self.skip(parts.length);
                Ok(())
            }
            _ => self.no_number(start),
        }
    }

    /// The next coordinate of a body that is known to be good.
    #[inline]
    pub fn known_coordinate(&mut self) -> (i64, i32) {
        let (rest, _) = self.rest();
        let Some(parts) = apart(rest) else { return (0, 0) };
        self.skip(parts.length);
        let (value, exponent) = parts.kept();
        let mantissa = value as i64;
        (if parts.negative { -mantissa } else { mantissa }, exponent)
    }
}

/// Takes apart the longest start of `bytes` that has a coordinate's shape; none if there is none.
#[inline]
fn apart(bytes: &[u8]) -> Option<Parts<'_>> {
    let (negative, mut at) = sign(bytes);
    let from = at;
    let (mut value, digits) = decimal(0, &bytes[at..]);
    at += digits;
    let whole = &bytes[from..at];
    let mut fraction: &[u8] = &[];
    if bytes.get(at) == Some(&b'.') {
        let digits;
        (value, digits) = decimal(value, &bytes[at + 1..]);
        fraction = &bytes[at + 1..at + 1 + digits];
        at += 1 + digits;
    }
    if whole.len() + fraction.len() == 0 {
        return None;
    }
    let mut exponent = 0;
    if let Some(b'e' | b'E') = bytes.get(at) {
        let (below, signs) = sign(&bytes[at + 1..]);
        at += 1 + signs;
        let (size, digits) = decimal(0, &bytes[at..]);
        if !(1..=3).contains(&digits) {
            return None;
        }
        at += digits;
        exponent = if below { -(size as i32) } else { size as i32 };
    }
    Some(Parts { negative, whole, fraction, value, exponent, length: at })
}

/// Whether a minus stands at the start, and how many bytes the sign takes.
#[inline(always)]
fn sign(bytes: &[u8]) -> (bool, usize) {
    match bytes.first() {
        Some(b'-') => (true, 1),
        Some(b'+') => (false, 1),
        _ => (false, 0),
    }
}

/// The decimal digits that `bytes` begins with, behind those of `value`: the value of all, and the number of these.
#[inline(always)]
fn decimal(mut value: u64, bytes: &[u8]) -> (u64, usize) {
    for (count, byte) in bytes.iter().enumerate() {
        let digit = byte.wrapping_sub(b'0');
        if digit > 9 {
            return (value, count);
        }
        value = value.wrapping_mul(10).wrapping_add(digit.into());
    }
    (value, bytes.len())
}

/// How many zeros `digits` ends with.
#[inline(always)]
fn zeros(digits: &[u8]) -> usize {
    digits.iter().rev().take_while(|&&digit| digit == b'0').count()
}

impl Parts<'_> {
    #[inline(always)]
    fn digits(&self) -> usize {
        self.whole.len() + self.fraction.len()
    }

    /// How many zeros its digits end with, the point aside.
    #[inline(always)]
    fn trailing(&self) -> usize {
        let trailing = zeros(self.fraction);
        if trailing == self.fraction.len() {
            trailing + zeros(self.whole)
        } else {
            trailing
        }
    }

    /// Whether length, digits and exponent are within their limits.
    #[inline(always)]
    fn good(&self) -> bool {
        self.length <= WORD_BYTES && (self.harmless() || self.good_at_length())
    }

    #[inline(always)]
    fn harmless(&self) -> bool {
        self.digits() <= SIGNIFICANT && self.exponent.abs() <= HARMLESS
    }

    #[cold]
    #[inline(never)]
    fn good_at_length(&self) -> bool {
        let mut digits = self.whole.iter().chain(self.fraction);
        let leading = digits.by_ref().take_while(|&&digit| digit == b'0').count();
        if leading == self.digits() {
            return true;
        }
        let trailing = self.trailing();
        let exponent = self.exponent - self.fraction.len() as i32 + trailing as i32;
        self.digits() - leading - trailing <= SIGNIFICANT && exponent.abs() <= FARTHEST
    }

    /// Mantissa without its sign, and exponent.
    #[inline(always)]
    fn kept(&self) -> (u64, i32) {
        let trailing = self.trailing();
        let value = match trailing {
            0 => self.value,
            _ if self.digits() < POWERS.len() => self.value / POWERS[trailing],
            _ => self.value_of_many(trailing),
        };
        if value == 0 {
            return (0, 0);
        }
        (value, self.exponent - self.fraction.len() as i32 + trailing as i32)
    }

    /// The value without its trailing zeros, of which there may be more than a word holds.
    #[cold]
    #[inline(never)]
    fn value_of_many(&self, trailing: usize) -> u64 {
        let kept = self.digits() - trailing;
        let digits = self.whole.iter().chain(self.fraction).take(kept);
        digits.fold(0, |value, digit| value * 10 + u64::from(digit - b'0'))
    }
}
