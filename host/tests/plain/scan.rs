//! Steps through the bytes of a file: one expected thing after the other.

pub const TOO_LONG: u32 = 1;
pub const GRAMMAR: u32 = 2;
pub const NUMBER: u32 = 3;
pub const BINARY: u32 = 4;
pub const DEPTH: u32 = 12;

/// Deepest nesting of a section that is stepped over.
const DEEPEST: u32 = 64;

/// A refusal's number and offset.
pub struct Bad {
    pub number: u32,
    pub offset: usize,
}

pub type Step<T> = Result<T, Bad>;

pub fn bad<T>(number: u32, offset: usize) -> Step<T> {
    Err(Bad { number, offset })
}

/// A whole number and the offset of its word.
#[derive(Clone, Copy)]
pub struct Placed {
    pub value: u32,
    pub offset: usize,
}

// Sorts of bytes. Those below 16 are hexadecimal digits and their values.
const OTHER: u8 = 16;
const BLANK: u8 = 17;
const MARK: u8 = 18;

static SORT: [u8; 256] = sorts();

const fn sorts() -> [u8; 256] {
    let mut sorts = [OTHER; 256];
    let mut digit = 0;
    while digit < 16 {
        sorts[b"0123456789abcdef"[digit] as usize] = digit as u8;
        sorts[b"0123456789ABCDEF"[digit] as usize] = digit as u8;
        digit += 1;
    }
    sorts[b' ' as usize] = BLANK;
    sorts[b'\t' as usize] = BLANK;
    sorts[b'\n' as usize] = BLANK;
    sorts[b'\r' as usize] = BLANK;
    sorts[b'(' as usize] = MARK;
    sorts[b')' as usize] = MARK;
    sorts[b'"' as usize] = MARK;
    sorts
}

#[inline(always)]
fn sort(byte: u8) -> u8 {
    SORT[byte as usize]
}

/// Whether a word ends before this byte, or before the end of the file.
#[inline(always)]
pub fn ends_word(byte: Option<&u8>) -> bool {
    byte.is_none_or(|&byte| sort(byte) > OTHER)
}

pub struct Scan<'a> {
    text: &'a [u8],
    at: usize,
}

impl<'a> Scan<'a> {
    pub fn new(text: &'a [u8]) -> Self {
        Scan { text, at: 0 }
    }

    pub fn from(text: &'a [u8], at: usize) -> Self {
        Scan { text, at }
    }

    pub fn at(&self) -> usize {
        self.at
    }

    /// Goes on to the next token, and answers its offset.
    #[inline(always)]
    fn token(&mut self) -> usize {
        while let Some(&byte) = self.text.get(self.at) {
            if sort(byte) != BLANK {
                break;
            }
            self.at += 1;
        }
        self.at
    }

    /// The bytes from the next token on, and its offset.
    #[inline(always)]
    pub fn rest(&mut self) -> (&'a [u8], usize) {
        let start = self.token();
        (&self.text[start..], start)
    }

    #[inline(always)]
    pub fn skip(&mut self, bytes: usize) {
        self.at += bytes;
    }

    /// Whether the next token is this parenthesis.
    pub fn is(&mut self, mark: u8) -> bool {
        let start = self.token();
        self.text.get(start) == Some(&mark)
    }

    /// The parenthesis that has to stand here: its offset.
    pub fn mark(&mut self, mark: u8) -> Step<usize> {
        if !self.is(mark) {
            return bad(GRAMMAR, self.at);
        }
        self.at += 1;
        Ok(self.at - 1)
    }

    /// Whether a section begins here; if not, the file ends.
    pub fn opens(&mut self) -> Step<bool> {
        if self.token() == self.text.len() {
            return Ok(false);
        }
        self.mark(b'(').map(|_| true)
    }

    /// The refusal of what stands where a number is due.
    #[cold]
    #[inline(never)]
    pub fn no_number<T>(&self, start: usize) -> Step<T> {
        let number = if ends_word(self.text.get(start)) { GRAMMAR } else { NUMBER };
        bad(number, start)
    }

    /// A hexadecimal number of 1 to 8 digits.
    #[inline]
    pub fn number(&mut self) -> Step<Placed> {
        let (rest, start) = self.rest();
        let (value, digits) = hexadecimal(rest);
        if !(1..=8).contains(&digits) || !ends_word(rest.get(digits)) {
            return self.no_number(start);
        }
        self.at = start + digits;
        Ok(Placed { value, offset: start })
    }

    /// The next number of a body that is known to be good.
    #[inline]
    pub fn known_number(&mut self) -> u32 {
        let (rest, _) = self.rest();
        let (value, digits) = hexadecimal(rest);
        self.at += digits;
        value
    }

    /// A section's id: 1 to 5 decimal digits, not of a binary section.
    pub fn id(&mut self) -> Step<u32> {
        let (rest, start) = self.rest();
        let digits = rest.iter().take_while(|byte| byte.is_ascii_digit()).count();
        if !(1..=5).contains(&digits) || !ends_word(rest.get(digits)) {
            return self.no_number(start);
        }
        let id = rest[..digits].iter().fold(0, |id, byte| id * 10 + u32::from(byte - b'0'));
        if (2000..4000).contains(&id) {
            return bad(BINARY, start);
        }
        self.at = start + digits;
        Ok(id)
    }

    /// Steps over the rest of a section, its closing parenthesis too.
    pub fn step_over(&mut self) -> Step<()> {
        let mut depth = 1;
        while let Some(&byte) = self.text.get(self.at) {
            match byte {
                b'(' if depth == DEEPEST => return bad(DEPTH, self.at),
                b'(' => depth += 1,
                b')' => depth -= 1,
                b'"' => match self.text[self.at + 1..].iter().position(|&byte| byte == b'"') {
                    Some(length) => self.at += length + 1,
                    None => return bad(GRAMMAR, self.at),
                },
                _ => {}
            }
            self.at += 1;
            if depth == 0 {
                return Ok(());
            }
        }
        bad(GRAMMAR, self.text.len())
    }
}

/// The hexadecimal digits that `bytes` begins with: their value, exact up to 8 digits, and their number.
#[inline(always)]
fn hexadecimal(bytes: &[u8]) -> (u32, usize) {
    let mut value = 0;
    for (count, &byte) in bytes.iter().enumerate() {
        let digit = sort(byte);
        if digit >= OTHER {
            return (value, count);
        }
        value = value << 4 | u32::from(digit);
    }
    (value, bytes.len())
}
