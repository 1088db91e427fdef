//! Coordinates as the file wrote them.

use crate::mesh::NODE_WORDS;
use crate::raw;
use std::fmt;
use std::str::FromStr;

/// A coordinate: `mantissa` times ten to the power `exponent`, exactly as written in the file. The mantissa is not divisible by ten, so equal values have equal parts; zero is 0, 0.
#[derive(Clone, Copy, Debug, PartialEq, Eq, Hash, Default)]
pub struct Decimal {
    /// The digits, with the sign.
    pub mantissa: i64,
    /// The power of ten.
    pub exponent: i32,
}

impl Decimal {
    /// The nearest `f64`. This ROUNDS: most decimals have no exact `f64`, one beyond the largest becomes an infinity and one nearer to 0 than the smallest becomes 0.
    pub fn to_f64(self) -> f64 {
        // The standard library's parser rounds correctly; a product with a power of ten would round twice.
        let text = format!("{}e{}", self.mantissa, self.exponent);
        text.parse().expect("digits, e and an exponent are a number")
    }
}

/// Exact, in a form that a mesh file may hold: `15e-2`, or `3` where the exponent is 0.
impl fmt::Display for Decimal {
    fn fmt(&self, out: &mut fmt::Formatter<'_>) -> fmt::Result {
        match self.exponent {
            0 => write!(out, "{}", self.mantissa),
            exponent => write!(out, "{}e{exponent}", self.mantissa),
        }
    }
}

/// A word that is no coordinate.
#[derive(Clone, Copy, Debug, PartialEq, Eq)]
pub struct NoDecimal;

impl fmt::Display for NoDecimal {
    fn fmt(&self, out: &mut fmt::Formatter<'_>) -> fmt::Result {
        write!(out, "not a decimal number of at most 64 bytes, 18 digits and a power of ten from -400 to 400")
    }
}

impl std::error::Error for NoDecimal {}

/// A coordinate as a mesh file may hold it. The proved reader says what it is: a second parser could differ from it.
impl FromStr for Decimal {
    type Err = NoDecimal;

    fn from_str(word: &str) -> Result<Decimal, NoDecimal> {
        // Nothing that could end the word or its section.
        if !word.bytes().all(|byte| byte.is_ascii_digit() || b"+-.eE".contains(&byte)) {
            return Err(NoDecimal);
        }
        let text = format!("(10 (0 1 1 0 2))(13 (0 1 0 0))(10 (1 1 1 1)({word} 0))");
        let (mut mantissas, mut exponents) = ([0; NODE_WORDS], [0; NODE_WORDS]);
        match raw::read(text.as_bytes(), &mut mantissas, &mut exponents, &mut [], &mut [], &mut [0; 6], &mut []) {
            0 => Ok(Decimal { mantissa: mantissas[0], exponent: exponents[0] }),
            _ => Err(NoDecimal),
        }
    }
}

#[cfg(test)]
mod tests {
    use super::*;

    fn of(mantissa: i64, exponent: i32) -> Decimal {
        Decimal { mantissa, exponent }
    }

    #[test]
    fn shown_exactly() {
        assert_eq!(of(15, -2).to_string(), "15e-2");
        assert_eq!(of(-3, 0).to_string(), "-3");
        assert_eq!(of(0, 0).to_string(), "0");
        assert_eq!(of(1, 400).to_string(), "1e400");
    }

    #[test]
    fn taken_exactly() {
        let nines = "9".repeat(18);
        let good = [("-12.5e-1", of(-125, -2)), ("0", of(0, 0)), ("-0.0e7", of(0, 0)), ("1200", of(12, 2))];
        assert!(good.iter().all(|(word, due)| word.parse() == Ok(*due)));
        assert_eq!(format!("+{nines}e400").parse(), Ok(of(999_999_999_999_999_999, 400)));
        let long = "0".repeat(65);
        let twenty = nines + "99";
        for bad in ["", "nan", "1,5", "1e401", "1e", "--1", "1 2", "0 0))(0 (0", "1\n", &long, &twenty] {
            assert_eq!(bad.parse::<Decimal>(), Err(NoDecimal), "{bad}");
        }
    }

    #[test]
    fn rounded_once() {
        assert_eq!(of(15, -2).to_f64(), 0.15);
        assert_eq!(of(-123456789012345678, -17).to_f64(), -1.23456789012345678);
        assert_eq!(of(1, 400).to_f64(), f64::INFINITY);
        assert_eq!(of(-1, -400).to_f64(), 0.0);
        // 9007199254740993 lies halfway between two numbers of f64 and goes to the even one.
        assert_eq!(of(9007199254740993, 0).to_f64(), 9007199254740992.0);
    }
}
