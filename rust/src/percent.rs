//! Hundredths and tenths of a percent, as people write them.

use std::error::Error;
use std::fmt;
use std::num::TryFromIntError;
use std::str::FromStr;

/// Whole hundredths of a percent, written with two decimals: 1354 is `13.54`.
///
/// The calls take and answer plain numbers; this is for reading and printing them. What is read has a minus
/// sign or none, digits, and after a point one or two more digits or no point at all: `13` is 13.00 and
/// `13.5` is 13.50. Anything else is an error ([`ParsePercentError`]). No float takes part.
///
/// ```
/// use grain::Hundredths;
///
/// assert_eq!("13.54".parse(), Ok(Hundredths(1354)));
/// assert_eq!("13.5".parse(), Ok(Hundredths(1350)));
/// assert_eq!("13".parse(), Ok(Hundredths(1300)));
/// assert_eq!(Hundredths(1354).to_string(), "13.54");
/// // An intercept may be negative.
/// assert_eq!("-0.10".parse(), Ok(Hundredths(-10)));
/// assert_eq!(Hundredths(-10).to_string(), "-0.10");
///
/// for other in ["", "13.", ".5", "13.545", "13,54", "+13.54", " 13.54", "13.54 %", "1e1"] {
///     assert!(other.parse::<Hundredths>().is_err());
/// }
/// ```
#[derive(Clone, Copy, Debug, Default, PartialEq, Eq, Hash, PartialOrd, Ord)]
pub struct Hundredths(pub i32);

/// Whole tenths of a percent, written with one decimal: 135 is `13.5`.
///
/// The calls take and answer plain numbers; this is for reading and printing them. What is read has a minus
/// sign or none, digits, and after a point one more digit or no point at all: `13` is 13.0. Anything else is an
/// error ([`ParsePercentError`]). No float takes part.
///
/// ```
/// use grain::Tenths;
///
/// assert_eq!("13.5".parse(), Ok(Tenths(135)));
/// assert_eq!("13".parse(), Ok(Tenths(130)));
/// assert_eq!(Tenths(135).to_string(), "13.5");
/// assert!("13.54".parse::<Tenths>().is_err());
/// ```
///
/// Figures are answered as `u32`:
///
/// ```
/// use grain::{Sublot, Tenths, ship_lot};
///
/// let lot = ship_lot(&[Sublot { figure: "13.5".parse::<Tenths>()?.0, basis: 1200, tonnes: 40 }])?;
/// assert_eq!(Tenths::try_from(lot.mean)?.to_string(), "13.5");
/// # Ok::<(), Box<dyn std::error::Error>>(())
/// ```
#[derive(Clone, Copy, Debug, Default, PartialEq, Eq, Hash, PartialOrd, Ord)]
pub struct Tenths(pub i32);

/// Why a text isn't read as [`Hundredths`] or [`Tenths`]. Other reasons may come: let a `match` have an arm for
/// the rest.
///
/// ```
/// use grain::{Hundredths, Tenths};
///
/// let error = "13.545".parse::<Hundredths>().unwrap_err();
/// assert_eq!(
///     error.to_string(),
///     "a percentage is written with digits and at most 2 decimals after a point, as 13.54 or 13"
/// );
/// let error = "13,5".parse::<Tenths>().unwrap_err();
/// assert_eq!(
///     error.to_string(),
///     "a percentage is written with digits and at most 1 decimal after a point, as 13.5 or 13"
/// );
/// let error = "99999999".parse::<Hundredths>().unwrap_err();
/// assert_eq!(error.to_string(), "the percentage is too large to be held");
/// ```
#[derive(Clone, Copy, Debug, PartialEq, Eq, Hash)]
#[non_exhaustive]
pub enum ParsePercentError {
    /// The text isn't a number with at most so many decimals.
    Form {
        /// 2 for [`Hundredths`], 1 for [`Tenths`].
        decimals: u8,
    },
    /// The number doesn't fit in an `i32`.
    TooLarge,
}

impl fmt::Display for ParsePercentError {
    fn fmt(&self, f: &mut fmt::Formatter) -> fmt::Result {
        let (most, example) = match self {
            ParsePercentError::TooLarge => {
                return f.write_str("the percentage is too large to be held");
            }
            ParsePercentError::Form { decimals: 1 } => ("1 decimal", "13.5"),
            ParsePercentError::Form { .. } => ("2 decimals", "13.54"),
        };
        write!(
            f,
            "a percentage is written with digits and at most {most} after a point, as {example} or 13"
        )
    }
}

impl Error for ParsePercentError {}

/// Reads a number with at most so many decimals as a whole number of its smallest unit.
fn read(text: &str, decimals: u8) -> Result<i32, ParsePercentError> {
    let form = ParsePercentError::Form { decimals };
    let (sign, unsigned) = match text.strip_prefix('-') {
        Some(unsigned) => (-1, unsigned),
        None => (1, text),
    };
    let (whole, fraction) = match unsigned.split_once('.') {
        Some((_, "")) => return Err(form),
        Some(parts) => parts,
        None => (unsigned, ""),
    };
    let places = usize::from(decimals);
    let digits = |text: &str| text.bytes().all(|byte| byte.is_ascii_digit());
    if whole.is_empty() || fraction.len() > places || !digits(whole) || !digits(fraction) {
        return Err(form);
    }
    let zeros = "00"[fraction.len()..places].bytes();
    let mut number = 0_i32;
    for digit in whole.bytes().chain(fraction.bytes()).chain(zeros) {
        // The sign is in each digit, so that the least i32 is read too.
        let next = number
            .checked_mul(10)
            .and_then(|tens| tens.checked_add(sign * i32::from(digit - b'0')));
        number = next.ok_or(ParsePercentError::TooLarge)?;
    }
    Ok(number)
}

/// Prints a number of a unit of which `unit` are a whole; width, sign and zeros as for a number.
fn print(f: &mut fmt::Formatter, number: i32, unit: u32, decimals: usize) -> fmt::Result {
    let magnitude = number.unsigned_abs();
    let (whole, fraction) = (magnitude / unit, magnitude % unit);
    f.pad_integral(number >= 0, "", &format!("{whole}.{fraction:0decimals$}"))
}

impl fmt::Display for Hundredths {
    fn fmt(&self, f: &mut fmt::Formatter) -> fmt::Result {
        print(f, self.0, 100, 2)
    }
}

impl fmt::Display for Tenths {
    fn fmt(&self, f: &mut fmt::Formatter) -> fmt::Result {
        print(f, self.0, 10, 1)
    }
}

impl FromStr for Hundredths {
    type Err = ParsePercentError;

    fn from_str(text: &str) -> Result<Hundredths, ParsePercentError> {
        read(text, 2).map(Hundredths)
    }
}

impl FromStr for Tenths {
    type Err = ParsePercentError;

    fn from_str(text: &str) -> Result<Tenths, ParsePercentError> {
        read(text, 1).map(Tenths)
    }
}

/// Of an answer's field. An error only above `i32::MAX`, which no call answers.
impl TryFrom<u32> for Hundredths {
    type Error = TryFromIntError;

    fn try_from(number: u32) -> Result<Hundredths, TryFromIntError> {
        number.try_into().map(Hundredths)
    }
}

/// Of an answer's field. An error only above `i32::MAX`, which no call answers.
impl TryFrom<u32> for Tenths {
    type Error = TryFromIntError;

    fn try_from(number: u32) -> Result<Tenths, TryFromIntError> {
        number.try_into().map(Tenths)
    }
}

#[cfg(test)]
mod tests {
    use super::*;

    /// Every number of the rules and some beyond is read as it is printed.
    #[test]
    fn what_is_printed_is_read() {
        let ends = [i32::MIN, i32::MIN + 1, i32::MAX - 1, i32::MAX];
        for number in (-20_000..=20_000).chain(ends) {
            let (hundredths, tenths) = (Hundredths(number), Tenths(number));
            assert_eq!(hundredths.to_string().parse(), Ok(hundredths));
            assert_eq!(tenths.to_string().parse(), Ok(tenths));
            let sign = if number < 0 { "-" } else { "" };
            let digits = format!("{:03}", number.unsigned_abs());
            let (whole, fraction) = digits.split_at(digits.len() - 2);
            assert_eq!(hundredths.to_string(), format!("{sign}{whole}.{fraction}"));
            let digits = format!("{:02}", number.unsigned_abs());
            let (whole, fraction) = digits.split_at(digits.len() - 1);
            assert_eq!(tenths.to_string(), format!("{sign}{whole}.{fraction}"));
        }
    }

    #[test]
    fn fewer_decimals_and_zeros_in_front() {
        for (text, hundredths) in [
            ("0", 0),
            ("-0", 0),
            ("-0.00", 0),
            ("7", 700),
            ("007.5", 750),
            ("7.05", 705),
            ("-7.5", -750),
            ("-10", -1000),
            ("100.00", 10_000),
            ("21474836.47", i32::MAX),
            ("-21474836.48", i32::MIN),
        ] {
            assert_eq!(text.parse(), Ok(Hundredths(hundredths)), "{text}");
        }
        assert_eq!("-214748364.8".parse(), Ok(Tenths(i32::MIN)));
        assert_eq!("007".parse(), Ok(Tenths(70)));
    }

    #[test]
    fn what_has_another_form() {
        let form = |decimals| ParsePercentError::Form { decimals };
        for text in [
            "",
            "-",
            ".",
            "-.",
            "13.",
            ".54",
            "-.54",
            "--1",
            "1-",
            "+1",
            "1.2.3",
            "1..2",
            "1.-2",
            "1.+2",
            "1 ",
            " 1",
            "1\n",
            "1,5",
            "1_0",
            "1e2",
            "0x1",
            "NaN",
            "inf",
            "1%",
            "١",
            "1.٥",
            "１",
            "−1",
            "1.234",
            "1.230",
            "99999999999.",
        ] {
            assert_eq!(text.parse::<Hundredths>(), Err(form(2)), "{text:?}");
            assert_eq!(text.parse::<Tenths>(), Err(form(1)), "{text:?}");
        }
        for text in ["1.23", "1.20", "-0.05"] {
            assert!(text.parse::<Hundredths>().is_ok(), "{text}");
            assert_eq!(text.parse::<Tenths>(), Err(form(1)), "{text}");
        }
    }

    #[test]
    fn what_is_too_large() {
        let too_large = ParsePercentError::TooLarge;
        for text in ["21474836.48", "-21474836.49", "21474837", "99999999999999"] {
            assert_eq!(text.parse::<Hundredths>(), Err(too_large), "{text}");
        }
        for text in ["214748364.8", "-214748364.9", "214748365", "99999999999999"] {
            assert_eq!(text.parse::<Tenths>(), Err(too_large), "{text}");
        }
    }

    #[test]
    fn printed_like_numbers() {
        assert_eq!(format!("{:8}|", Hundredths(-10)), "   -0.10|");
        assert_eq!(format!("{:<8}|", Tenths(135)), "13.5    |");
        assert_eq!(format!("{:+}", Hundredths(5)), "+0.05");
        assert_eq!(format!("{:07}", Tenths(-5)), "-0000.5".to_string());
    }

    #[test]
    fn of_an_answer() {
        assert_eq!(Tenths::try_from(135_u32), Ok(Tenths(135)));
        assert!(Tenths::try_from(1_u32 << 31).is_err());
        assert_eq!(
            Hundredths::try_from(i32::MAX as u32),
            Ok(Hundredths(i32::MAX))
        );
        assert!(Hundredths::try_from(u32::MAX).is_err());
    }
}
