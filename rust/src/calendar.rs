//! The calendar: dates, days and weekdays, and working days.

use std::error::Error;
use std::fmt;
use std::str::FromStr;

use crate::ffi;
use crate::refusal::{Refusal, answer};

/// The last day of the calendar, 15 October 2273.
pub const LAST_DAY: u32 = 99_999;

/// A date as a laboratory writes it. Later dates are greater.
///
/// Any numbers may stand here: those of no date are refused ([`Refusal::NoSuchDay`]).
///
/// It is printed and read as ISO 8601 has it, `2026-11-27`. Reading looks at the form alone
/// ([`ParseDateError`]): whether there is such a date is told by [`day_from_date`].
///
/// ```
/// use grain::{Date, Refusal, day_from_date};
///
/// let date: Date = "2026-11-27".parse()?;
/// assert_eq!(date, Date { year: 2026, month: 11, day: 27 });
/// assert_eq!(date.to_string(), "2026-11-27");
/// assert_eq!(day_from_date(date), Ok(9827));
/// assert_eq!(day_from_date("2026-02-30".parse()?), Err(Refusal::NoSuchDay));
/// # Ok::<(), grain::ParseDateError>(())
/// ```
#[derive(Clone, Copy, Debug, PartialEq, Eq, Hash, PartialOrd, Ord)]
pub struct Date {
    /// 2000 to 2273.
    pub year: u32,
    /// 1 to 12.
    pub month: u32,
    /// The day of the month, from 1.
    pub day: u32,
}

/// A text that isn't a date of the form `2026-11-27`: four digits of the year, two of the month and two of the
/// day, hyphens between them, and nothing else.
///
/// ```
/// use grain::Date;
///
/// for other in ["2026-11-7", "27.11.2026", "2026-11-27 ", "20261127"] {
///     let error = other.parse::<Date>().unwrap_err();
///     assert_eq!(error.to_string(), "a date is written as year, month and day, like 2026-11-27");
/// }
/// ```
#[derive(Clone, Copy, Debug, PartialEq, Eq, Hash)]
#[non_exhaustive]
pub struct ParseDateError;

impl fmt::Display for ParseDateError {
    fn fmt(&self, f: &mut fmt::Formatter) -> fmt::Result {
        f.write_str("a date is written as year, month and day, like 2026-11-27")
    }
}

impl Error for ParseDateError {}

impl fmt::Display for Date {
    fn fmt(&self, f: &mut fmt::Formatter) -> fmt::Result {
        f.pad(&format!(
            "{:04}-{:02}-{:02}",
            self.year, self.month, self.day
        ))
    }
}

impl FromStr for Date {
    type Err = ParseDateError;

    fn from_str(text: &str) -> Result<Date, ParseDateError> {
        let bytes = text.as_bytes();
        let [_, _, _, _, b'-', _, _, b'-', _, _] = bytes else {
            return Err(ParseDateError);
        };
        Ok(Date {
            year: decimal(&bytes[..4])?,
            month: decimal(&bytes[5..7])?,
            day: decimal(&bytes[8..])?,
        })
    }
}

/// The number of these few digits.
fn decimal(digits: &[u8]) -> Result<u32, ParseDateError> {
    digits.iter().try_fold(0, |number, digit| match digit {
        b'0'..=b'9' => Ok(10 * number + u32::from(digit - b'0')),
        _ => Err(ParseDateError),
    })
}

/// A weekday, numbered as in ISO 8601. It is printed by its name, `Monday`.
#[derive(Clone, Copy, Debug, PartialEq, Eq, Hash)]
#[repr(u8)]
pub enum Weekday {
    /// A working day unless it is a holiday, as are the next four.
    Monday = 1,
    /// The second day of the week.
    Tuesday = 2,
    /// The third.
    Wednesday = 3,
    /// The fourth.
    Thursday = 4,
    /// The fifth.
    Friday = 5,
    /// Never a working day.
    Saturday = 6,
    /// Never a working day.
    Sunday = 7,
}

impl fmt::Display for Weekday {
    fn fmt(&self, f: &mut fmt::Formatter) -> fmt::Result {
        f.pad(match self {
            Weekday::Monday => "Monday",
            Weekday::Tuesday => "Tuesday",
            Weekday::Wednesday => "Wednesday",
            Weekday::Thursday => "Thursday",
            Weekday::Friday => "Friday",
            Weekday::Saturday => "Saturday",
            Weekday::Sunday => "Sunday",
        })
    }
}

impl Weekday {
    /// The weekday that the core answers.
    fn of(number: u32) -> Option<Weekday> {
        match number {
            1 => Some(Weekday::Monday),
            2 => Some(Weekday::Tuesday),
            3 => Some(Weekday::Wednesday),
            4 => Some(Weekday::Thursday),
            5 => Some(Weekday::Friday),
            6 => Some(Weekday::Saturday),
            7 => Some(Weekday::Sunday),
            _ => None,
        }
    }

    /// The number: 1 is Monday, 7 is Sunday.
    pub fn number(self) -> u8 {
        self as u8
    }
}

/// The day that has this date.
///
/// # Errors
/// [`Refusal::NoSuchDay`]: there is no such date from 1 January 2000 to 15 October 2273.
///
/// # Examples
/// ```
/// use grain::{Date, Refusal, day_from_date};
///
/// let date = |year, month, day| Date { year, month, day };
/// assert_eq!(day_from_date(date(2000, 1, 1)), Ok(0));
/// assert_eq!(day_from_date(date(2273, 10, 15)), Ok(grain::LAST_DAY));
/// assert_eq!(day_from_date(date(2273, 10, 16)), Err(Refusal::NoSuchDay));
/// // 2000 is a leap year, 2100 isn't.
/// assert_eq!(day_from_date(date(2000, 2, 29)), Ok(59));
/// assert_eq!(day_from_date(date(2100, 2, 29)), Err(Refusal::NoSuchDay));
/// ```
pub fn day_from_date(date: Date) -> Result<u32, Refusal> {
    day_of(ffi::grain_day_from_date(date.year, date.month, date.day))
}

/// The date of a day.
///
/// # Errors
/// [`Refusal::NoSuchDay`]: the day is above [`LAST_DAY`].
///
/// # Examples
/// ```
/// use grain::{Date, Refusal, date_from_day, day_from_date};
///
/// let date = Date { year: 2026, month: 11, day: 17 };
/// assert_eq!(date_from_day(9817), Ok(date));
/// assert_eq!(day_from_date(date), Ok(9817));
/// assert_eq!(date_from_day(100_000), Err(Refusal::NoSuchDay));
/// ```
pub fn date_from_day(day: u32) -> Result<Date, Refusal> {
    let said = ffi::grain_date_from_day(day);
    answer(said.accepted, said.number)?;
    Ok(Date {
        year: said.year,
        month: said.month,
        day: said.day,
    })
}

/// The weekday of a day.
///
/// # Errors
/// [`Refusal::NoSuchDay`]: the day is above [`LAST_DAY`].
///
/// # Examples
/// ```
/// use grain::{Refusal, Weekday, weekday};
///
/// assert_eq!(weekday(0), Ok(Weekday::Saturday));
/// assert_eq!(weekday(1).map(Weekday::number), Ok(7));
/// assert_eq!(weekday(100_000), Err(Refusal::NoSuchDay));
/// ```
pub fn weekday(day: u32) -> Result<Weekday, Refusal> {
    let said = ffi::grain_weekday_of_day(day);
    answer(said.accepted, said.number)?;
    Ok(Weekday::of(said.weekday).expect("the core answers one of seven weekdays"))
}

/// The day that is `count` working days after `day`, which is never counted itself; a count of 0 gives
/// it back whatever it is. Monday to Friday are working days unless they are among the holidays, which
/// are day numbers, each later than the one before it. The whole list is judged, whatever the count.
///
/// # Errors
/// [`Refusal::NoSuchDay`] if the day is above [`LAST_DAY`], then [`Refusal::Holidays`], then
/// [`Refusal::NoSuchDay`] if the day found would be above it.
///
/// # Examples
/// ```
/// use grain::{Refusal, working_day};
///
/// // Day 6 is a Friday: the next working day is Monday, or Tuesday if Monday is a holiday.
/// assert_eq!(working_day(6, 1, &[]), Ok(9));
/// assert_eq!(working_day(6, 1, &[9]), Ok(10));
/// // A holiday on a Saturday changes nothing.
/// assert_eq!(working_day(6, 1, &[7]), Ok(9));
/// assert_eq!(working_day(7, 0, &[7]), Ok(7));
/// // The day handed in is tried first, then the holidays, the day found last.
/// assert_eq!(working_day(100_000, 1, &[5, 5]), Err(Refusal::NoSuchDay));
/// assert_eq!(working_day(99_999, 1, &[5, 5]), Err(Refusal::Holidays));
/// assert_eq!(working_day(99_999, 1, &[]), Err(Refusal::NoSuchDay));
/// ```
pub fn working_day(day: u32, count: u32, holidays: &[i32]) -> Result<u32, Refusal> {
    // SAFETY: the holidays are lent for the call.
    day_of(unsafe { ffi::grain_working_day(day, count, holidays.as_ptr(), holidays.len()) })
}

/// The day by which monitoring results are due: 2 working days after the day of retrieval, which is
/// not counted.
///
/// # Errors
/// Those of [`working_day`].
///
/// # Examples
/// ```
/// use grain::{Date, date_from_day, day_from_date, results_due};
///
/// // Retrieved on the Wednesday before a Thursday that is a holiday: due on Monday.
/// let november = |day| Date { year: 2026, month: 11, day };
/// let holiday = day_from_date(november(26))?;
/// let due = results_due(day_from_date(november(25))?, &[holiday as i32])?;
/// assert_eq!(date_from_day(due)?, november(30));
/// # Ok::<(), grain::Refusal>(())
/// ```
pub fn results_due(day: u32, holidays: &[i32]) -> Result<u32, Refusal> {
    // SAFETY: the holidays are lent for the call.
    day_of(unsafe { ffi::grain_results_due(day, holidays.as_ptr(), holidays.len()) })
}

fn day_of(said: ffi::Day) -> Result<u32, Refusal> {
    answer(said.accepted, said.number).map(|()| said.day)
}
