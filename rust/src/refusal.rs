//! Refused calls: the number and what a technician can do about it.

use std::error::Error;
use std::fmt;

/// Makes the enum of the refusals, each written once with its number and its message, and their table.
macro_rules! refusals {
    (
        $(#[$about:meta])*
        pub enum Refusal;
        $($(#[$meaning:meta])* $name:ident = $number:literal: $message:literal,)+
    ) => {
        $(#[$about])*
        #[derive(Clone, Copy, Debug, PartialEq, Eq, Hash, PartialOrd, Ord)]
        #[non_exhaustive]
        #[repr(u8)]
        pub enum Refusal {
            $($(#[$meaning])* $name = $number,)+
        }

        /// Every refusal with its message, in the order of the numbers.
        const MESSAGES: &[(Refusal, &str)] = &[$((Refusal::$name, $message)),+];
    };
}

refusals! {
    /// Why a call was refused. The first that applies is answered, in the order of the numbers, 23 and 24
    /// standing between 8 and 9, 25 and 26 in the place of 12, and the state stays as it was. Where working
    /// days are counted, 27 is tried twice: of the day handed in before 28, of the day found after it.
    ///
    /// Other numbers may come: let a `match` have an arm for the rest.
    ///
    /// ```
    /// use grain::{Refusal, Station};
    ///
    /// let refusal = Station::open(2).unwrap_err();
    /// assert_eq!(refusal, Refusal::NoSuchRow);
    /// assert_eq!(refusal.number(), 1);
    /// assert_eq!(refusal.to_string(), "refused (1): there is no product or chart with this row number");
    /// ```
    pub enum Refusal;

    /// The stored station or chart is damaged: a number lies out of its bounds.
    Unsound = 0: "the stored station or chart is damaged; restore it from a copy or open a new one",

    /// An opening names a product or chart row that there isn't.
    NoSuchRow = 1: "there is no product or chart with this row number",

    /// The day lies before the station's day or above 99999.
    Day = 2: "the day lies before the station's last accepted call or is above 99999",

    /// The grain doesn't have the line.
    NoSuchLine = 3: "this grain is not measured for that constituent",

    /// A sheet isn't six numbers for each sample: 36 for wheat, 24 for corn.
    SheetLength = 4: "the reference sheet must have six numbers for every sample of this grain",

    /// A sheet's number lies outside 0 to 10000 hundredths (-1 is allowed as third and as again pair), or
    /// half an again pair is -1.
    SheetNumber = 5:
        "a number on the reference sheet lies outside 0.00 to 100.00 percent, is missing, or only \
         one half of an again pair is filled in",

    /// A third is missing though first and second differ by more than the pair limit, or is there though
    /// they don't.
    Third = 6:
        "a third measurement is missing where first and second are too far apart, or is filled in \
         where they are not",

    /// An again pair is missing for a deviating sample of a sheet whose range is too wide, or is there
    /// though none is due.
    Again = 7:
        "an again pair is missing for a sample that must be measured again, or is filled in where \
         none is due",

    /// The scan is a fault or another grain's, or wet gluten is asked for and the scan has none.
    Scan = 8:
        "the analyser reported a fault, the scan is of another grain, or gluten is asked for and \
         the scan has none",

    /// The analyser's value is not a number, below 0 or above 100 percent.
    Float = 9: "the analyser's value is not a number, below 0 or above 100 percent",

    /// The moisture basis lies outside 0 to 5000 hundredths, or its kind doesn't exist.
    Basis = 10: "the moisture basis lies outside 0.00 to 50.00 percent or is of no known kind",

    /// The reading with its intercept lies outside 0 to 10000 hundredths.
    Corrected = 11: "the reading with its intercept lies outside 0.00 to 100.00 percent",

    /// The line is new: no sheet of it was accepted since the station was opened or repaired.
    NewLine = 12:
        "the line is new: no reference sheet of it was accepted since the station was opened or \
         repaired; enter one that meets its averages first",

    /// The line's newest sheet is more than 7 days old.
    SetTooOld = 13:
        "the line's newest reference sheet is more than 7 days old; enter a new one first",

    /// The value at the asked basis is above 100 percent before rounding.
    AtBasis = 14: "the value at this moisture basis is above 100 percent",

    /// The text exceeds 65536 bytes.
    TextTooLong = 15: "the chart text is longer than 65536 bytes",

    /// The text doesn't begin with its names line and a line feed.
    NamesLine = 16: "the chart text must begin with the line `week sample original monitor`",

    /// A text line isn't four decimals of at most five digits with single spaces and a line feed.
    ValueLine = 17:
        "the line must be four whole numbers of at most five digits without leading zeros, with \
         single spaces between them and a line feed after them",

    /// A text line has neither the next sample of the week before it nor sample 1 of another week.
    SampleNumber = 18:
        "the sample number is neither the next of its week (up to 5) nor 1 of another week",

    /// The week isn't above the chart's last week, or is above 9999.
    Week = 19: "the week is not later than the chart's last week or is above 9999",

    /// A set has no pair, more than five, or an odd count of numbers.
    PairCount = 20: "a set must have one to five pairs of original and monitor result",

    /// A result of a pair lies outside 0 to 10000 hundredths.
    Result = 21: "an original or monitor result lies outside 0.00 to 100.00 percent",

    /// The buffer has fewer than 40 bytes for each output line.
    BufferTooShort = 22: "the output buffer has fewer than 40 bytes for each line",

    /// Wet gluten is asked for of a class other than Hard Red Winter and Hard Red Spring.
    GlutenClass = 23: "wet gluten is reported for Hard Red Winter and Hard Red Spring wheat only",

    /// Wet gluten is asked for with a basis that isn't asked for as standard, 1400 hundredths too.
    GlutenBasis = 24:
        "wet gluten is reported at 14.0 percent moisture only: ask for the standard basis",

    /// The line was adjusted and its check is due.
    AdjustedLine = 25:
        "the line was adjusted and its check is due: enter a reference sheet that meets the check \
         limit first",

    /// The line was shut, and its check is due: its newest sheet kept nothing, or the intercept would
    /// have left -1000 to 1000 hundredths.
    ShutLine = 26:
        "the line was shut, as its sheet kept no sample or called for an intercept beyond 10.00 \
         percent, and its check is due: enter a reference sheet that meets the check limit first",

    /// The calendar has no such date or day, or the day found is past its last, 99999.
    NoSuchDay = 27:
        "there is no such date or day, or the day found is past the last: the calendar runs from 1 \
         January 2000, day 0, to 15 October 2273, day 99999",

    /// The holidays don't rise strictly, or one lies outside 0 to 99999.
    Holidays = 28:
        "the holidays must be day numbers from 0 to 99999, each later than the one before it",

    /// A lot has no record or more than 500.
    LotSize = 29: "a ship lot must have 1 to 500 sublot records",

    /// A record's tonnes lie outside 1 to 1000000, its figure outside 0 to 1000 tenths or its basis outside
    /// 0 to 5000 hundredths.
    Sublot = 30:
        "a sublot's record must have 1 to 1000000 tonnes, a figure of 0.0 to 100.0 percent and a \
         moisture basis of 0.00 to 50.00 percent",

    /// The records' bases are not all equal.
    UnlikeBasis = 31:
        "the sublots' figures do not all stand at one moisture basis; they are not converted",
}

// A refusal's place in the table is its number.
const _: () = {
    let mut place = 0;
    while place < MESSAGES.len() {
        assert!(MESSAGES[place].0 as usize == place);
        place += 1;
    }
};

impl Refusal {
    /// The refusals in the order of their numbers, 0 to 31.
    pub fn all() -> impl Iterator<Item = Refusal> {
        MESSAGES.iter().map(|(refusal, _)| *refusal)
    }

    /// The refusal with this number.
    pub fn of(number: u32) -> Option<Refusal> {
        let place = usize::try_from(number).ok()?;
        MESSAGES.get(place).map(|(refusal, _)| *refusal)
    }

    /// The number, 0 to 31.
    pub fn number(self) -> u8 {
        self as u8
    }

    /// What is wrong, in a technician's words.
    pub fn message(self) -> &'static str {
        MESSAGES[self as usize].1
    }
}

impl fmt::Display for Refusal {
    fn fmt(&self, f: &mut fmt::Formatter) -> fmt::Result {
        write!(f, "refused ({}): {}", self.number(), self.message())
    }
}

impl Error for Refusal {}

/// Reads the core's answer: `accepted` and `number`.
pub(crate) fn answer(accepted: u32, number: u32) -> Result<(), Refusal> {
    match (accepted, Refusal::of(number)) {
        (1, _) => Ok(()),
        (0, Some(refusal)) => Err(refusal),
        _ => panic!(
            "the grain core answered accepted {accepted}, number {number}, which its interface \
             doesn't have"
        ),
    }
}
