//! Stations: reference sheets, repairs and market tests.

use crate::ffi::{self, LAYOUT};
use crate::former;
use crate::refusal::{Refusal, answer};
use crate::store::{self, RestoreError};

/// A station of one grain: its lines' intercepts, phases and past sets, and the day of its last
/// accepted call.
///
/// The state is 68 numbers, which may be stored ([`Station::to_bytes`]) and taken up again
/// ([`Station::from_bytes`]). A refused call leaves it as it was.
///
/// ```
/// use grain::{Asked, Basis, Phase, Scan, Station};
///
/// let mut station = Station::open(Station::WHEAT)?;
/// // Six samples: baseline, first, second, third, again-first, again-second; -1 is not measured.
/// let sheet = [1300, 1302, 1298, -1, -1, -1].repeat(6);
/// let outcome = station.sheet(100, 0, &sheet)?;
/// assert_eq!((outcome.sum, outcome.count, outcome.phase, outcome.change), (0, 12, Phase::Open, 0));
///
/// let scan = Scan::Wheat(13.54);
/// let certificate = station.market(101, 0, scan, Asked::LineFigure, Basis::Dry)?;
/// assert_eq!((certificate.figure, certificate.converted), (135, 154));
/// assert_eq!(station.day(), 101);
/// # Ok::<(), grain::Refusal>(())
/// ```
#[derive(Clone, Debug, PartialEq, Eq, Hash)]
#[repr(transparent)]
pub struct Station {
    state: ffi::Station,
}

/// A line is new, open for market tests, or has its check due. A sheet's outcome says no more; the line
/// itself ([`LinePhase`]) tells why the check is due.
#[derive(Clone, Copy, Debug, PartialEq, Eq, Hash)]
pub enum Phase {
    /// No sheet of it was accepted yet, or the line was open and then repaired.
    New,
    /// The newest sheet met every average due.
    Open,
    /// The newest sheet adjusted the line or shut it: the next one is the check.
    CheckDue,
}

/// The phase of a line as the station holds it.
#[derive(Clone, Copy, Debug, PartialEq, Eq, Hash)]
pub enum LinePhase {
    /// No sheet of it was accepted yet, or the line was open and then repaired.
    New,
    /// The newest sheet met every average due.
    Open,
    /// Check due: the newest sheet changed the intercept.
    Adjusted,
    /// Check due: the newest sheet kept nothing, or would have moved the intercept out of -1000 to 1000,
    /// and changed nothing.
    Shut,
}

/// A past set of a line: the result of a sheet that met every average due.
#[repr(C)]
#[derive(Clone, Copy, Debug, Default, PartialEq, Eq, Hash)]
pub struct PastSet {
    /// The sheet's day.
    pub day: i32,
    /// S, the sum of the kept deviations, in hundredths of a percent.
    pub sum: i32,
    /// N, twice the number of samples kept.
    pub count: i32,
}

impl PastSet {
    /// The test of five passes over it.
    pub(crate) fn is_zero(&self) -> bool {
        self.sum == 0
    }
}

/// A line as the station holds it.
#[derive(Clone, Debug, PartialEq, Eq, Hash)]
pub struct Line {
    /// Added to every reading, hundredths of a percent, -1000 to 1000.
    pub intercept: i32,
    /// New, open, adjusted or shut.
    pub phase: LinePhase,
    /// The newest past sets, at most two, newest first: for the tests of two and three sets, and for the
    /// day of a certificate.
    pub newest: Vec<PastSet>,
    /// The newest past sets whose S is not 0, at most four, newest first: for the test of five.
    pub nonzero: Vec<PastSet>,
}

/// What an accepted sheet did.
#[derive(Clone, Copy, Debug, PartialEq, Eq, Hash)]
pub struct Outcome {
    /// S, the sum of the kept deviations, in hundredths of a percent.
    pub sum: i32,
    /// N, twice the number of samples kept; the set's average is S/N hundredths of a percent.
    pub count: u32,
    /// The line's phase after the sheet: open, or check due whether adjusted or shut.
    pub phase: Phase,
    /// The change of the line's intercept in hundredths of a percent, 0 if none. Check due with 0: the
    /// line is shut.
    pub change: i32,
}

/// What the analyser answered, in percent.
#[derive(Clone, Copy, Debug, PartialEq)]
pub enum Scan {
    /// Protein of wheat.
    Wheat(f32),
    /// Protein and wet gluten of wheat; only what is asked for is looked at.
    WheatGluten {
        /// For line 0.
        protein: f32,
        /// For [`Asked::Gluten`].
        gluten: f32,
    },
    /// Protein, oil and starch of corn; only the asked line's is looked at.
    Corn {
        /// For line 0.
        protein: f32,
        /// For line 1.
        oil: f32,
        /// For line 2.
        starch: f32,
    },
    /// A fault with its code.
    Fault(u8),
}

/// What a market test asks for.
#[derive(Clone, Copy, Debug, PartialEq, Eq, Hash)]
pub enum Asked {
    /// The line's own figure.
    LineFigure,
    /// Wet gluten of a class of wheat: on line 0 of a wheat station, with a scan that brings it
    /// ([`Scan::WheatGluten`]) and the standard basis.
    Gluten(WheatClass),
}

/// The class of a wheat. Wet gluten is reported for the two of hard red wheat only.
#[derive(Clone, Copy, Debug, PartialEq, Eq, Hash)]
pub enum WheatClass {
    /// Hard Red Winter.
    HardRedWinter,
    /// Hard Red Spring.
    HardRedSpring,
    /// Any other: wet gluten of it is refused ([`Refusal::GlutenClass`]).
    Other,
}

/// The moisture basis B of a market test, in hundredths of a percent. Wet gluten has the standard one
/// only.
#[derive(Clone, Copy, Debug, PartialEq, Eq, Hash)]
pub enum Basis {
    /// The grain's standard basis: 1200 for wheat, 0 for corn, 1400 for wet gluten.
    Standard,
    /// No moisture: 0.
    Dry,
    /// Any other, 0 to 5000.
    Specified(i32),
    /// The official moisture, 0 to 5000.
    AsIs(i32),
}

/// A certified market test.
#[derive(Clone, Copy, Debug, PartialEq, Eq, Hash)]
pub struct Certificate {
    /// The day of the line's newest set.
    pub day: u32,
    /// Hundredths of a percent: the line's, or for wet gluten the one derived from it.
    pub intercept: i32,
    /// B in hundredths of a percent.
    pub basis: i32,
    /// The corrected value in tenths of a percent.
    pub figure: u32,
    /// The value at B in tenths of a percent.
    pub converted: u32,
}

impl Phase {
    /// The phase that an outcome carries.
    fn of(code: i32) -> Option<Phase> {
        match code {
            ffi::NEW => Some(Phase::New),
            ffi::OPEN => Some(Phase::Open),
            ffi::CHECK_DUE => Some(Phase::CheckDue),
            _ => None,
        }
    }
}

impl LinePhase {
    /// The phase that a line holds.
    fn of(place: i32) -> Option<LinePhase> {
        match place {
            ffi::NEW => Some(LinePhase::New),
            ffi::OPEN => Some(LinePhase::Open),
            ffi::ADJUSTED => Some(LinePhase::Adjusted),
            ffi::SHUT => Some(LinePhase::Shut),
            _ => None,
        }
    }

    /// The phase as an outcome says it.
    ///
    /// ```
    /// use grain::{LinePhase, Phase};
    ///
    /// assert_eq!(LinePhase::Adjusted.phase(), Phase::CheckDue);
    /// assert_eq!(LinePhase::Shut.phase(), Phase::CheckDue);
    /// ```
    pub fn phase(self) -> Phase {
        match self {
            LinePhase::New => Phase::New,
            LinePhase::Open => Phase::Open,
            LinePhase::Adjusted | LinePhase::Shut => Phase::CheckDue,
        }
    }
}

impl Scan {
    /// The kind and the three floats of the C interface.
    fn arguments(self) -> (u32, [f32; 3]) {
        match self {
            Scan::Wheat(protein) => (0, [protein, 0.0, 0.0]),
            Scan::Corn {
                protein,
                oil,
                starch,
            } => (1, [protein, oil, starch]),
            // One kind for every code: 3 is a scan with gluten.
            Scan::Fault(_) => (2, [0.0; 3]),
            Scan::WheatGluten { protein, gluten } => (3, [protein, gluten, 0.0]),
        }
    }
}

impl Asked {
    /// The number of the C interface.
    fn argument(self) -> u32 {
        match self {
            Asked::LineFigure => 0,
            Asked::Gluten(WheatClass::HardRedWinter) => 1,
            Asked::Gluten(WheatClass::HardRedSpring) => 2,
            Asked::Gluten(WheatClass::Other) => 3,
        }
    }
}

impl Basis {
    /// The kind and the basis of the C interface.
    fn arguments(self) -> (u32, i32) {
        match self {
            Basis::Standard => (0, 0),
            Basis::Dry => (1, 0),
            Basis::Specified(basis) => (2, basis),
            Basis::AsIs(moisture) => (3, moisture),
        }
    }
}

impl Station {
    /// The product row of wheat: line 0 protein, six samples a sheet.
    pub const WHEAT: u64 = 0;
    /// The product row of corn: line 0 protein, 1 oil, 2 starch, four samples a sheet.
    pub const CORN: u64 = 1;

    /// The bytes of a stored station.
    pub const BYTES: usize = 4 + 4 * ffi::STATION;

    /// A fresh station of a product row.
    ///
    /// # Errors
    /// [`Refusal::NoSuchRow`]: neither [`Station::WHEAT`] nor [`Station::CORN`].
    pub fn open(row: u64) -> Result<Station, Refusal> {
        let mut state = ffi::Station::default();
        // SAFETY: the station is lent for the call.
        let said = unsafe { ffi::grain_open(&mut state, row) };
        answer(said.accepted, said.number).map(|()| Station { state })
    }

    /// The station to be stored: the layout's number and the 68 numbers, little-endian.
    pub fn to_bytes(&self) -> [u8; Station::BYTES] {
        store::stored(&self.places())
    }

    /// Takes up a station stored in layout 4. Numbers that are no sound station are taken up as well, and
    /// refused by every call ([`Refusal::Unsound`]); [`Station::is_sound`] tells it before.
    ///
    /// One stored in layout 2 or 3 is carried over where it says all.
    ///
    /// # Errors
    /// Bytes of layout 2 or 3 that don't say all ([`RestoreError::OlderSets`]: [`Station::from_layout_3`] takes
    /// them up) or are no sound station ([`RestoreError::Unsound`]); bytes of another layout or of a wrong length
    /// ([`RestoreError::Layout`], [`RestoreError::Length`]).
    ///
    /// ```
    /// use grain::{RestoreError, Station};
    ///
    /// let station = Station::open(Station::CORN).unwrap();
    /// let bytes = station.to_bytes();
    /// assert_eq!(Station::from_bytes(&bytes)?, station);
    ///
    /// // A fresh station of corn as layout 3 has it: 47 numbers.
    /// let mut bytes = [0; 4 + 4 * 47];
    /// (bytes[0], bytes[4]) = (3, 1);
    /// assert_eq!(Station::from_bytes(&bytes)?, station);
    /// # Ok::<(), RestoreError>(())
    /// ```
    pub fn from_bytes(bytes: &[u8]) -> Result<Station, RestoreError> {
        match store::layout_of(bytes) {
            Some(found) if former::TELLING.contains(&found) => {
                former::restored(bytes, former::TELLING, [false; 3], None)
                    .map(|state| Station { state })
            }
            _ => store::restored(bytes, &[LAYOUT]).map(|(_, places)| Station::from_places(places)),
        }
    }

    /// Takes up a station stored in layout 3 or 2, where a line holds its newest four past sets, zero ones
    /// (S = 0) among them. Now a line holds its newest two, and its newest four that aren't zero.
    ///
    /// A line leaves something open if it holds four, at least one of them zero, and the oldest is at most
    /// 14 days old on the station's day: then sets before the four may still count for the test of five.
    /// `older` are these sets of each line, from the laboratory's sheets since the last repair and that
    /// line's last sheet that didn't meet: newest first and without a gap. Those with S = 0 are passed over,
    /// and no more are taken than there is room for. For a line that leaves nothing open they are not looked at.
    ///
    /// Where they aren't known, an empty list will do. Then a test of five may be left out that is due, as long
    /// as the line holds fewer than four sets that aren't zero; one that isn't due is never made.
    ///
    /// Lines that the row lacks are blank: nothing looks at them. docs/MIGRATION.md says the same of every
    /// language.
    ///
    /// # Errors
    /// No sound station ([`RestoreError::Unsound`]); older sets that don't fit before the four
    /// ([`RestoreError::WrongOlderSets`]); another layout or a wrong length ([`RestoreError::Layout`],
    /// [`RestoreError::Length`]).
    ///
    /// ```
    /// use grain::{PastSet, Phase, RestoreError, Station};
    ///
    /// // Wheat of layout 3 on day 20: line 0 is open and holds sets of S 37, 0, 37 and 37.
    /// let mut numbers = [0_i32; 1 + 47];
    /// numbers[..6].copy_from_slice(&[3, 0, 20, 0, 1, 4]);
    /// numbers[6..12].copy_from_slice(&[20, 37, 12, 19, 0, 12]);
    /// numbers[12..18].copy_from_slice(&[17, 37, 12, 16, 37, 12]);
    /// let bytes: Vec<u8> = numbers.iter().flat_map(|number| number.to_le_bytes()).collect();
    /// assert_eq!(Station::from_bytes(&bytes), Err(RestoreError::OlderSets { line: 0 }));
    ///
    /// // The one before them was of day 13.
    /// let older = PastSet { day: 13, sum: 37, count: 12 };
    /// let mut station = Station::from_layout_3(&bytes, [&[older], &[], &[]])?;
    /// let line = station.line(0).unwrap();
    /// assert_eq!((line.newest.len(), line.nonzero.len(), line.nonzero[3]), (2, 4, older));
    ///
    /// // S 37: with the four that aren't zero the average is above 0.03 percent.
    /// let other = [1300, 1303, 1303, -1, -1, -1].repeat(5);
    /// let sheet = [&[1300, 1303, 1304, -1, -1, -1], &other[..]].concat();
    /// let outcome = station.sheet(20, 0, &sheet).unwrap();
    /// assert_eq!((outcome.sum, outcome.change), (37, -3));
    ///
    /// // Without it there are three only, and the test of five is left out.
    /// let mut station = Station::from_layout_3(&bytes, [&[]; 3])?;
    /// assert_eq!(station.sheet(20, 0, &sheet).unwrap().phase, Phase::Open);
    /// # Ok::<(), RestoreError>(())
    /// ```
    pub fn from_layout_3(bytes: &[u8], older: [&[PastSet]; 3]) -> Result<Station, RestoreError> {
        former::restored(bytes, former::TELLING, [false; 3], Some(older))
            .map(|state| Station { state })
    }

    /// Takes up a station stored in layout 1, where a line whose check is due doesn't tell whether it was
    /// adjusted or shut. `shut` tells it of each line: whether its newest accepted sheet gave change 0. It
    /// is looked at where the check is due, and false will do where it isn't known: sheets and certificates
    /// are the same either way, and only [`Refusal::AdjustedLine`] is told for [`Refusal::ShutLine`].
    ///
    /// `older` are the sets before those that a line holds, as in [`Station::from_layout_3`]. docs/MIGRATION.md
    /// says the same of every language.
    ///
    /// # Errors
    /// Those of [`Station::from_layout_3`]. A station with a phase 3, which layout 1 doesn't have, isn't sound.
    ///
    /// ```
    /// use grain::{Asked, Basis, LinePhase, Refusal, RestoreError, Scan, Station};
    ///
    /// // A station of layout 1, 47 numbers, its line's check due (2).
    /// let mut bytes = [0; 4 + 4 * 47];
    /// (bytes[0], bytes[4 + 4 * 3]) = (1, 2);
    /// assert_eq!(Station::from_bytes(&bytes), Err(RestoreError::Layout { found: 1 }));
    ///
    /// let adjusted = Station::from_layout_1(&bytes, [false; 3], [&[]; 3])?;
    /// assert_eq!(adjusted.line(0).unwrap().phase, LinePhase::Adjusted);
    /// let mut shut = Station::from_layout_1(&bytes, [true, false, false], [&[]; 3])?;
    /// assert_eq!(shut.line(0).unwrap().phase, LinePhase::Shut);
    /// let refused = shut.market(1, 0, Scan::Wheat(13.5), Asked::LineFigure, Basis::Dry);
    /// assert_eq!(refused, Err(Refusal::ShutLine));
    /// # Ok::<(), RestoreError>(())
    /// ```
    pub fn from_layout_1(
        bytes: &[u8],
        shut: [bool; 3],
        older: [&[PastSet]; 3],
    ) -> Result<Station, RestoreError> {
        former::restored(bytes, &[store::FIRST], shut, Some(older)).map(|state| Station { state })
    }

    /// The station of 68 numbers. Any may be given: what is no sound station is refused by every
    /// call ([`Refusal::Unsound`]).
    ///
    /// ```
    /// use grain::{Refusal, Station};
    ///
    /// let mut places = Station::open(Station::CORN)?.places();
    /// assert_eq!(Station::from_places(places).repair(5), Ok(()));
    /// places[0] = 7;
    /// assert_eq!(Station::from_places(places).repair(5), Err(Refusal::Unsound));
    /// # Ok::<(), Refusal>(())
    /// ```
    pub fn from_places(places: [i32; ffi::STATION]) -> Station {
        Station {
            state: ffi::Station::of(&places),
        }
    }

    /// Whether the station is sound, as every station is that was opened and then changed by calls alone. One
    /// that isn't is refused by every call ([`Refusal::Unsound`]): ask this of a station taken up from storage.
    /// Lines that the row lacks and places beyond the sets held are not looked at.
    ///
    /// ```
    /// use grain::{Refusal, Station};
    ///
    /// let station = Station::open(Station::WHEAT)?;
    /// assert!(station.is_sound());
    ///
    /// // Line 0's intercept is stored as 10.01 percent.
    /// let mut places = station.places();
    /// places[2] = 1001;
    /// let mut damaged = Station::from_places(places);
    /// assert!(!damaged.is_sound());
    /// assert_eq!(damaged.repair(1), Err(Refusal::Unsound));
    /// # Ok::<(), Refusal>(())
    /// ```
    pub fn is_sound(&self) -> bool {
        // SAFETY: the station is lent for the call, which only reads it.
        let said = unsafe { ffi::grain_station_check(&self.state) };
        answer(said.accepted, said.number).is_ok()
    }

    /// The station's 68 numbers: row, day, then for each line intercept, phase, how many newest sets are
    /// held and two of day, S and N, how many non-zero ones and four of them.
    pub fn places(&self) -> [i32; ffi::STATION] {
        self.state.places()
    }

    /// The product row.
    pub fn row(&self) -> i32 {
        self.state.row
    }

    /// The day of the last accepted call.
    pub fn day(&self) -> i32 {
        self.state.day
    }

    /// Line 0, 1 or 2 as it is held; none if there is no such line or the numbers are none of a
    /// line.
    ///
    /// ```
    /// use grain::{LinePhase, Station};
    ///
    /// let station = Station::open(Station::WHEAT)?;
    /// let protein = station.line(0).unwrap();
    /// assert_eq!((protein.intercept, protein.phase), (0, LinePhase::New));
    /// assert!(protein.newest.is_empty() && protein.nonzero.is_empty());
    /// # Ok::<(), grain::Refusal>(())
    /// ```
    pub fn line(&self, line: usize) -> Option<Line> {
        let line = self.state.lines.get(line)?;
        Some(Line {
            intercept: line.intercept,
            phase: LinePhase::of(line.phase)?,
            newest: held(line.newest_held, &line.newest)?,
            nonzero: held(line.nonzero_held, &line.nonzero)?,
        })
    }

    /// Enters a reference sheet for a line: six numbers a sample (baseline, first, second, third,
    /// again-first, again-second) in hundredths of a percent, -1 for not measured. The samples may
    /// stand in any order: the answer and the station after it are the same.
    ///
    /// # Errors
    /// In this order [`Refusal::Unsound`], [`Refusal::Day`], [`Refusal::NoSuchLine`], [`Refusal::SheetLength`],
    /// [`Refusal::SheetNumber`], [`Refusal::Third`], [`Refusal::Again`].
    ///
    /// # Examples
    /// ```
    /// use grain::{LinePhase, Phase, Refusal, Station};
    ///
    /// let mut station = Station::open(Station::WHEAT)?;
    /// // Every sample 0.11 percent too high: the intercept is lowered and the check is due.
    /// let sheet = [1300, 1311, 1311, -1, -1, -1].repeat(6);
    /// let outcome = station.sheet(1, 0, &sheet)?;
    /// assert_eq!((outcome.sum, outcome.change, outcome.phase), (132, -11, Phase::CheckDue));
    /// assert_eq!(station.line(0).unwrap().phase, LinePhase::Adjusted);
    /// // First and second more than 0.30 apart: a third is due.
    /// let sheet = [1300, 1300, 1331, -1, -1, -1].repeat(6);
    /// assert_eq!(station.sheet(1, 0, &sheet), Err(Refusal::Third));
    /// # Ok::<(), Refusal>(())
    /// ```
    pub fn sheet(&mut self, day: u32, line: u64, numbers: &[i32]) -> Result<Outcome, Refusal> {
        // SAFETY: the station and the numbers are lent for the call and don't overlap.
        let said = unsafe {
            ffi::grain_sheet(&mut self.state, day, line, numbers.as_ptr(), numbers.len())
        };
        answer(said.accepted, said.number)?;
        Ok(Outcome {
            sum: said.sum,
            count: said.count,
            phase: Phase::of(said.phase as i32).expect("the core answers one of three phases"),
            change: said.change,
        })
    }

    /// A repair or new slope on this day: new and open lines become new and their past is emptied. An
    /// adjusted line stays adjusted and a shut one shut. Intercepts stay.
    ///
    /// # Errors
    /// [`Refusal::Unsound`], then [`Refusal::Day`].
    ///
    /// # Examples
    /// ```
    /// use grain::{LinePhase, Station};
    ///
    /// let mut station = Station::open(Station::WHEAT)?;
    /// station.sheet(1, 0, &[1300, 1300, 1300, -1, -1, -1].repeat(6))?;
    /// station.repair(2)?;
    /// assert_eq!(station.line(0).unwrap().phase, LinePhase::New);
    /// # Ok::<(), grain::Refusal>(())
    /// ```
    pub fn repair(&mut self, day: u32) -> Result<(), Refusal> {
        // SAFETY: the station is lent for the call.
        let said = unsafe { ffi::grain_repair(&mut self.state, day) };
        answer(said.accepted, said.number)
    }

    /// A market test of a line. It changes the station's day only.
    ///
    /// # Errors
    /// In this order [`Refusal::Unsound`], [`Refusal::Day`], [`Refusal::NoSuchLine`], [`Refusal::Scan`], for wet
    /// gluten [`Refusal::GlutenClass`] and [`Refusal::GlutenBasis`], [`Refusal::Float`], [`Refusal::Basis`],
    /// [`Refusal::Corrected`], of a line that isn't open [`Refusal::NewLine`], [`Refusal::AdjustedLine`] or
    /// [`Refusal::ShutLine`], [`Refusal::SetTooOld`], [`Refusal::AtBasis`].
    ///
    /// # Examples
    /// ```
    /// use grain::{Asked, Basis, Refusal, Scan, Station};
    ///
    /// let mut station = Station::open(Station::CORN)?;
    /// let mut asked = |scan| station.market(1, 2, scan, Asked::LineFigure, Basis::Standard);
    /// let scan = Scan::Corn { protein: 8.125, oil: 3.9, starch: 71.2 };
    /// assert_eq!(asked(scan), Err(Refusal::NewLine));
    /// assert_eq!(asked(Scan::Fault(17)), Err(Refusal::Scan));
    /// # Ok::<(), Refusal>(())
    /// ```
    ///
    /// A line that isn't open tells why: it is new, it was adjusted, or it was shut.
    ///
    /// ```
    /// use grain::{Asked, Basis, Refusal, Scan, Station};
    ///
    /// let mut station = Station::open(Station::WHEAT)?;
    /// let asked = |station: &mut Station| {
    ///     let scan = Scan::Wheat(13.54);
    ///     station.market(1, 0, scan, Asked::LineFigure, Basis::Standard).unwrap_err()
    /// };
    /// assert_eq!(asked(&mut station), Refusal::NewLine);
    /// // 0.11 percent too high: the intercept is lowered.
    /// station.sheet(1, 0, &[1300, 1311, 1311, -1, -1, -1].repeat(6))?;
    /// assert_eq!(asked(&mut station), Refusal::AdjustedLine);
    /// // 10 percent too high: the intercept would leave its bounds.
    /// station.sheet(1, 0, &[1300, 2311, 2311, -1, -1, -1].repeat(6))?;
    /// assert_eq!(asked(&mut station), Refusal::ShutLine);
    /// # Ok::<(), Refusal>(())
    /// ```
    ///
    /// Wet gluten of hard red wheat is tested under the protein line's phase and newest sheet. Its
    /// intercept is that line's times 3.029, rounded to a hundredth with halves away from zero; it is
    /// reported at 14.0 percent moisture and not converted.
    ///
    /// ```
    /// use grain::{Asked, Basis, Refusal, Scan, Station, WheatClass};
    ///
    /// let mut station = Station::open(Station::WHEAT)?;
    /// // 0.11 percent too high: the intercept becomes -11, and the next sheet meets the check.
    /// station.sheet(1, 0, &[1300, 1311, 1311, -1, -1, -1].repeat(6))?;
    /// station.sheet(2, 0, &[1300, 1311, 1311, -1, -1, -1].repeat(6))?;
    ///
    /// let scan = Scan::WheatGluten { protein: 13.54, gluten: 34.08 };
    /// let winter = Asked::Gluten(WheatClass::HardRedWinter);
    /// let certificate = station.market(3, 0, scan, winter, Basis::Standard)?;
    /// assert_eq!((certificate.day, certificate.intercept, certificate.basis), (2, -33, 1400));
    /// assert_eq!((certificate.figure, certificate.converted), (338, 338));
    ///
    /// let other = Asked::Gluten(WheatClass::Other);
    /// let refused = station.market(3, 0, scan, other, Basis::Standard);
    /// assert_eq!(refused, Err(Refusal::GlutenClass));
    /// let refused = station.market(3, 0, scan, winter, Basis::Specified(1400));
    /// assert_eq!(refused, Err(Refusal::GlutenBasis));
    /// let refused = station.market(3, 0, Scan::Wheat(13.54), winter, Basis::Standard);
    /// assert_eq!(refused, Err(Refusal::Scan));
    /// # Ok::<(), Refusal>(())
    /// ```
    pub fn market(
        &mut self,
        day: u32,
        line: u64,
        scan: Scan,
        asked: Asked,
        basis: Basis,
    ) -> Result<Certificate, Refusal> {
        let (scan_kind, [first, second, third]) = scan.arguments();
        let (basis_kind, basis) = basis.arguments();
        // SAFETY: the station is lent for the call.
        let said = unsafe {
            ffi::grain_market(
                &mut self.state,
                day,
                line,
                scan_kind,
                first,
                second,
                third,
                asked.argument(),
                basis_kind,
                basis,
            )
        };
        answer(said.accepted, said.number)?;
        Ok(Certificate {
            day: said.day,
            intercept: said.intercept,
            basis: said.basis,
            figure: said.figure,
            converted: said.converted,
        })
    }
}

/// The first `count` of the sets; none if there are fewer.
fn held(count: i32, sets: &[PastSet]) -> Option<Vec<PastSet>> {
    let held = sets.get(..usize::try_from(count).ok()?)?;
    Some(held.to_vec())
}

/// The whole hundredth of a percent nearest to an analyser's value in percent, an exact half going up.
///
/// # Errors
/// [`Refusal::Float`]: not a number, below 0 or above 100. Minus zero is 0.
///
/// # Examples
/// ```
/// use grain::{Refusal, reading};
///
/// assert_eq!(reading(0.125), Ok(13));
/// assert_eq!(reading(f32::from_bits(0x3BA3_D70A)), Ok(0)); // just below 0.005
/// assert_eq!(reading(100.1), Err(Refusal::Float));
/// ```
pub fn reading(percent: f32) -> Result<u32, Refusal> {
    let said = ffi::grain_reading(percent);
    answer(said.accepted, said.number).map(|()| said.hundredths)
}

#[cfg(test)]
mod tests {
    use super::*;

    /// A number that the C header defines.
    fn defined(name: &str) -> u32 {
        let words = include_str!("../../include/grain.h")
            .lines()
            .map(|line| line.split_whitespace().collect::<Vec<_>>())
            .find(|words| words.starts_with(&["#define", name]));
        words.unwrap()[2].parse().unwrap()
    }

    #[test]
    fn phases_are_the_headers() {
        for (phase, name) in [
            (LinePhase::New, "GRAIN_NEW"),
            (LinePhase::Open, "GRAIN_OPEN"),
            (LinePhase::Adjusted, "GRAIN_ADJUSTED"),
            (LinePhase::Shut, "GRAIN_SHUT"),
        ] {
            let place = defined(name) as i32;
            assert_eq!(LinePhase::of(place), Some(phase), "{name}");
        }
        for (phase, name) in [
            (Phase::New, "GRAIN_NEW"),
            (Phase::Open, "GRAIN_OPEN"),
            (Phase::CheckDue, "GRAIN_CHECK_DUE"),
        ] {
            assert_eq!(Phase::of(defined(name) as i32), Some(phase), "{name}");
        }
        for none in [-1, 4, i32::MIN, i32::MAX] {
            assert_eq!(LinePhase::of(none), None);
        }
    }

    #[test]
    fn kinds_are_the_headers() {
        let corn = Scan::Corn {
            protein: 0.0,
            oil: 0.0,
            starch: 0.0,
        };
        let set = Scan::WheatGluten {
            protein: 0.0,
            gluten: 0.0,
        };
        for (scan, name) in [
            (Scan::Wheat(0.0), "GRAIN_WHEAT"),
            (corn, "GRAIN_CORN"),
            (Scan::Fault(9), "GRAIN_FAULT"),
            (set, "GRAIN_WHEAT_GLUTEN"),
        ] {
            assert_eq!(scan.arguments().0, defined(name), "{name}");
        }
        let gluten = Asked::Gluten;
        for (asked, name) in [
            (Asked::LineFigure, "GRAIN_LINE_FIGURE"),
            (
                gluten(WheatClass::HardRedWinter),
                "GRAIN_GLUTEN_HARD_RED_WINTER",
            ),
            (
                gluten(WheatClass::HardRedSpring),
                "GRAIN_GLUTEN_HARD_RED_SPRING",
            ),
            (gluten(WheatClass::Other), "GRAIN_GLUTEN_OTHER_CLASS"),
        ] {
            assert_eq!(asked.argument(), defined(name), "{name}");
        }
        for (basis, name) in [
            (Basis::Standard, "GRAIN_STANDARD"),
            (Basis::Dry, "GRAIN_DRY"),
            (Basis::Specified(7), "GRAIN_SPECIFIED"),
            (Basis::AsIs(7), "GRAIN_AS_IS"),
        ] {
            assert_eq!(basis.arguments().0, defined(name), "{name}");
        }
    }
}
