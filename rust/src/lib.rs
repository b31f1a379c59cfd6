//! Safe Rust types over the measuring core of a grain laboratory service: analyser readings,
//! reference sheets and intercepts, market tests, control charts, a calendar, ship lots.
//!
//! A [`Station`] takes reference sheets, repairs and market tests; a [`Chart`] takes weekly sets of
//! monitor samples; [`chart_text`] charts a whole text; [`ship_lot`] states a lot from the records of its
//! sublots. A call answers its result or a [`Refusal`], which has a number and a message. A refused call leaves
//! everything as it was.
//!
//! ```
//! use grain::{Asked, Basis, Hundredths, Refusal, Scan, Station, Tenths, day_from_date};
//!
//! let mut station = Station::open(Station::WHEAT)?;
//! let friday = day_from_date("2026-11-27".parse()?)?;
//! let protein = |station: &mut Station, day| {
//!     station.market(day, 0, Scan::Wheat(13.54), Asked::LineFigure, Basis::Specified(1350))
//! };
//! // Market grain is tested on a line that a reference sheet has opened.
//! assert_eq!(protein(&mut station, friday), Err(Refusal::NewLine));
//!
//! // Six samples: reference value, first and second result; -1 is not measured.
//! let [reference, first, second] = ["13.00", "13.02", "12.98"].map(str::parse::<Hundredths>);
//! let sample = [reference?.0, first?.0, second?.0, -1, -1, -1];
//! station.sheet(friday, 0, &sample.repeat(6))?;
//!
//! let certificate = protein(&mut station, friday)?;
//! assert_eq!(Hundredths(certificate.basis).to_string(), "13.50");
//! assert_eq!(Tenths::try_from(certificate.converted)?.to_string(), "13.3");
//!
//! // A station is stored as bytes. What comes back is asked whether it is sound before it is used.
//! let stored = station.to_bytes();
//! let restored = Station::from_bytes(&stored)?;
//! assert!(restored.is_sound());
//!
//! // Eight days later the sheet is too old, and the refusal says what to do.
//! let refusal = protein(&mut station, friday + 8).unwrap_err();
//! assert_eq!(
//!     refusal.to_string(),
//!     "refused (13): the line's newest reference sheet is more than 7 days old; enter a new one first"
//! );
//! # Ok::<(), Box<dyn std::error::Error>>(())
//! ```
//!
//! # Units
//!
//! | What | Unit | For example |
//! |---|---|---|
//! | readings of the analyser ([`Scan`], [`reading`]) | percent, `f32` | `13.54` |
//! | sheets, sums, intercepts, moisture bases, chart results, plots, ranges | hundredths of a percent | `1354` |
//! | certified figures, figures of a lot | tenths of a percent | `135` |
//! | tonnes of a lot | tonnes | `40` |
//! | days | whole numbers from 0 to 99999 | `9827` |
//! | weeks of a chart | whole numbers from 1 to 9999, rising over the year's end | `2652`, `2701` |
//!
//! The calls take and answer plain numbers, as they lie in memory for the core. [`Hundredths`] and [`Tenths`]
//! read and print them as people write them, `13.54` and `13.5`.
//!
//! Station calls take a day by its number, counted as the laboratory likes. The calendar is one way to
//! count: [`day_from_date`] and [`date_from_day`] turn a [`Date`] into a day and back, day 0 being
//! 1 January 2000; [`weekday`], [`working_day`] and [`results_due`] go on from a day.
//!
//! # Stored states
//!
//! Stations and charts are plain numbers without pointers. `to_bytes` stores one with the number of
//! its layout ([`LAYOUT`]) in front, `from_bytes` takes it up again, and `is_sound` tells whether the calls will
//! take it. They may go to any thread; a call borrows its own alone.
//!
//! A station stored in layout 2 or 3 is carried over by [`Station::from_bytes`] too, unless sets that it didn't
//! keep may still count ([`RestoreError::OlderSets`]): then by [`Station::from_layout_3`]. One stored in layout 1
//! is carried over by [`Station::from_layout_1`]. A chart stored in layout 3 is taken up as it is, one with sets
//! stored in layout 1 or 2 has to be charted anew ([`RestoreError::ChartOfSums`]). docs/MIGRATION.md of the
//! library says the same of every language.
//!
//! # Linking
//!
//! The rules are in the library `libgrain.a`, which is linked into the program. It is looked for in the folder
//! that the environment variable `GRAIN_LIB_DIR` names; where that isn't set, in `../lib` beside this crate, as in
//! the unpacked archive, then where `tools/dist` makes it in a checkout. Without a library `cargo check`,
//! `cargo doc` and editors work, and programs don't link. The calls are linked by names that carry the number of
//! the interface ([`ffi::INTERFACE`]): a library of another interface doesn't link.

#![deny(missing_docs)]
#![deny(unsafe_op_in_unsafe_fn)]

mod calendar;
mod chart;
pub mod ffi;
mod former;
mod lot;
mod percent;
mod refusal;
mod station;
mod store;

pub use calendar::{
    Date, LAST_DAY, ParseDateError, Weekday, date_from_day, day_from_date, results_due, weekday,
    working_day,
};
pub use chart::{Chart, ChartValues, TextRefusal, chart_text, chart_text_into};
pub use ffi::LAYOUT;
pub use lot::{LOT_RECORDS, LotStatement, Sublot, ship_lot};
pub use percent::{Hundredths, ParsePercentError, Tenths};
pub use refusal::Refusal;
pub use station::{
    Asked, Basis, Certificate, Line, LinePhase, Outcome, PastSet, Phase, Scan, Station, WheatClass,
    reading,
};
pub use store::RestoreError;
