//! The rules of docs/SPECIFICATION.md written plainly, to compare the measuring core with.
//!
//! Whole numbers only: a float enters by its bits, every distance is stated with its denominators
//! multiplied out. A refusal is its number. Each item says the rule it stands for.
//! Quantities are whole hundredths of a percent unless tenths are named.

pub mod book;
pub mod calendar;
pub mod chart;
pub mod line;
pub mod lot;
pub mod market;
pub mod reading;
pub mod rules;
pub mod sheet;
pub mod station;
pub mod text;

pub use book::Book;
pub use calendar::{Calendar, Date};
pub use chart::{Chart, ChartSet, ChartValues};
pub use line::{Past, Test, Verdict};
pub use lot::{LotStatement, Sublot, ship_lot};
pub use market::{Asked, Basis, Certificate, Scan, WheatClass};
pub use reading::reading;
pub use rules::Rules;
pub use sheet::{Judged, Outcome};
pub use station::{Held, Line, LinePhase, PastSet, Phase, Station};
pub use text::TextRefusal;

/// A refused call answers the number.
pub type Refusal = u8;
