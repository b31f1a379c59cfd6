//! The C interface of the core, as `include/grain.h` declares it.
//!
//! Everything here is also offered by the safe types of this crate. Every call answers a struct:
//! `accepted` is 1 or 0, `number` the refusal's number (0 if accepted), then the values, which are 0
//! where a call is refused; only a refused text carries its text line.
//!
//! The calls are linked by names that end in the interface's number ([`INTERFACE`]), `grain_open_1` and
//! so on. With a library of another interface a program doesn't link.

use std::ffi::c_char;

pub use crate::lot::Sublot;
pub use crate::station::PastSet;

/// The number of the layout of stored states. Changes whenever [`Station`] or [`Chart`] does, or what
/// their fields mean.
pub const LAYOUT: u32 = 4;

/// Places (numbers) of a station.
pub const STATION: usize = 68;
/// Places (numbers) of a chart.
pub const CHART: usize = 15;

/// The phase of a [`Line`] without an accepted sheet, or of one that was open and then repaired.
pub const NEW: i32 = 0;
/// The phase of a [`Line`] whose newest sheet met every average due.
pub const OPEN: i32 = 1;
/// The phase of a [`Line`] whose newest sheet changed the intercept: its check is due.
pub const ADJUSTED: i32 = 2;
/// The phase of a [`Line`] whose newest sheet kept nothing, or would have moved the intercept out of its
/// bounds: its check is due.
pub const SHUT: i32 = 3;
/// The phase of an [`Outcome`] that isn't [`OPEN`]: the line is adjusted or shut.
pub const CHECK_DUE: i32 = 2;

/// A line of a station.
#[repr(C)]
#[derive(Clone, Copy, Debug, Default, PartialEq, Eq, Hash)]
pub struct Line {
    /// Added to every reading, hundredths of a percent, -1000 to 1000.
    pub intercept: i32,
    /// [`NEW`], [`OPEN`], [`ADJUSTED`] or [`SHUT`].
    pub phase: i32,
    /// How many of `newest` are in use: 1 or 2 on an open line, else 0.
    pub newest_held: i32,
    /// The newest sheets that met, newest first.
    pub newest: [PastSet; 2],
    /// How many of `nonzero` are in use: 0 to 4 on an open line, else 0.
    pub nonzero_held: i32,
    /// The newest sheets that met and whose sum isn't 0, newest first.
    pub nonzero: [PastSet; 4],
}

/// A station's state.
#[repr(C)]
#[derive(Clone, Copy, Debug, Default, PartialEq, Eq, Hash)]
pub struct Station {
    /// The product row: 0 wheat, 1 corn.
    pub row: i32,
    /// The day of the last accepted call, 0 if there was none.
    pub day: i32,
    /// Wheat uses the first.
    pub lines: [Line; 3],
}

/// A charted set.
#[repr(C)]
#[derive(Clone, Copy, Debug, Default, PartialEq, Eq, Hash)]
pub struct HeldSet {
    /// Pairs, 1 to 5.
    pub count: i32,
    /// The plotted average, hundredths of a percent.
    pub plot: i32,
    /// The largest minus the smallest difference, hundredths of a percent.
    pub range: i32,
}

/// A chart's state.
#[repr(C)]
#[derive(Clone, Copy, Debug, Default, PartialEq, Eq, Hash)]
pub struct Chart {
    /// The chart row, 0 to 3.
    pub row: i32,
    /// The week of the set charted last, 0 if there is none.
    pub week: i32,
    /// How many of `sets` are in use, 0 to 4.
    pub held: i32,
    /// The newest sets, newest first.
    pub sets: [HeldSet; 4],
}

/// An answer without values.
#[repr(C)]
#[derive(Clone, Copy, Debug, Default, PartialEq, Eq, Hash)]
pub struct Answer {
    /// 1, or 0 if refused.
    pub accepted: u32,
    /// The refusal's number, 0 if accepted.
    pub number: u32,
}

/// The answer to a reading.
#[repr(C)]
#[derive(Clone, Copy, Debug, Default, PartialEq, Eq, Hash)]
pub struct Value {
    /// 1, or 0 if refused.
    pub accepted: u32,
    /// The refusal's number, 0 if accepted.
    pub number: u32,
    /// Hundredths of a percent, 0 to 10000.
    pub hundredths: u32,
}

/// The answer to a sheet.
#[repr(C)]
#[derive(Clone, Copy, Debug, Default, PartialEq, Eq, Hash)]
pub struct Outcome {
    /// 1, or 0 if refused.
    pub accepted: u32,
    /// The refusal's number, 0 if accepted.
    pub number: u32,
    /// S: the sum of the kept samples' deviations, hundredths of a percent.
    pub sum: i32,
    /// N: twice the number of samples kept, 0 if none was.
    pub count: u32,
    /// Of the line after the sheet: [`OPEN`] or [`CHECK_DUE`].
    pub phase: u32,
    /// Of the line's intercept, hundredths of a percent, 0 if none.
    pub change: i32,
}

/// The answer to a market test.
#[repr(C)]
#[derive(Clone, Copy, Debug, Default, PartialEq, Eq, Hash)]
pub struct Certificate {
    /// 1, or 0 if refused.
    pub accepted: u32,
    /// The refusal's number, 0 if accepted.
    pub number: u32,
    /// The day of the line's newest sheet.
    pub day: u32,
    /// The line's intercept, or the one derived from it for wet gluten, hundredths of a percent.
    pub intercept: i32,
    /// The moisture basis B, hundredths of a percent.
    pub basis: i32,
    /// The reading with its intercept, tenths of a percent.
    pub figure: u32,
    /// The same at B, tenths of a percent.
    pub converted: u32,
}

/// The answer to a chart's set: the fields of the output line and its length.
#[repr(C)]
#[derive(Clone, Copy, Debug, Default, PartialEq, Eq, Hash)]
pub struct Charted {
    /// 1, or 0 if refused.
    pub accepted: u32,
    /// The refusal's number, 0 if accepted.
    pub number: u32,
    /// The week of the set.
    pub week: u32,
    /// Pairs.
    pub count: u32,
    /// The plotted average, hundredths of a percent.
    pub plot: i32,
    /// The largest minus the smallest difference, hundredths of a percent.
    pub range: u32,
    /// 1 or 0: the plot is at or beyond the absolute limit.
    pub al: u32,
    /// 1 or 0: the plot and the one before are at or beyond the tolerance limit, on one side.
    pub tl: u32,
    /// 1 or 0: this and three of the previous four plots make a run.
    pub run: u32,
    /// 1 or 0: the range is at or above its absolute limit.
    pub ral: u32,
    /// 1 or 0: the range and the one before are at or above their tolerance limit.
    pub rtl: u32,
    /// Bytes written, the line feed included.
    pub length: u32,
}

/// The answer to a text.
#[repr(C)]
#[derive(Clone, Copy, Debug, Default, PartialEq, Eq, Hash)]
pub struct Written {
    /// 1, or 0 if refused.
    pub accepted: u32,
    /// The refusal's number, 0 if accepted.
    pub number: u32,
    /// The text line that is refused, 1 the names line; 0 if accepted or no line is meant.
    pub line: u32,
    /// Bytes written.
    pub length: u32,
}

/// The answer that is a day of the calendar.
#[repr(C)]
#[derive(Clone, Copy, Debug, Default, PartialEq, Eq, Hash)]
pub struct Day {
    /// 1, or 0 if refused.
    pub accepted: u32,
    /// The refusal's number, 0 if accepted.
    pub number: u32,
    /// 0 to 99999.
    pub day: u32,
}

/// The answer that is a date.
#[repr(C)]
#[derive(Clone, Copy, Debug, Default, PartialEq, Eq, Hash)]
pub struct Date {
    /// 1, or 0 if refused.
    pub accepted: u32,
    /// The refusal's number, 0 if accepted.
    pub number: u32,
    /// 2000 to 2273.
    pub year: u32,
    /// 1 to 12.
    pub month: u32,
    /// The day of the month, from 1.
    pub day: u32,
}

/// The answer that is a weekday.
#[repr(C)]
#[derive(Clone, Copy, Debug, Default, PartialEq, Eq, Hash)]
pub struct Weekday {
    /// 1, or 0 if refused.
    pub accepted: u32,
    /// The refusal's number, 0 if accepted.
    pub number: u32,
    /// 1 (Monday) to 7 (Sunday).
    pub weekday: u32,
}

/// The answer to a ship lot.
#[repr(C)]
#[derive(Clone, Copy, Debug, Default, PartialEq, Eq, Hash)]
pub struct Lot {
    /// 1, or 0 if refused.
    pub accepted: u32,
    /// The refusal's number, 0 if accepted.
    pub number: u32,
    /// The moisture basis of every record, hundredths of a percent.
    pub basis: i32,
    /// The lowest figure, tenths of a percent.
    pub lowest: u32,
    /// The highest figure, tenths of a percent.
    pub highest: u32,
    /// The mean figure, tenths of a percent, rounded once, an exact half going up.
    pub mean: u32,
    /// The tonnes of all records.
    pub tonnes: u64,
    /// The sum of figure times tonnes.
    pub weighted_sum: u64,
}

/// Checks a struct's size, its alignment (4 unless another is named) and the offset of each of its
/// fields.
macro_rules! layout {
    ($type:ident: $size:literal, $($fields:tt)+) => {
        layout!($type: $size by 4, $($fields)+);
    };
    ($type:ident: $size:literal by $align:expr, $($field:ident: $offset:literal),+) => {
        const _: () = assert!(size_of::<$type>() == $size);
        const _: () = assert!(align_of::<$type>() == $align);
        $(const _: () = assert!(std::mem::offset_of!($type, $field) == $offset);)+
    };
}

layout!(PastSet: 12, day: 0, sum: 4, count: 8);
layout!(
    Line: 88,
    intercept: 0, phase: 4, newest_held: 8, newest: 12, nonzero_held: 36, nonzero: 40
);
layout!(Station: 272, row: 0, day: 4, lines: 8);
layout!(HeldSet: 12, count: 0, plot: 4, range: 8);
layout!(Chart: 60, row: 0, week: 4, held: 8, sets: 12);
layout!(Answer: 8, accepted: 0, number: 4);
layout!(Value: 12, accepted: 0, number: 4, hundredths: 8);
layout!(Outcome: 24, accepted: 0, number: 4, sum: 8, count: 12, phase: 16, change: 20);
layout!(
    Certificate: 28,
    accepted: 0, number: 4, day: 8, intercept: 12, basis: 16, figure: 20, converted: 24
);
layout!(
    Charted: 48,
    accepted: 0, number: 4, week: 8, count: 12, plot: 16, range: 20,
    al: 24, tl: 28, run: 32, ral: 36, rtl: 40, length: 44
);
layout!(Written: 16, accepted: 0, number: 4, line: 8, length: 12);
layout!(Day: 12, accepted: 0, number: 4, day: 8);
layout!(Date: 20, accepted: 0, number: 4, year: 8, month: 12, day: 16);
layout!(Weekday: 12, accepted: 0, number: 4, weekday: 8);
layout!(Sublot: 12, figure: 0, basis: 4, tonnes: 8);
layout!(
    Lot: 40 by align_of::<u64>(),
    accepted: 0, number: 4, basis: 8, lowest: 12, highest: 16, mean: 20, tonnes: 24, weighted_sum: 32
);

impl PastSet {
    fn places(self) -> [i32; 3] {
        [self.day, self.sum, self.count]
    }

    pub(crate) fn of(places: &[i32]) -> PastSet {
        PastSet {
            day: places[0],
            sum: places[1],
            count: places[2],
        }
    }
}

impl HeldSet {
    fn places(self) -> [i32; 3] {
        [self.count, self.plot, self.range]
    }

    fn of(places: &[i32]) -> HeldSet {
        HeldSet {
            count: places[0],
            plot: places[1],
            range: places[2],
        }
    }
}

impl Line {
    /// Places of a line.
    const PLACES: usize = 22;

    fn places(&self) -> [i32; Line::PLACES] {
        let mut places = [0; Line::PLACES];
        places[..3].copy_from_slice(&[self.intercept, self.phase, self.newest_held]);
        let newest = self.newest.map(PastSet::places);
        places[3..9].copy_from_slice(newest.as_flattened());
        places[9] = self.nonzero_held;
        let nonzero = self.nonzero.map(PastSet::places);
        places[10..].copy_from_slice(nonzero.as_flattened());
        places
    }

    fn of(places: &[i32]) -> Line {
        let set = |start: usize| PastSet::of(&places[start..]);
        Line {
            intercept: places[0],
            phase: places[1],
            newest_held: places[2],
            newest: [3, 6].map(set),
            nonzero_held: places[9],
            nonzero: [10, 13, 16, 19].map(set),
        }
    }
}

impl Station {
    /// The numbers in the order in which they lie in memory.
    pub fn places(&self) -> [i32; STATION] {
        let mut places = [0; STATION];
        places[..2].copy_from_slice(&[self.row, self.day]);
        let lines = self.lines.map(|line| line.places());
        places[2..].copy_from_slice(lines.as_flattened());
        places
    }

    /// The station of these numbers.
    pub fn of(places: &[i32; STATION]) -> Station {
        Station {
            row: places[0],
            day: places[1],
            lines: [2, 24, 46].map(|start| Line::of(&places[start..])),
        }
    }
}

impl Chart {
    /// The numbers in the order in which they lie in memory.
    pub fn places(&self) -> [i32; CHART] {
        let mut places = [0; CHART];
        places[..3].copy_from_slice(&[self.row, self.week, self.held]);
        for (set, places) in self.sets.iter().zip(places[3..].chunks_exact_mut(3)) {
            places.copy_from_slice(&set.places());
        }
        places
    }

    /// The chart of these numbers.
    pub fn of(places: &[i32; CHART]) -> Chart {
        Chart {
            row: places[0],
            week: places[1],
            held: places[2],
            sets: [3, 6, 9, 12].map(|start| HeldSet::of(&places[start..])),
        }
    }
}

/// Declares the calls that end in the interface's number, each linked by its name, `_` and that number.
macro_rules! calls {
    (
        $(#[$about:meta])*
        pub const INTERFACE: u32 = $interface:literal;
        $(
            $(#[$attribute:meta])*
            pub $safety:ident fn $name:ident($($argument:ident: $type:ty),* $(,)?) -> $answer:ty;
        )+
    ) => {
        $(#[$about])*
        pub const INTERFACE: u32 = $interface;

        unsafe extern "C" {
            $(
                $(#[$attribute])*
                #[link_name = concat!(stringify!($name), "_", $interface)]
                pub $safety fn $name($($argument: $type),*) -> $answer;
            )+
        }
    };
}

calls! {
    /// The number of the C interface. Changes whenever a struct that crosses or the signature of a call does,
    /// of states and of answers alike. It is part of the names that the calls are linked by.
    pub const INTERFACE: u32 = 1;

    /// The whole hundredth nearest to an analyser's value in percent. Any float may be asked.
    pub safe fn grain_reading(percent: f32) -> Value;

    /// A fresh station of a product row.
    ///
    /// # Safety
    /// `station` may be written to.
    pub unsafe fn grain_open(station: *mut Station, row: u64) -> Answer;

    /// Enters a reference sheet for a line.
    ///
    /// # Safety
    /// `station` may be read and written, `numbers` has `numbers_len` numbers (or is null and has
    /// none), and the two don't overlap.
    pub unsafe fn grain_sheet(
        station: *mut Station,
        day: u32,
        line: u64,
        numbers: *const i32,
        numbers_len: usize,
    ) -> Outcome;

    /// Enters a repair or a new slope.
    ///
    /// # Safety
    /// `station` may be read and written.
    pub unsafe fn grain_repair(station: *mut Station, day: u32) -> Answer;

    /// Tests market grain on a line.
    ///
    /// # Safety
    /// `station` may be read and written.
    pub unsafe fn grain_market(
        station: *mut Station,
        day: u32,
        line: u64,
        scan_kind: u32,
        first: f32,
        second: f32,
        third: f32,
        asked: u32,
        basis_kind: u32,
        basis: i32,
    ) -> Certificate;

    /// Whether a station is sound: accepted, or refused by 0, as every call on it would be.
    ///
    /// # Safety
    /// `station` may be read.
    pub unsafe fn grain_station_check(station: *const Station) -> Answer;

    /// A fresh chart of a chart row.
    ///
    /// # Safety
    /// `chart` may be written to.
    pub unsafe fn grain_chart_open(chart: *mut Chart, row: u64) -> Answer;

    /// Charts a week's set.
    ///
    /// # Safety
    /// `chart` may be read and written, `numbers` and `line` have their lengths (or are null and
    /// have none), and the three don't overlap.
    pub unsafe fn grain_chart_set(
        chart: *mut Chart,
        week: u32,
        numbers: *const i32,
        numbers_len: usize,
        line: *mut u8,
        line_len: usize,
    ) -> Charted;

    /// Charts a whole text.
    ///
    /// # Safety
    /// `text` and `out` have their lengths (or are null and have none) and don't overlap.
    pub unsafe fn grain_chart_text(
        text: *const u8,
        text_len: usize,
        out: *mut u8,
        out_len: usize,
    ) -> Written;

    /// Whether a chart is sound: accepted, or refused by 0, as every call on it would be.
    ///
    /// # Safety
    /// `chart` may be read.
    pub unsafe fn grain_chart_check(chart: *const Chart) -> Answer;

    /// The day that has this date. Any numbers may be asked.
    pub safe fn grain_day_from_date(year: u32, month: u32, day: u32) -> Day;

    /// The date of a day. Any number may be asked.
    pub safe fn grain_date_from_day(day: u32) -> Date;

    /// The weekday of a day. Any number may be asked.
    pub safe fn grain_weekday_of_day(day: u32) -> Weekday;

    /// The day that is so many working days after a day.
    ///
    /// # Safety
    /// `holidays` has `holidays_len` numbers (or is null and has none).
    pub unsafe fn grain_working_day(
        day: u32,
        count: u32,
        holidays: *const i32,
        holidays_len: usize,
    ) -> Day;

    /// The day by which monitoring results are due.
    ///
    /// # Safety
    /// `holidays` has `holidays_len` numbers (or is null and has none).
    pub unsafe fn grain_results_due(
        day: u32,
        holidays: *const i32,
        holidays_len: usize,
    ) -> Day;

    /// States a ship lot from its sublots' records.
    ///
    /// # Safety
    /// `records` has `count` records (or is null and has none).
    pub unsafe fn grain_ship_lot(records: *const Sublot, count: usize) -> Lot;

    /// The message of a refusal's number: a C string that stands as long as the program runs. Any number may
    /// be asked.
    pub safe fn grain_message(number: u32) -> *const c_char;
}

// These three keep their signatures in every interface, so that their names need no number.
unsafe extern "C" {
    /// The library's interface: [`INTERFACE`] where this crate links.
    pub safe fn grain_interface() -> u32;

    /// The library's layout of stored states, to be compared with [`LAYOUT`].
    pub safe fn grain_layout() -> u32;

    /// The library's version: a C string that stands as long as the program runs.
    pub safe fn grain_version() -> *const c_char;
}
