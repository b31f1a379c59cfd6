//! Stored states: the layout's number, then the places, four bytes each, little-endian.

use std::error::Error;
use std::fmt;

use crate::ffi::LAYOUT;

/// The first layout. Its stations are those of layout 3, but a line's phase means another thing; a chart
/// holds sums where it holds plots now.
pub(crate) const FIRST: u32 = 1;
/// The second. Its stations are those of layout 3; a chart holds sums as in the first.
pub(crate) const SECOND: u32 = 2;
/// The layout before this one. Its stations hold four past sets a line, zero or not; its charts are those of
/// this layout.
pub(crate) const THIRD: u32 = 3;

/// Why stored bytes are not taken up as a station or chart. Other reasons may come: let a `match` have an arm
/// for the rest.
///
/// ```
/// use grain::{RestoreError, Station};
///
/// let mut bytes = Station::open(Station::WHEAT).unwrap().to_bytes();
/// let error = Station::from_bytes(&bytes[..190]).unwrap_err();
/// assert_eq!(error.to_string(), "190 bytes are stored where 276 belong");
/// bytes[0] = 5;
/// let error = Station::from_bytes(&bytes).unwrap_err();
/// assert_eq!(error, RestoreError::Layout { found: 5 });
/// assert_eq!(error.to_string(), "stored in layout 5, which this version (layout 4) does not read");
/// ```
#[derive(Clone, Copy, Debug, PartialEq, Eq, Hash)]
#[non_exhaustive]
pub enum RestoreError {
    /// The bytes begin with the number of a layout that the call doesn't read. Each station has its call:
    /// of layout 1 [`Station::from_layout_1`](crate::Station::from_layout_1), of 2 and 3
    /// [`Station::from_bytes`](crate::Station::from_bytes) or
    /// [`Station::from_layout_3`](crate::Station::from_layout_3), of 4 `from_bytes`.
    Layout {
        /// The layout's number.
        found: u32,
    },
    /// The bytes are a chart of this row stored in layout 1 or 2. Its sets hold sums of differences, from
    /// which no plot can be computed: open the row anew and chart the sets of the newest four weeks again,
    /// in their order.
    ChartOfSums {
        /// The layout's number.
        found: u32,
        /// The chart row.
        row: i32,
    },
    /// The bytes are too few or too many.
    Length {
        /// How many bytes there are.
        found: usize,
        /// How many a state of this layout has.
        needed: usize,
    },
    /// The bytes are a station stored in layout 2 or 3, and of this line they don't say all: it holds four
    /// sets, at least one of them zero, and sets before these four may still count for the test of five.
    /// [`Station::from_layout_3`](crate::Station::from_layout_3) takes it up.
    OlderSets {
        /// 0, 1 or 2.
        line: usize,
    },
    /// The older sets given for this line can't stand before the four that it holds: a day is later than
    /// that of the set after it, or N or S is out of bounds.
    WrongOlderSets {
        /// 0, 1 or 2.
        line: usize,
    },
    /// The bytes are a station stored in layout 1, 2 or 3 that the version before refuses by 0
    /// ([`Refusal::Unsound`](crate::Refusal::Unsound)). It is not carried over, as that leaves numbers out
    /// and could hide the damage.
    Unsound {
        /// The layout's number.
        found: u32,
    },
}

impl fmt::Display for RestoreError {
    fn fmt(&self, f: &mut fmt::Formatter) -> fmt::Result {
        match self {
            RestoreError::Layout { found } => write_layout(f, *found),
            RestoreError::ChartOfSums { found, row } => write!(
                f,
                "a chart stored in layout {found} holds sums of differences, from which no plot can be \
                 computed: open its row {row} anew and chart the sets of its newest four weeks again, in \
                 their order"
            ),
            RestoreError::Length { found, needed } => {
                write!(f, "{found} bytes are stored where {needed} belong")
            }
            RestoreError::OlderSets { line } => write!(
                f,
                "line {line} of the stored station holds four sheets, at least one of them with sum 0, and \
                 earlier sheets, which it doesn't hold, may still count for the test of five: take it up \
                 by `Station::from_layout_3`, with the sets of these sheets, or with none where they aren't \
                 known"
            ),
            RestoreError::WrongOlderSets { line } => write!(
                f,
                "the older sets given for line {line} can't stand before the four that it holds: from \
                 newest to oldest the days never rise, the count is even, from 2 to twice the samples of a \
                 sheet, and the sum is at most 11000 times the count"
            ),
            RestoreError::Unsound { found } => write!(
                f,
                "the station stored in layout {found} is damaged; restore it from a copy or open a new one"
            ),
        }
    }
}

/// Which call takes up a station of this layout, as each message has to be true of the call that gives it.
fn write_layout(f: &mut fmt::Formatter, found: u32) -> fmt::Result {
    match found {
        FIRST => write!(
            f,
            "a station stored in layout {found} is taken up by `Station::from_layout_1`"
        ),
        SECOND | THIRD => write!(
            f,
            "a station stored in layout {found} is taken up by `Station::from_bytes` or \
             `Station::from_layout_3`"
        ),
        LAYOUT => write!(
            f,
            "a station stored in layout {found} is taken up by `Station::from_bytes`: nothing is to be \
             carried over"
        ),
        _ => write!(
            f,
            "stored in layout {found}, which this version (layout {LAYOUT}) does not read"
        ),
    }
}

impl Error for RestoreError {}

/// Writes the layout's number and the places. `BYTES` is four for each of them.
pub(crate) fn stored<const BYTES: usize>(places: &[i32]) -> [u8; BYTES] {
    let mut bytes = [0; BYTES];
    let (head, rest) = bytes.split_at_mut(4);
    head.copy_from_slice(&LAYOUT.to_le_bytes());
    for (bytes, place) in rest.chunks_exact_mut(4).zip(places) {
        bytes.copy_from_slice(&place.to_le_bytes());
    }
    bytes
}

/// The layout's number in front of stored bytes, if they are long enough to have one.
pub(crate) fn layout_of(bytes: &[u8]) -> Option<u32> {
    let head = bytes.first_chunk()?;
    Some(u32::from_le_bytes(*head))
}

/// Reads the places of a state stored in one of these layouts, and tells in which. Another layout is told
/// before a wrong length: its states may be longer or shorter.
pub(crate) fn restored<const PLACES: usize>(
    bytes: &[u8],
    layouts: &[u32],
) -> Result<(u32, [i32; PLACES]), RestoreError> {
    let length = RestoreError::Length {
        found: bytes.len(),
        needed: 4 + 4 * PLACES,
    };
    let found = layout_of(bytes).ok_or(length)?;
    if !layouts.contains(&found) {
        return Err(RestoreError::Layout { found });
    }
    if bytes.len() != 4 + 4 * PLACES {
        return Err(length);
    }
    let mut places = [0; PLACES];
    for (place, bytes) in places.iter_mut().zip(bytes[4..].chunks_exact(4)) {
        *place = i32::from_le_bytes([bytes[0], bytes[1], bytes[2], bytes[3]]);
    }
    Ok((found, places))
}
