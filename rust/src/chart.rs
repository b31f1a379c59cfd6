//! Control charts: one set at a time, or a whole text.

use std::error::Error;
use std::fmt;

use crate::ffi::{self, LAYOUT};
use crate::refusal::{Refusal, answer};
use crate::store::{self, RestoreError};

/// A control chart: its row, its last week and its newest sets, at most four.
///
/// The state is 15 numbers, which may be stored ([`Chart::to_bytes`]) and taken up again
/// ([`Chart::from_bytes`]). A refused call leaves it as it was.
///
/// ```
/// use grain::Chart;
///
/// let mut chart = Chart::open(Chart::WHEAT_PROTEIN)?;
/// let week_26 = [1315, 1307, 1018, 1054, 1447, 1479, 1256, 1223, 1857, 1877];
/// let mut line = [0; Chart::LINE];
/// let values = chart.set(26, &week_26, &mut line)?;
/// // The originals' mean is 1378.6 and the monitor's 1388.0: 1379 minus 1388 is plotted.
/// assert_eq!((values.count, values.plot, values.range), (5, -9, 69));
/// assert!(values.range_absolute && !values.average_absolute);
/// assert_eq!(&line[..values.length], b"26 5 -9 69 0 0 0 1 0\n");
/// # Ok::<(), grain::Refusal>(())
/// ```
#[derive(Clone, Debug, PartialEq, Eq, Hash)]
#[repr(transparent)]
pub struct Chart {
    state: ffi::Chart,
}

/// What a charted set gave.
#[derive(Clone, Copy, Debug, PartialEq, Eq, Hash)]
pub struct ChartValues {
    /// The week of the set.
    pub week: u32,
    /// The number of pairs.
    pub count: u32,
    /// The plotted average in hundredths of a percent: the original mean minus the monitor mean, each first
    /// rounded to a hundredth, halves up.
    pub plot: i32,
    /// The largest minus the smallest difference, in hundredths of a percent.
    pub range: u32,
    /// The plot is at or beyond the absolute limit.
    pub average_absolute: bool,
    /// The plot and the one before are at or beyond the tolerance limit on one side.
    pub average_tolerance: bool,
    /// This and three of the previous four plots lie on one side of zero, their exact mean beyond the run
    /// limit.
    pub run: bool,
    /// The range is at or above its absolute limit.
    pub range_absolute: bool,
    /// The range and the one before are at or above their tolerance limit.
    pub range_tolerance: bool,
    /// The length of the output line, its line feed included.
    pub length: usize,
}

/// A refused text: why, and the text line it is about (the names line is 1; 0 where no line is
/// meant).
///
/// ```
/// use grain::{Refusal, chart_text};
///
/// let refused = chart_text(b"week sample original monitor\n26 1 1315\n").unwrap_err();
/// assert_eq!((refused.refusal, refused.line), (Refusal::ValueLine, 2));
/// ```
#[derive(Clone, Copy, Debug, PartialEq, Eq, Hash)]
pub struct TextRefusal {
    /// Why the text is refused.
    pub refusal: Refusal,
    /// The text line: 1 is the names line, 0 no line.
    pub line: u32,
}

impl fmt::Display for TextRefusal {
    fn fmt(&self, f: &mut fmt::Formatter) -> fmt::Result {
        match self.line {
            0 => self.refusal.fmt(f),
            line => write!(f, "text line {line}: {}", self.refusal),
        }
    }
}

impl Error for TextRefusal {}

impl Chart {
    /// The chart row of wheat protein.
    pub const WHEAT_PROTEIN: u64 = 0;
    /// The chart row of barley protein.
    pub const BARLEY_PROTEIN: u64 = 1;
    /// The chart row of soybean protein.
    pub const SOYBEAN_PROTEIN: u64 = 2;
    /// The chart row of soybean oil.
    pub const SOYBEAN_OIL: u64 = 3;

    /// The bytes that a buffer for an output line must have.
    pub const LINE: usize = 40;

    /// The bytes of a stored chart.
    pub const BYTES: usize = 4 + 4 * ffi::CHART;

    /// A fresh chart of a chart row.
    ///
    /// # Errors
    /// [`Refusal::NoSuchRow`]: none of the four.
    pub fn open(row: u64) -> Result<Chart, Refusal> {
        let mut state = ffi::Chart::default();
        // SAFETY: the chart is lent for the call.
        let said = unsafe { ffi::grain_chart_open(&mut state, row) };
        answer(said.accepted, said.number).map(|()| Chart { state })
    }

    /// The chart to be stored: the layout's number and the 15 numbers, little-endian.
    pub fn to_bytes(&self) -> [u8; Chart::BYTES] {
        store::stored(&self.places())
    }

    /// Takes up a chart stored in layout 4 or 3, which are alike, or one without sets stored in layout 1 or 2.
    /// Numbers that are no sound chart are taken up as well, and refused by every call
    /// ([`Refusal::Unsound`]); [`Chart::is_sound`] tells it before.
    ///
    /// # Errors
    /// A chart with sets of layout 1 or 2 ([`RestoreError::ChartOfSums`]): there a set holds the sum of its
    /// differences, from which no plot can be computed. Open its row anew and chart the sets of its newest four
    /// weeks again, in their order. That makes the chart that it would be. Another layout or a wrong length
    /// ([`RestoreError::Layout`], [`RestoreError::Length`]).
    ///
    /// # Examples
    /// ```
    /// use grain::{Chart, RestoreError};
    ///
    /// let mut chart = Chart::open(Chart::SOYBEAN_OIL).unwrap();
    /// chart.set(26, &[1900, 1885], &mut [0; Chart::LINE]).unwrap();
    /// let mut bytes = chart.to_bytes();
    /// assert_eq!(Chart::from_bytes(&bytes)?, chart);
    /// bytes[0] = 2;
    /// let error = RestoreError::ChartOfSums { found: 2, row: 3 };
    /// assert_eq!(Chart::from_bytes(&bytes), Err(error));
    /// # Ok::<(), RestoreError>(())
    /// ```
    pub fn from_bytes(bytes: &[u8]) -> Result<Chart, RestoreError> {
        let layouts = [store::FIRST, store::SECOND, store::THIRD, LAYOUT];
        let (found, places) = store::restored(bytes, &layouts)?;
        let chart = Chart::from_places(places);
        match (found, chart.state.held) {
            (store::THIRD | LAYOUT, _) | (_, 0) => Ok(chart),
            _ => Err(RestoreError::ChartOfSums {
                found,
                row: chart.row(),
            }),
        }
    }

    /// The chart of 15 numbers of this layout. Any may be given: what is no sound chart is refused by every
    /// call ([`Refusal::Unsound`]), but a sum of layout 1 or 2 is taken for a plot.
    pub fn from_places(places: [i32; ffi::CHART]) -> Chart {
        Chart {
            state: ffi::Chart::of(&places),
        }
    }

    /// Whether the chart is sound, as every chart is that was opened and then changed by sets alone. One that
    /// isn't is refused by every call ([`Refusal::Unsound`]): ask this of a chart taken up from storage. Places
    /// beyond the sets held are not looked at.
    ///
    /// ```
    /// use grain::{Chart, Refusal};
    ///
    /// let chart = Chart::open(Chart::WHEAT_PROTEIN)?;
    /// assert!(chart.is_sound());
    ///
    /// // Five sets are held where there is room for four.
    /// let mut places = chart.places();
    /// places[2] = 5;
    /// let mut damaged = Chart::from_places(places);
    /// assert!(!damaged.is_sound());
    /// let refused = damaged.set(1, &[1300, 1300], &mut [0; Chart::LINE]);
    /// assert_eq!(refused, Err(Refusal::Unsound));
    /// # Ok::<(), Refusal>(())
    /// ```
    pub fn is_sound(&self) -> bool {
        // SAFETY: the chart is lent for the call, which only reads it.
        let said = unsafe { ffi::grain_chart_check(&self.state) };
        answer(said.accepted, said.number).is_ok()
    }

    /// The chart's 15 numbers: row, last week, held, then four sets of count, plot and range.
    pub fn places(&self) -> [i32; ffi::CHART] {
        self.state.places()
    }

    /// The chart row.
    pub fn row(&self) -> i32 {
        self.state.row
    }

    /// The week of the set charted last, 0 if there is none.
    pub fn last_week(&self) -> i32 {
        self.state.week
    }

    /// Charts the set of a week: one to five pairs original, monitor in hundredths of a percent. The
    /// output line is written from the buffer's start; no later byte is touched.
    ///
    /// # Errors
    /// In this order [`Refusal::Unsound`], [`Refusal::Week`], [`Refusal::PairCount`], [`Refusal::Result`],
    /// [`Refusal::BufferTooShort`]: a buffer of [`Chart::LINE`] bytes is enough for any line.
    ///
    /// # Examples
    /// ```
    /// use grain::{Chart, Refusal};
    ///
    /// let mut chart = Chart::open(Chart::SOYBEAN_OIL)?;
    /// let mut line = [0; Chart::LINE];
    /// chart.set(3, &[1900, 1885], &mut line)?;
    /// let values = chart.set(4, &[1910, 1895], &mut line)?;
    /// assert!(values.average_tolerance);
    /// assert_eq!(chart.set(4, &[1910, 1895], &mut line), Err(Refusal::Week));
    /// assert_eq!(chart.set(5, &[1910], &mut line), Err(Refusal::PairCount));
    /// # Ok::<(), Refusal>(())
    /// ```
    pub fn set(
        &mut self,
        week: u32,
        numbers: &[i32],
        line: &mut [u8],
    ) -> Result<ChartValues, Refusal> {
        // SAFETY: the chart and the two arrays are lent for the call and don't overlap.
        let said = unsafe {
            ffi::grain_chart_set(
                &mut self.state,
                week,
                numbers.as_ptr(),
                numbers.len(),
                line.as_mut_ptr(),
                line.len(),
            )
        };
        answer(said.accepted, said.number)?;
        Ok(ChartValues {
            week: said.week,
            count: said.count,
            plot: said.plot,
            range: said.range,
            average_absolute: said.al == 1,
            average_tolerance: said.tl == 1,
            run: said.run == 1,
            range_absolute: said.ral == 1,
            range_tolerance: said.rtl == 1,
            length: said.length as usize,
        })
    }
}

/// Charts a text into a lent buffer from its start and gives the length written. The buffer must
/// have 40 bytes for each line written, the names line too. On refusal nothing is written.
///
/// # Errors
/// Those of [`chart_text`], and [`Refusal::BufferTooShort`] where every line of the text is good.
pub fn chart_text_into(text: &[u8], out: &mut [u8]) -> Result<usize, TextRefusal> {
    // SAFETY: the two arrays are lent for the call and don't overlap.
    let said =
        unsafe { ffi::grain_chart_text(text.as_ptr(), text.len(), out.as_mut_ptr(), out.len()) };
    match answer(said.accepted, said.number) {
        Ok(()) => Ok(said.length as usize),
        Err(refusal) => Err(TextRefusal {
            refusal,
            line: said.line,
        }),
    }
}

/// Charts a text of wheat protein results: the names line `week sample original monitor`, then a line for
/// each sample, its results in hundredths of a percent without a point. The text's lines are judged in turn.
///
/// # Errors
/// The first bad line, and why: [`Refusal::TextTooLong`], [`Refusal::NamesLine`], [`Refusal::ValueLine`],
/// [`Refusal::SampleNumber`], [`Refusal::Week`], [`Refusal::Result`].
///
/// # Examples
/// ```
/// let text = b"week sample original monitor\n26 1 1315 1307\n26 2 1018 1054\n";
/// let charted = grain::chart_text(text)?;
/// assert_eq!(charted, b"week n plot range al tl run ral rtl\n26 2 -14 44 0 0 0 0 0\n");
/// # Ok::<(), grain::TextRefusal>(())
/// ```
pub fn chart_text(text: &[u8]) -> Result<Vec<u8>, TextRefusal> {
    // An output line stands for at least one line of the text. A longer text is refused unread.
    let read = &text[..text.len().min(65_536)];
    let lines = read.iter().filter(|&&byte| byte == b'\n').count();
    let mut out = vec![0; Chart::LINE * lines.max(1)];
    let length = chart_text_into(text, &mut out)?;
    out.truncate(length);
    Ok(out)
}
