//! Ship lots: a lot's sublots in one statement.

use crate::ffi;
use crate::refusal::{Refusal, answer};

/// The most records that a lot may have.
pub const LOT_RECORDS: usize = 500;

/// A sublot as its record has it.
///
/// Any numbers may stand here: those out of their bounds are refused ([`Refusal::Sublot`]).
#[derive(Clone, Copy, Debug, PartialEq, Eq, Hash)]
#[repr(C)]
pub struct Sublot {
    /// The figure as it was certified, in tenths of a percent: 0 to 1000. Of a [`Certificate`] the
    /// converted one, which stands at its basis.
    ///
    /// [`Certificate`]: crate::Certificate
    pub figure: i32,
    /// The moisture basis that the figure stands at, in hundredths of a percent: 0 to 5000.
    pub basis: i32,
    /// 1 to 1000000.
    pub tonnes: i32,
}

/// What is stated of a lot. Its mean figure is the fraction `weighted_sum` over `tonnes`, in tenths, not
/// reduced; `mean` is it rounded.
#[derive(Clone, Copy, Debug, PartialEq, Eq, Hash)]
pub struct LotStatement {
    /// The moisture basis of every record, in hundredths of a percent.
    pub basis: i32,
    /// The lowest figure, in tenths of a percent.
    pub lowest: u32,
    /// The highest figure, in tenths of a percent.
    pub highest: u32,
    /// The mean figure in tenths of a percent, rounded once, an exact half going up.
    pub mean: u32,
    /// The tonnes of all records.
    pub tonnes: u64,
    /// The sum of figure times tonnes.
    pub weighted_sum: u64,
}

/// States a ship lot from its sublots' records. A record of n tonnes counts as n records of one: the
/// records' order makes no difference, nor does it whether a sublot stands in one record or in several
/// of its figure and basis, as long as there are no more than 500 and none has more than 1000000 tonnes.
///
/// # Errors
/// [`Refusal::LotSize`], then [`Refusal::Sublot`], then [`Refusal::UnlikeBasis`].
///
/// # Examples
/// ```
/// use grain::{Sublot, ship_lot};
///
/// let sublot = |figure, tonnes| Sublot { figure, basis: 1200, tonnes };
/// let lot = ship_lot(&[sublot(44, 11), sublot(45, 9)])?;
/// assert_eq!((lot.basis, lot.lowest, lot.highest), (1200, 44, 45));
/// // 889 / 20 is 44.45 tenths.
/// assert_eq!((lot.weighted_sum, lot.tonnes, lot.mean), (889, 20, 44));
/// // An exact half goes up.
/// assert_eq!(ship_lot(&[sublot(44, 1), sublot(45, 1)])?.mean, 45);
/// // In another order, and with the 11 tonnes in two records.
/// assert_eq!(ship_lot(&[sublot(45, 9), sublot(44, 11)])?, lot);
/// assert_eq!(ship_lot(&[sublot(44, 6), sublot(45, 9), sublot(44, 5)])?, lot);
/// # Ok::<(), grain::Refusal>(())
/// ```
///
/// Each refusal is tried over all records before the next:
///
/// ```
/// use grain::{LOT_RECORDS, Refusal, Sublot, ship_lot};
///
/// let good = Sublot { figure: 44, basis: 1200, tonnes: 11 };
/// let empty = Sublot { tonnes: 0, ..good };
/// let moist = Sublot { basis: 1350, ..good };
/// assert_eq!(ship_lot(&[]), Err(Refusal::LotSize));
/// assert_eq!(ship_lot(&[empty; LOT_RECORDS + 1]), Err(Refusal::LotSize));
/// assert_eq!(ship_lot(&[good, moist, empty]), Err(Refusal::Sublot));
/// assert_eq!(ship_lot(&[good, moist]), Err(Refusal::UnlikeBasis));
/// ```
pub fn ship_lot(records: &[Sublot]) -> Result<LotStatement, Refusal> {
    // SAFETY: the records are lent for the call.
    let said = unsafe { ffi::grain_ship_lot(records.as_ptr(), records.len()) };
    answer(said.accepted, said.number)?;
    Ok(LotStatement {
        basis: said.basis,
        lowest: said.lowest,
        highest: said.highest,
        mean: said.mean,
        tonnes: said.tonnes,
        weighted_sum: said.weighted_sum,
    })
}
