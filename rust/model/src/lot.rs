//! Section "Ship lots": a lot's single tonnes, counted at each figure.

use std::cmp::Reverse;
use std::collections::BTreeMap;

use crate::Refusal;
use crate::rules::{LotRules, Rules};

/// A sublot's record: figure in tenths, basis, tonnes.
#[derive(Clone, Copy, Debug, PartialEq, Eq)]
pub struct Sublot {
    pub figure: i64,
    pub basis: i64,
    pub tonnes: i64,
}

/// One statement of a lot: its basis, lowest, highest, and the tonnage-weighted mean: its tenth, and
/// two whole numbers, total tonnes and sum of figure times tonnes.
#[derive(Clone, Copy, Debug, PartialEq, Eq)]
pub struct LotStatement {
    pub basis: i64,
    pub lowest: i64,
    pub highest: i64,
    pub mean: i64,
    pub tonnes: i64,
    pub weighted_sum: i64,
}

/// Number 29: No record or more than 500.
pub fn bad_size(rules: &LotRules, records: &[Sublot]) -> bool {
    rules.records.outside(records.len() as i64)
}

/// Number 30: A record with tonnes outside 1..1000000, figure outside 0..1000 or basis outside
/// 0..5000.
pub fn bad_sublot(rules: &LotRules, record: &Sublot) -> bool {
    rules.tonnes.outside(record.tonnes)
        || rules.figure.outside(record.figure)
        || rules.basis.outside(record.basis)
}

/// Number 31: Records of unlike basis.
pub fn unlike_basis(records: &[Sublot]) -> bool {
    records.windows(2).any(|two| two[0].basis != two[1].basis)
}

/// A record of n tonnes counts as n records of one: how many of them stand at each figure.
fn tonnes_by_figure(records: &[Sublot]) -> BTreeMap<i64, i64> {
    let mut tonnes = BTreeMap::new();
    for record in records {
        *tonnes.entry(record.figure).or_insert(0) += record.tonnes;
    }
    tonnes
}

/// The mean's tenth, rounded once, halves up: of all tenths from the lowest to the highest the nearest
/// to sum / tonnes, of two as near the larger. Distances are multiplied by the tonnes.
fn nearest_tenth(lowest: i64, highest: i64, sum: i64, tonnes: i64) -> i64 {
    let distance = |tenth: i64| (tenth * tonnes - sum).abs();
    (lowest..=highest)
        .min_by_key(|&tenth| (distance(tenth), Reverse(tenth)))
        .unwrap_or(0)
}

/// What is stated of records that are not refused.
pub fn statement(records: &[Sublot]) -> LotStatement {
    let by_figure = tonnes_by_figure(records);
    let lowest = by_figure.keys().next().map_or(0, |&figure| figure);
    let highest = by_figure.keys().next_back().map_or(0, |&figure| figure);
    let tonnes = by_figure.values().sum();
    let weighted_sum = by_figure
        .iter()
        .map(|(figure, tonnes)| figure * tonnes)
        .sum();
    LotStatement {
        basis: records.first().map_or(0, |record| record.basis),
        lowest,
        highest,
        mean: nearest_tenth(lowest, highest, weighted_sum, tonnes),
        tonnes,
        weighted_sum,
    }
}

/// States a lot. Refused: 29, 30, 31, in this order, each tried over all records before the next.
pub fn ship_lot(rules: &Rules, records: &[Sublot]) -> Result<LotStatement, Refusal> {
    let rules = &rules.lots;
    if bad_size(rules, records) {
        return Err(29);
    }
    if records.iter().any(|record| bad_sublot(rules, record)) {
        return Err(30);
    }
    if unlike_basis(records) {
        return Err(31);
    }
    Ok(statement(records))
}
