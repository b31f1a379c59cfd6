//! What sets plot beside what no chart holds, their means and exact averages. Only to count what the
//! compared sets met, and for the wrong models.

use grain_model::rules::ChartRow;
use grain_model::{Chart, ChartSet};

use crate::met::Met;

/// A set: its pairs, its plot, and its exact average in sixtieths of a hundredth, a whole number as
/// there are 1 to 5 pairs.
#[derive(Clone, Copy, Debug)]
pub struct Plotted {
    pub count: i64,
    pub plot: i64,
    pub exact: i64,
}

pub const SIXTIETHS: i64 = 60;

/// A number of a set: its plot, or another that a wrong model takes for it.
pub type By = fn(&Plotted) -> i64;

pub const PLOT: By = |set| set.plot;
pub const EXACT: By = |set| set.exact;

/// The sums of the originals and of the monitor results.
pub fn sums(numbers: &[i32]) -> [i64; 2] {
    [0, 1].map(|place| {
        let results = numbers.chunks_exact(2).map(|pair| i64::from(pair[place]));
        results.sum()
    })
}

/// The exact average of original minus monitor in sixtieths.
pub fn exact(numbers: &[i32]) -> i64 {
    let [originals, monitors] = sums(numbers);
    (originals - monitors) * (SIXTIETHS / (numbers.len() as i64 / 2))
}

/// A set and those that the chart holds, newest first. `past` are exact averages of held ones; of those
/// that weren't charted here the plot stands for it.
pub fn plotted(chart: &Chart, past: &[i64], set: ChartSet, numbers: &[i32]) -> Vec<Plotted> {
    let of = |set: &ChartSet, exact| Plotted {
        count: set.count,
        plot: set.plot,
        exact,
    };
    let held = chart.held_sets().iter().enumerate().map(|(place, set)| {
        let exact = past.get(place).copied();
        of(set, exact.unwrap_or(SIXTIETHS * set.plot))
    });
    [of(&set, exact(numbers))].into_iter().chain(held).collect()
}

/// The first of the sets with any three of the others, which are at most four.
pub fn fours(sets: &[Plotted]) -> Vec<Vec<Plotted>> {
    let left_out = match sets.len() {
        4 => 4..5,
        5 => 1..5,
        _ => 0..0,
    };
    let four = |place| {
        let others = sets.iter().enumerate().filter(|(of, _)| *of != place);
        others.map(|(_, set)| *set).collect()
    };
    left_out.map(four).collect()
}

/// All above zero or all below.
pub fn one_side(four: &[Plotted], by: By) -> bool {
    four.iter().all(|set| by(set) > 0) || four.iter().all(|set| by(set) < 0)
}

/// The magnitude of the sum.
pub fn beyond(four: &[Plotted], by: By) -> i64 {
    four.iter().map(by).sum::<i64>().abs()
}

/// On one side of zero but for plots of 0.
pub fn but_for_zeros(four: &[Plotted]) -> bool {
    four.iter().all(|set| set.plot >= 0) || four.iter().all(|set| set.plot <= 0)
}

/// An exact average rounded once, halves up.
pub fn rounded_once(exact: i64) -> i64 {
    (exact + SIXTIETHS / 2).div_euclid(SIXTIETHS)
}

/// The names of the ways to round a mean.
struct Mean {
    exact: &'static str,
    down: &'static str,
    up: &'static str,
    half_of_2: &'static str,
    half_of_4: &'static str,
    half_to_odd: &'static str,
    half_to_even: &'static str,
}

const ORIGINAL: Mean = Mean {
    exact: "chart: original mean exact",
    down: "chart: original mean rounded down",
    up: "chart: original mean rounded up",
    half_of_2: "chart: original mean a half, 2 pairs",
    half_of_4: "chart: original mean a half, 4 pairs",
    half_to_odd: "chart: original mean a half, up to an odd hundredth",
    half_to_even: "chart: original mean a half, up to an even hundredth",
};

const MONITOR: Mean = Mean {
    exact: "chart: monitor mean exact",
    down: "chart: monitor mean rounded down",
    up: "chart: monitor mean rounded up",
    half_of_2: "chart: monitor mean a half, 2 pairs",
    half_of_4: "chart: monitor mean a half, 4 pairs",
    half_to_odd: "chart: monitor mean a half, up to an odd hundredth",
    half_to_even: "chart: monitor mean a half, up to an even hundredth",
};

/// The sum lies halfway between two whole means.
pub fn is_half(sum: i64, count: i64) -> bool {
    2 * (sum % count) == count
}

/// How a set's means are rounded.
pub fn count_means(met: &mut Met, numbers: &[i32]) {
    let count = numbers.len() as i64 / 2;
    let sums = sums(numbers);
    for (sum, names) in sums.iter().zip([ORIGINAL, MONITOR]) {
        let (whole, over) = (sum / count, sum % count);
        if is_half(*sum, count) {
            met.branch(if count == 2 {
                names.half_of_2
            } else {
                names.half_of_4
            });
            let even = whole % 2 == 0;
            met.branch(if even {
                names.half_to_odd
            } else {
                names.half_to_even
            });
            continue;
        }
        met.branch(match 2 * over - count {
            _ if over == 0 => names.exact,
            1.. => names.up,
            _ => names.down,
        });
    }
    let both = sums.iter().all(|&sum| is_half(sum, count));
    met.branch_if(both, "chart: both means a half");
}

/// What is plotted beside the exact average. The two are less than a hundredth apart, so that a set
/// never plots on the other side of zero, and always at or beyond a limit that its exact average reaches.
pub fn count_plot(met: &mut Met, set: Plotted) {
    let Plotted { plot, exact, .. } = set;
    if plot == 0 {
        met.branch(match exact {
            1.. => "chart: plot 0 of a sum above zero",
            0 => "chart: plot 0 of sum 0",
            _ => "chart: plot 0 of a sum below zero",
        });
    }
    let once = rounded_once(exact);
    met.branch_if(
        plot > once,
        "chart: plot above the mean of the differences rounded once",
    );
    met.branch_if(
        plot < once,
        "chart: plot below the mean of the differences rounded once",
    );
    let whole = exact == SIXTIETHS * plot;
    met.branch_if(plot == 10_000 && whole, "chart: plot 10000");
    met.branch_if(
        plot == 10_000 && !whole,
        "chart: plot 10000 of a lower average",
    );
    met.branch_if(plot == -10_000 && whole, "chart: plot -10000");
    met.branch_if(
        plot == -10_000 && !whole,
        "chart: plot -10000 of a higher average",
    );
}

/// The exact average's magnitude is below this limit.
fn within(set: &Plotted, limit: i64) -> bool {
    set.exact.abs() < SIXTIETHS * limit
}

/// The absolute limit, by the set alone.
pub fn count_absolute(met: &mut Met, row: &ChartRow, set: Plotted, absolute: bool) {
    let plot = set.plot;
    met.branch_if(absolute && plot > 0, "chart: average absolute above");
    met.branch_if(absolute && plot < 0, "chart: average absolute below");
    met.branch_if(
        plot == row.absolute,
        "chart: plot at the average absolute, above",
    );
    met.branch_if(
        plot == -row.absolute,
        "chart: plot at the average absolute, below",
    );
    let beside = plot.abs() == row.absolute - 1;
    met.branch_if(beside, "chart: beside the average absolute");
    let alone = absolute && within(&set, row.absolute);
    met.branch_if(
        alone && plot > 0,
        "chart: average absolute by the plot alone, above",
    );
    met.branch_if(
        alone && plot < 0,
        "chart: average absolute by the plot alone, below",
    );
}

/// The tolerance limit, by the set and the one before.
pub fn count_tolerance(met: &mut Met, row: &ChartRow, sets: &[Plotted], tolerance: bool) {
    let [this, before, ..] = sets else {
        return;
    };
    met.branch_if(tolerance && this.plot > 0, "chart: tolerance above");
    met.branch_if(tolerance && this.plot < 0, "chart: tolerance below");
    let outside = |set: &Plotted| set.plot.abs() >= row.tolerance;
    let opposite = outside(this) && outside(before) && !tolerance;
    met.branch_if(opposite, "chart: tolerance on both sides");
    let beside = |set: &Plotted| set.plot.abs() == row.tolerance - 1;
    met.branch_if(
        beside(this) && outside(before),
        "chart: beside the tolerance",
    );
    met.branch_if(
        outside(this) && beside(before),
        "chart: the set before beside the tolerance",
    );
    if !tolerance {
        return;
    }
    match (within(this, row.tolerance), within(before, row.tolerance)) {
        (true, false) => met.branch("chart: tolerance by this set's plot alone"),
        (false, true) => met.branch("chart: tolerance by the plot before alone"),
        (true, true) => met.branch("chart: tolerance by both plots alone"),
        (false, false) => {}
    }
}

/// The ways to a run and beside one.
pub fn count_run(met: &mut Met, row: &ChartRow, sets: &[Plotted], run: bool) {
    let fours = fours(sets);
    let largest = |by: By| {
        let on_one_side = fours.iter().filter(|four| one_side(four, by));
        on_one_side.map(|four| beyond(four, by)).max()
    };
    let exact_run = largest(EXACT).is_some_and(|sum| sum > 4 * SIXTIETHS * row.run);
    match largest(PLOT).map(|sum| sum - 4 * row.run) {
        Some(0) => met.branch("chart: mean at the run limit"),
        Some(1) => met.branch("chart: run, its mean a quarter above the limit"),
        Some(2) => met.branch("chart: run, its mean a half above the limit"),
        Some(3) => met.branch("chart: run, its mean three quarters above the limit"),
        _ => {}
    }
    if !run {
        count_no_run(met, row, sets, &fours);
        return;
    }
    met.branch_if(!exact_run, "chart: run by the plots alone");
    met.branch_if(sets.len() == 4, "chart: run of three previous");
    met.branch_if(sets.len() == 5, "chart: run of four previous");
    let newest = &sets[..4];
    let newest_run = one_side(newest, PLOT) && beyond(newest, PLOT) > 4 * row.run;
    met.branch_if(!newest_run, "chart: run leaves a set out");
    met.branch(match sets[0].plot {
        1.. => "chart: run above",
        _ => "chart: run below",
    });
}

/// The ways to no run where there would be one by the exact averages, or if a plot of 0 lay on a side.
fn count_no_run(met: &mut Met, row: &ChartRow, sets: &[Plotted], fours: &[Vec<Plotted>]) {
    let limit = 4 * row.run;
    let by_mean = fours
        .iter()
        .any(|four| one_side(four, PLOT) && beyond(four, EXACT) > SIXTIETHS * limit);
    met.branch_if(
        by_mean,
        "chart: no run, the exact averages' mean above the limit",
    );
    let only_zero = |four: &&Vec<Plotted>| {
        but_for_zeros(four) && !one_side(four, PLOT) && beyond(four, PLOT) > limit
    };
    let mut prevented = fours.iter().filter(only_zero).peekable();
    if prevented.peek().is_none() {
        return;
    }
    let other_sum = prevented.any(|four| one_side(four, EXACT));
    met.branch(match (other_sum, sets[0].plot) {
        (true, 0) => "chart: no run, only as this set plots 0 of a sum on the others' side",
        (true, _) => "chart: no run, only as a held set plots 0 of a sum on the others' side",
        (false, _) => "chart: no run, only as a set plots 0 of sum 0 or one on the other side",
    });
}
