//! Chart calls: the comparison, and random sets biased to every branch of the rules.

use std::iter::repeat_n;
use std::ops::RangeInclusive;

use grain::ffi;
use grain_model::rules::ChartRow;
use grain_model::{Chart, ChartSet, ChartValues, Rules};

use crate::encode::{self, ChartPlaces};
use crate::lent::{Difference, Lent, same};
use crate::met::Met;
use crate::plots;
use crate::rng::Rng;
use crate::stations::{Trial, number, plain_answer};

const LARGEST_RESULT: i64 = 10_000;

/// A chart under comparison. The exact averages of the sets charted here, newest first, are kept beside
/// it: only to count what was met, and for the wrong models.
pub struct Subject {
    pub places: ChartPlaces,
    past: Vec<i64>,
}

impl Subject {
    /// A chart that holds no set charted here.
    pub fn handed_in(places: ChartPlaces) -> Subject {
        Subject {
            places,
            past: Vec::new(),
        }
    }
}

/// The C interface's answer to a set.
fn charted(answer: Result<ChartValues, u8>) -> ffi::Charted {
    match answer {
        Ok(values) => ffi::Charted {
            accepted: 1,
            number: 0,
            week: values.week as u32,
            count: values.count as u32,
            plot: values.plot as i32,
            range: values.range as u32,
            al: values.absolute.into(),
            tl: values.tolerance.into(),
            run: values.run.into(),
            ral: values.range_absolute.into(),
            rtl: values.range_tolerance.into(),
            length: values.length as u32,
        },
        Err(number) => ffi::Charted {
            number: number.into(),
            ..ffi::Charted::default()
        },
    }
}

/// The wrapper's values in the model's terms.
fn told(values: grain::ChartValues) -> ChartValues {
    ChartValues {
        week: values.week.into(),
        count: values.count.into(),
        plot: values.plot.into(),
        range: values.range.into(),
        absolute: values.average_absolute,
        tolerance: values.average_tolerance,
        run: values.run,
        range_absolute: values.range_absolute,
        range_tolerance: values.range_tolerance,
        length: values.length,
    }
}

impl Trial {
    /// A fresh chart, or none if the row doesn't exist.
    pub fn chart_open(&mut self, row: u64) -> Result<Option<Subject>, Difference> {
        let (chart, answer) = Chart::open(&self.rules, row);
        let fresh = encode::chart_places(&chart);
        let mut lent: Lent<i32> = Lent::exactly(&mut self.rng, encode::CHART);
        // SAFETY: a chart's places are lent.
        let core = unsafe { ffi::grain_chart_open(lent.pointer().cast(), row) };
        let what = || format!("opening chart row {row}");
        same(what, core, plain_answer(answer))?;
        lent.holds(what, &fresh)?;
        let wrapped = number(grain::Chart::open(row));
        same(
            what,
            wrapped.map(|chart| chart.places()),
            answer.map(|()| fresh),
        )?;
        self.met.call("chart open", answer.err());
        Ok(answer.is_ok().then(|| Subject::handed_in(fresh)))
    }

    /// The model's answer to a set, and the chart after it.
    fn set_by_model(
        &self,
        subject: &Subject,
        week: u32,
        numbers: &[i32],
        line: &mut [u8],
    ) -> (Result<ChartValues, u8>, ChartPlaces) {
        let mut chart = encode::chart(&subject.places);
        let answer = match self.wrong {
            Some(wrong) => {
                let past = &subject.past;
                wrong.chart_set(&self.rules, &mut chart, past, week, numbers, line)
            }
            None => chart.set(&self.rules, week, numbers, line),
        };
        let after = match answer {
            Ok(_) => encode::chart_places(&chart),
            Err(_) => subject.places,
        };
        (answer, after)
    }

    /// Charts one set with a buffer of `bytes` for its line. Gives whether it was accepted.
    pub fn chart_set(
        &mut self,
        subject: &mut Subject,
        week: u32,
        numbers: &[i32],
        bytes: usize,
    ) -> Result<bool, Difference> {
        let before = subject.places;
        let mut model_line = vec![0; bytes];
        let (answer, after) = self.set_by_model(subject, week, numbers, &mut model_line);
        let written = answer.map_or(0, |values| values.length);
        let what = || format!("week {week}, {numbers:?}, {bytes} bytes, of chart {before:?}");

        let mut state = Lent::of(&mut self.rng, &before);
        let mut pairs = Lent::of(&mut self.rng, numbers);
        let mut line = Lent::exactly(&mut self.rng, bytes);
        // SAFETY: a chart's places and the arrays with their lengths are lent.
        let core = unsafe {
            ffi::grain_chart_set(
                state.pointer().cast(),
                week,
                pairs.pointer(),
                pairs.len(),
                line.pointer(),
                line.len(),
            )
        };
        same(what, core, charted(answer))?;
        state.holds(what, &after)?;
        pairs.untouched(what)?;
        line.holds(what, &model_line[..written])?;
        let null = pairs.is_null() && answer == Err(20);
        self.met
            .branch_if(null, "chart: numbers null, refused by 20");
        let null = line.is_null() && answer == Err(22);
        self.met.branch_if(null, "chart: line null, refused by 22");

        let mut wrapper = grain::Chart::from_places(before);
        let mut line = Lent::exactly(&mut self.rng, bytes);
        let wrapped = number(wrapper.set(week, numbers, line.lent()));
        same(what, wrapped.map(told), answer)?;
        same(what, wrapper.places(), after)?;
        line.holds(what, &model_line[..written])?;
        self.met.call("chart set", answer.err());
        if let Ok(values) = &answer {
            self.charted(subject, numbers, values);
        }
        subject.places = after;
        Ok(answer.is_ok())
    }

    /// Counts an accepted set and keeps its exact average.
    fn charted(&mut self, subject: &mut Subject, numbers: &[i32], values: &ChartValues) {
        let chart = encode::chart(&subject.places);
        let row = &self.rules.charts[chart.row as usize];
        count_set(&mut self.met, row, &chart, &subject.past, numbers, values);
        subject.past.insert(0, plots::exact(numbers));
        subject.past.truncate(4);
    }
}

/// A fresh chart and `calls` sets on it.
pub fn list(trial: &mut Trial, calls: usize) -> Result<(), Difference> {
    let row = trial.rng.below(4) as u64;
    let Some(mut subject) = trial.chart_open(row)? else {
        return Ok(());
    };
    for _ in 0..calls {
        single(trial, &mut subject)?;
    }
    Ok(())
}

/// The chart for the generator to look at; for one that isn't sound a fresh one.
fn seen(subject: &Subject) -> Chart {
    match encode::chart(&subject.places) {
        chart if chart.sound(&Rules::in_force()) => chart,
        _ => Chart::fresh(0),
    }
}

/// One set, mostly a good one.
pub fn single(trial: &mut Trial, subject: &mut Subject) -> Result<(), Difference> {
    let chart = seen(subject);
    let row = Rules::in_force().charts[chart.row as usize].clone();
    let rng = &mut trial.rng;
    let week = a_week(rng, chart.last_week);
    let mut numbers = a_set(rng, &row, &chart);
    if rng.chance(6) {
        damage(rng, &mut numbers);
    }
    let bytes = match rng.below(20) {
        0 => rng.pick(&[0, 1, 30, 39]),
        1..8 => 40,
        _ => rng.pick(&[40, 41, 64, 100]),
    };
    let accepted = trial.chart_set(subject, week, &numbers, bytes)?;
    trial
        .met
        .branch_if(accepted && bytes == 40, "chart: buffer of 40 bytes");
    Ok(())
}

fn a_week(rng: &mut Rng, last: i64) -> u32 {
    let week = match rng.below(200) {
        0..180 => last + 1,
        180..190 => last + rng.range(1, 50),
        190..194 => last,
        194..196 => last - 1,
        196 => rng.pick(&[10_000, i64::from(u32::MAX), 1 << 31, 65_536 + last + 1]),
        197 if rng.chance(20) => rng.pick(&[9998, 9999]),
        _ => last + 1,
    };
    week as u32
}

/// The numbers of a set: a plot or a range beside one of the limits.
pub fn a_set(rng: &mut Rng, row: &ChartRow, chart: &Chart) -> Vec<i32> {
    let count = match rng.below(10) {
        0..4 => 5,
        4..7 => rng.pick(&[2, 4]),
        _ => rng.range(1, 5),
    };
    match rng.below(40) {
        0..33 => {
            let plot = a_plot(rng, row, chart);
            of_plot(rng, plot, count)
        }
        33..38 => {
            let range = rng.pick(&[row.range_absolute, row.range_tolerance]);
            let range = range + rng.pick(&[0, 0, -1, 1]);
            of_differences(rng, range, count)
        }
        38 => of_plot_at_the_end(rng, count),
        _ => {
            let differences = (0..count).map(|_| rng.range(-10_000, 10_000)).collect();
            with_monitors(rng, differences)
        }
    }
}

/// A plot beside the absolute, the tolerance or the run limit or beside zero, or one that completes the
/// mean of four to the run limit or a little more.
fn a_plot(rng: &mut Rng, row: &ChartRow, chart: &Chart) -> i64 {
    let held = chart.held_sets();
    let beside = rng.pick(&[0, 0, 0, 1, -1]);
    let same_side = held
        .first()
        .map_or(1, |set| if set.plot < 0 { -1 } else { 1 });
    let sign = if rng.chance(85) {
        same_side
    } else {
        -same_side
    };
    match rng.below(14) {
        0..2 => sign * (row.absolute + beside),
        2..4 => sign * (row.tolerance + beside),
        4..6 => sign * (row.run + rng.range(-1, 1)),
        6 => 0,
        7 => rng.range(-1, 1),
        8 => rng.range(-40, 40),
        9 => sign * rng.range(1, row.run),
        _ if held.len() >= 3 => {
            let left_out = if held.len() == 4 { rng.below(4) } else { 3 };
            let three = held
                .iter()
                .enumerate()
                .filter(|(place, _)| *place != left_out);
            let sum: i64 = three.map(|(_, set)| set.plot).sum();
            sign * (4 * row.run + rng.pick(&[-1, 0, 0, 1, 2, 3, 4])) - sum
        }
        _ => sign * (row.run + beside),
    }
}

/// How far a sum of `count` results may lie from `count` times the hundredth that their mean is rounded to.
fn offs(count: i64) -> RangeInclusive<i64> {
    -(count / 2)..=(count - 1) / 2
}

/// How far two sums lie from there: at the ends, or anywhere between them.
fn two_offs(rng: &mut Rng, count: i64) -> [i64; 2] {
    let (least, most) = offs(count).into_inner();
    match rng.below(4) {
        // The plot is as far as can be above the exact average, or below it.
        0 => [least, most],
        1 => [most, least],
        2 => [rng.pick(&[least, 0, most]), rng.pick(&[least, 0, most])],
        _ => [rng.range(least, most), rng.range(least, most)],
    }
}

/// A set with this plot, or with the nearest to it that there is.
fn of_plot(rng: &mut Rng, plot: i64, count: i64) -> Vec<i32> {
    let plot = plot.clamp(-LARGEST_RESULT, LARGEST_RESULT);
    let (lowest, highest) = ((-plot).max(0), (LARGEST_RESULT - plot).min(LARGEST_RESULT));
    let monitor = rng.range(900, 1900).clamp(lowest, highest);
    let offs = two_offs(rng, count);
    let [mut originals, mut monitors] = of_means([monitor + plot, monitor], offs, count);
    for _ in 0..2 {
        let (one, other) = (rng.below(count as usize), rng.below(count as usize));
        let (by, apart) = (rng.range(0, 300), rng.range(0, 25));
        move_on(&mut monitors, one, other, by);
        move_on(&mut originals, one, other, by + apart);
    }
    in_turn(&originals, &monitors)
}

/// The originals and the monitor results of these means, their sums this far off.
fn of_means(means: [i64; 2], offs: [i64; 2], count: i64) -> [Vec<i64>; 2] {
    [0, 1].map(|place| {
        let sum = means[place] * count + offs[place];
        let sum = sum.clamp(0, LARGEST_RESULT * count);
        let result = |pair| sum / count + i64::from(pair < sum % count);
        (0..count).map(result).collect()
    })
}

/// Moves something from one result to another, where both stay what a result may be.
fn move_on(results: &mut [i64], one: usize, other: usize, by: i64) {
    if results[one] >= by && results[other] + by <= LARGEST_RESULT {
        results[one] -= by;
        results[other] += by;
    }
}

/// Originals and monitor results as a set's numbers.
fn in_turn(originals: &[i64], monitors: &[i64]) -> Vec<i32> {
    let pairs = originals.iter().zip(monitors);
    pairs
        .flat_map(|(original, monitor)| [*original as i32, *monitor as i32])
        .collect()
}

/// A set with the highest or the lowest plot that there is, or the one beside it.
fn of_plot_at_the_end(rng: &mut Rng, count: i64) -> Vec<i32> {
    let plot = rng.pick(&[LARGEST_RESULT, LARGEST_RESULT, LARGEST_RESULT - 1]);
    let plot = rng.either_sign(plot);
    of_plot(rng, plot, count)
}

/// A set of `count` differences with this range, if more than one.
fn of_differences(rng: &mut Rng, range: i64, count: i64) -> Vec<i32> {
    let smallest = rng.range(-range, 10);
    let mut differences: Vec<i64> = (0..count).map(|_| smallest + rng.range(0, range)).collect();
    let place = rng.below(count as usize);
    differences[place] = smallest;
    differences[(place + 1) % count as usize] = smallest + range;
    with_monitors(rng, differences)
}

/// The numbers of a set with these differences.
fn with_monitors(rng: &mut Rng, differences: Vec<i64>) -> Vec<i32> {
    let pair = |difference: &i64| {
        let lowest = (-difference).max(0);
        let highest = (LARGEST_RESULT - difference).min(LARGEST_RESULT);
        let monitor = match rng.chance(80) {
            true => rng.range(900, 1900).clamp(lowest, highest),
            false => rng.pick(&[lowest, highest]),
        };
        [(monitor + difference) as i32, monitor as i32]
    };
    differences.iter().flat_map(pair).collect()
}

/// One thing wrong with a set, for the numbers 20 and 21.
fn damage(rng: &mut Rng, numbers: &mut Vec<i32>) {
    match rng.below(5) {
        0 => numbers.clear(),
        1 => numbers.truncate(numbers.len() - 1),
        2 => numbers.resize(rng.pick(&[11, 12, 13, 20]), 1300),
        _ => {
            let place = rng.below(numbers.len());
            numbers[place] = rng.pick(&[-1, 10_001, 10_001, i32::MIN, i32::MAX]);
        }
    }
}

/// Sets charted in turn on a fresh chart.
fn chart_in_turn(
    trial: &mut Trial,
    row: u64,
    sets: impl Iterator<Item = [Vec<i64>; 2]>,
) -> Result<(), Difference> {
    let Some(mut subject) = trial.chart_open(row)? else {
        return Ok(());
    };
    for (week, [originals, monitors]) in (1..).zip(sets) {
        let numbers = in_turn(&originals, &monitors);
        trial.chart_set(&mut subject, week, &numbers, 40)?;
    }
    Ok(())
}

/// Of every row plots at zero and at each limit of the average, on both sides and beside, of up to `pairs`
/// pairs whose two means are rounded in every way: four such sets in turn.
pub fn roundings(trial: &mut Trial, pairs: i64) -> Result<(), Difference> {
    for (row, limits) in (0..).zip(Rules::in_force().charts) {
        for limit in [0, limits.absolute, limits.tolerance, limits.run] {
            for plot in limit - 1..=limit + 1 {
                for count in 1..=pairs {
                    rounded(trial, row, plot, count)?;
                    rounded(trial, row, -plot, count)?;
                }
            }
        }
    }
    Ok(())
}

/// Sets of `count` pairs with this plot.
fn rounded(trial: &mut Trial, row: u64, plot: i64, count: i64) -> Result<(), Difference> {
    for original in offs(count) {
        for monitor in offs(count) {
            let set = of_means([1300 + plot, 1300], [original, monitor], count);
            chart_in_turn(trial, row, repeat_n(set, 4))?;
        }
    }
    Ok(())
}

/// The cases that the rules name, on wheat: sets of five pairs and of two, every monitor result 1000, by
/// the sum of their differences; then the plots at both ends.
pub fn particular(trial: &mut Trial) -> Result<(), Difference> {
    let fives: [&[i64]; 14] = [
        &[98],
        &[97],
        &[75, 75],
        &[75, -75],
        &[53; 4],
        &[52; 4],
        &[53, 52, 52, 52],
        &[100, 100, 100, 2],
        &[100, 2, 100, 100],
        &[2, 100, 100, 100, 100],
        &[45, 45, 45, 100, -2],
        &[60, 53, 53, 6, 45],
        &[53, 53, -9, 53, 53],
        &[73, 75, 72, 75],
    ];
    for sums in fives {
        for sign in [1, -1] {
            let set = |sum: &i64| of_means([1000; 2], [sign * sum, 0], 5);
            chart_in_turn(trial, 0, sums.iter().map(set))?;
        }
    }
    let twos = [39, -39].map(|sum| of_means([1000; 2], [sum, 0], 2));
    chart_in_turn(trial, 0, twos.into_iter())?;
    for count in 1..=5 {
        for off in 0..=count {
            let high = [[-off, 0], [0, off], [-off, off]];
            let low = high.map(|offs| offs.map(|off| -off));
            let high = high.map(|offs| of_means([LARGEST_RESULT, 0], offs, count));
            let low = low.map(|offs| of_means([0, LARGEST_RESULT], offs, count));
            chart_in_turn(trial, 0, high.into_iter().chain(low))?;
        }
    }
    Ok(())
}

/// The branches of an accepted set.
fn count_set(
    met: &mut Met,
    row: &ChartRow,
    chart: &Chart,
    past: &[i64],
    numbers: &[i32],
    values: &ChartValues,
) {
    let ChartValues {
        count, plot, range, ..
    } = *values;
    let sets = plots::plotted(chart, past, ChartSet { count, plot, range }, numbers);
    count_chart(met, chart);
    count_numbers(met, row, values);
    plots::count_means(met, numbers);
    plots::count_plot(met, sets[0]);
    plots::count_absolute(met, row, sets[0], values.absolute);
    plots::count_tolerance(met, row, &sets, values.tolerance);
    plots::count_run(met, row, &sets, values.run);
}

/// The chart before an accepted set.
fn count_chart(met: &mut Met, chart: &Chart) {
    met.branch(
        [
            "chart: row 0",
            "chart: row 1",
            "chart: row 2",
            "chart: row 3",
        ][chart.row as usize],
    );
    for (plot, name) in [
        (LARGEST_RESULT, "chart: a held plot of 10000, accepted"),
        (-LARGEST_RESULT, "chart: a held plot of -10000, accepted"),
    ] {
        let held = chart.held_sets().iter().any(|set| set.plot == plot);
        met.branch_if(held, name);
    }
}

/// An accepted set's week, count and range.
fn count_numbers(met: &mut Met, row: &ChartRow, values: &ChartValues) {
    met.branch_if(values.week == 9999, "chart: last week 9999");
    met.branch(match values.count {
        1 => "chart: 1 pair",
        2 => "chart: 2 pairs",
        3 => "chart: 3 pairs",
        4 => "chart: 4 pairs",
        _ => "chart: 5 pairs",
    });
    met.branch_if(values.range_absolute, "chart: range absolute");
    let beside = values.range == row.range_absolute - 1;
    met.branch_if(beside, "chart: beside the range absolute");
    met.branch_if(values.range_tolerance, "chart: range tolerance");
    let beside = values.range == row.range_tolerance - 1;
    met.branch_if(beside, "chart: beside the range tolerance");
}
