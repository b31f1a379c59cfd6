//! Section "Control charts": one set.

use crate::Refusal;
use crate::rules::{ChartRow, Rules};

/// A charted set: count, plot, range.
#[derive(Clone, Copy, Debug, PartialEq, Eq)]
pub struct ChartSet {
    pub count: i64,
    pub plot: i64,
    pub range: i64,
}

/// A place that no set has come to yet.
pub const BLANK: ChartSet = ChartSet {
    count: 0,
    plot: 0,
    range: 0,
};

/// A chart: its row, its last week and its held sets, at most four, newest first. Of the four
/// places the first `held` are its sets, the others are spare.
#[derive(Clone, Copy, Debug, PartialEq, Eq)]
pub struct Chart {
    pub row: i64,
    pub last_week: i64,
    pub held: i64,
    pub sets: [ChartSet; 4],
}

/// Fields: week, count, plot, range, then 1 or 0 for average absolute, tolerance, run, range
/// absolute, range tolerance, and the length of the line.
#[derive(Clone, Copy, Debug, PartialEq, Eq)]
pub struct ChartValues {
    pub week: i64,
    pub count: i64,
    pub plot: i64,
    pub range: i64,
    pub absolute: bool,
    pub tolerance: bool,
    pub run: bool,
    pub range_absolute: bool,
    pub range_tolerance: bool,
    pub length: usize,
}

/// A mean rounded to a hundredth, halves up: the next whole hundredth, unless less is over than the
/// next one lacks. For one result or more, none below zero.
fn rounded_mean(results: &[i64]) -> i64 {
    let count = results.len() as i64;
    let sum: i64 = results.iter().sum();
    let (whole, over) = (sum / count, sum % count);
    let lacking = count - over;
    if over < lacking { whole } else { whole + 1 }
}

impl ChartSet {
    /// The plotted average is the original mean minus the monitor mean, each first rounded to a
    /// hundredth, halves up. Range is largest minus smallest difference. For one pair or more.
    pub fn of(numbers: &[i32]) -> ChartSet {
        let results = |place: usize| -> Vec<i64> {
            let pairs = numbers.chunks_exact(2);
            pairs.map(|pair| i64::from(pair[place])).collect()
        };
        let (originals, monitors) = (results(0), results(1));
        let pairs = || originals.iter().zip(&monitors);
        let differences = || pairs().map(|(original, monitor)| original - monitor);
        let largest = differences().max().unwrap_or(0);
        let smallest = differences().min().unwrap_or(0);
        ChartSet {
            count: originals.len() as i64,
            plot: rounded_mean(&originals) - rounded_mean(&monitors),
            range: largest - smallest,
        }
    }
}

/// Absolute: the plot's magnitude equal to or above the limit.
fn absolute(row: &ChartRow, set: &ChartSet) -> bool {
    set.plot.abs() >= row.absolute
}

/// Tolerance: the plots of this set and of the one before both at or above the upper line, or both
/// at or below the lower.
fn tolerance(row: &ChartRow, set: &ChartSet, before: &[ChartSet]) -> bool {
    before.first().is_some_and(|before| {
        let plots = [set.plot, before.plot];
        plots.iter().all(|&plot| plot >= row.tolerance)
            || plots.iter().all(|&plot| plot <= -row.tolerance)
    })
}

/// For range, both at or above.
fn range_tolerance(row: &ChartRow, set: &ChartSet, before: &[ChartSet]) -> bool {
    before.first().is_some_and(|before| {
        set.range >= row.range_tolerance && before.range >= row.range_tolerance
    })
}

/// The plots of this set and of three .. lie strictly on one side of zero, and the magnitude of the
/// mean of those four plots is above the limit. The mean is exact, not rounded: their sum against
/// four times the limit.
fn runs(row: &ChartRow, four: [&ChartSet; 4]) -> bool {
    let plots = four.map(|set| set.plot);
    let above = plots.iter().all(|&plot| plot > 0);
    let below = plots.iter().all(|&plot| plot < 0);
    let sum: i64 = plots.iter().sum();
    (above || below) && sum.abs() > 4 * row.run
}

/// Run: this set and three of the previous four (or of all, if fewer) ..; any such choice
/// suffices.
fn run(row: &ChartRow, set: &ChartSet, before: &[ChartSet]) -> bool {
    match before {
        [a, b, c] => runs(row, [set, a, b, c]),
        [a, b, c, d] => [[a, b, c], [a, b, d], [a, c, d], [b, c, d]]
            .iter()
            .any(|[x, y, z]| runs(row, [set, x, y, z])),
        _ => false,
    }
}

/// The line's writer: decimals and single bytes from the buffer's start on.
pub(crate) struct Writer<'a> {
    pub buffer: &'a mut [u8],
    pub length: usize,
}

impl Writer<'_> {
    pub fn byte(&mut self, byte: u8) {
        self.buffer[self.length] = byte;
        self.length += 1;
    }

    pub fn number(&mut self, number: i64) {
        if number < 0 {
            self.byte(b'-');
        }
        let mut rest = number.abs();
        let mut digits = [0; 20];
        let mut count = 0;
        loop {
            digits[count] = b'0' + (rest % 10) as u8;
            count += 1;
            rest /= 10;
            if rest == 0 {
                break;
            }
        }
        for &digit in digits[..count].iter().rev() {
            self.byte(digit);
        }
    }
}

impl ChartValues {
    /// The fields, single spaces between them, line feed included. Gives the length.
    pub fn write(&self, buffer: &mut [u8]) -> usize {
        let mut writer = Writer { buffer, length: 0 };
        for number in [self.week, self.count, self.plot, self.range] {
            writer.number(number);
            writer.byte(b' ');
        }
        let flags = [
            self.absolute,
            self.tolerance,
            self.run,
            self.range_absolute,
            self.range_tolerance,
        ];
        for (place, flag) in flags.iter().enumerate() {
            writer.byte(b'0' + u8::from(*flag));
            writer.byte(if place == 4 { b'\n' } else { b' ' });
        }
        writer.length
    }
}

impl Chart {
    /// A fresh chart has last week 0.
    pub const fn fresh(row: i64) -> Chart {
        Chart {
            row,
            last_week: 0,
            held: 0,
            sets: [BLANK; 4],
        }
    }

    /// Number 1: Opening: the product or chart row doesn't exist. A refused opening hands back a
    /// fresh state of row 0.
    pub fn open(rules: &Rules, row: u64) -> (Chart, Result<(), Refusal>) {
        match i64::try_from(row) {
            Ok(row) if rules.chart(row).is_some() => (Chart::fresh(row), Ok(())),
            _ => (Chart::fresh(0), Err(1)),
        }
    }

    /// The held sets, newest first.
    pub fn held_sets(&self) -> &[ChartSet] {
        &self.sets[..self.held as usize]
    }

    /// A chart is sound if its row exists, its last week is 0..9999, and its held sets, at most
    /// four, have count 1 to 5, a plot of magnitude at most 10000 and range 0..20000.
    pub fn sound(&self, rules: &Rules) -> bool {
        rules.chart(self.row).is_some()
            && (0..=rules.last_week).contains(&self.last_week)
            && (0..=4).contains(&self.held)
            && self.held_sets().iter().all(|set| {
                (1..=rules.pairs).contains(&set.count)
                    && set.plot.abs() <= rules.chart_plot
                    && (0..=rules.chart_range).contains(&set.range)
            })
    }

    /// Numbers 0 and 19 to 22 in their order.
    fn refused(&self, rules: &Rules, week: u32, numbers: &[i32], buffer: &[u8]) -> Option<Refusal> {
        if !self.sound(rules) {
            return Some(0);
        }
        // 19: The week isn't above the chart's last week or is above 9999.
        let week = i64::from(week);
        if week <= self.last_week || week > rules.last_week {
            return Some(19);
        }
        // 20: A set has no pair, more than five, or an odd count of numbers.
        let count = numbers.len() as i64;
        if count == 0 || count > 2 * rules.pairs || count % 2 != 0 {
            return Some(20);
        }
        let outside = |&number: &i32| !(0..=rules.chart_result).contains(&i64::from(number));
        if numbers.iter().any(outside) {
            return Some(21);
        }
        ((buffer.len() as i64) < rules.line_bytes).then_some(22)
    }

    /// The call that charts one set (chart, week, pairs, buffer) and writes its output line writes
    /// it from the buffer's start, line feed included, gives its length and touches no later byte.
    pub fn set(
        &mut self,
        rules: &Rules,
        week: u32,
        numbers: &[i32],
        buffer: &mut [u8],
    ) -> Result<ChartValues, Refusal> {
        if let Some(number) = self.refused(rules, week, numbers, buffer) {
            return Err(number);
        }
        let row = rules.chart(self.row).ok_or(0)?;
        let set = ChartSet::of(numbers);
        let mut values = self.judged(row, i64::from(week), set);
        values.length = values.write(buffer);
        self.hold(i64::from(week), set);
        Ok(values)
    }

    /// The values of a week's set on a sound chart, its line not written yet: charts judge what they
    /// plot, all average limits by the plot.
    pub fn judged(&self, row: &ChartRow, week: i64, set: ChartSet) -> ChartValues {
        let before = self.held_sets();
        ChartValues {
            week,
            count: set.count,
            plot: set.plot,
            range: set.range,
            absolute: absolute(row, &set),
            tolerance: tolerance(row, &set, before),
            run: run(row, &set, before),
            range_absolute: set.range >= row.range_absolute,
            range_tolerance: range_tolerance(row, &set, before),
            length: 0,
        }
    }

    /// The newest four are held; every place moves on by one, the spare ones too.
    pub fn hold(&mut self, week: i64, set: ChartSet) {
        self.sets = [set, self.sets[0], self.sets[1], self.sets[2]];
        self.held = (self.held + 1).min(4);
        self.last_week = week;
    }
}
