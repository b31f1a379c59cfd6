//! Random lists of calls from fresh stations, biased to every branch of the rules.

use grain_model::rules::Limits;
use grain_model::sheet::Sample;
use grain_model::{Line, LinePhase, PastSet, Phase, Station};

use crate::averages::Accepted;
use crate::encode;
use crate::history;
use crate::lent::Difference;
use crate::markets::market;
use crate::rng::Rng;
use crate::stations::{Subject, Trial};

/// What a list leans to.
#[derive(Clone, Copy, PartialEq, Eq)]
enum Mood {
    /// Small averages of one sign on neighbouring days, so that five sets come together.
    Steady,
    /// The same with zero sets between, which the five pass over.
    Zeros,
    /// The limits of the averages.
    Edges,
    /// Intercepts near their bound.
    Bound,
    /// Again pairs and dropped samples.
    Outliers,
    /// All of it.
    Mixed,
}

const MOODS: [Mood; 6] = [
    Mood::Steady,
    Mood::Zeros,
    Mood::Edges,
    Mood::Bound,
    Mood::Outliers,
    Mood::Mixed,
];

/// How a list's calls are chosen.
#[derive(Clone, Copy)]
pub struct Lean {
    mood: Mood,
    /// The line that most sheets of a steady list are for.
    line: u64,
    ending: bool,
}

impl Lean {
    fn is_steady(self) -> bool {
        matches!(self.mood, Mood::Steady | Mood::Zeros)
    }

    fn any(rng: &mut Rng) -> Lean {
        Lean {
            mood: rng.pick(&MOODS),
            line: rng.below(3) as u64,
            ending: false,
        }
    }
}

/// A fresh station and `calls` calls on it.
pub fn list(trial: &mut Trial, calls: usize) -> Result<(), Difference> {
    let row = trial.rng.pick(&[0, 0, 1]);
    let subject = trial.open(row)?;
    // None only where a damaged model differs in its rows.
    let Some(mut subject) = subject else {
        return Ok(());
    };
    let mut lean = Lean::any(&mut trial.rng);
    for call in 0..calls {
        // The last day is tried only at the end: no later one follows it.
        lean.ending = call + 4 > calls;
        any_call(trial, &mut subject, lean)?;
    }
    Ok(())
}

/// A call of any kind. The stations of other tests go through it too.
pub fn single(trial: &mut Trial, subject: &mut Subject) -> Result<(), Difference> {
    let lean = Lean::any(&mut trial.rng);
    any_call(trial, subject, lean)
}

/// Rows that don't exist, also beyond 32 bits.
pub fn openings(trial: &mut Trial) -> Result<(), Difference> {
    for row in [
        0,
        1,
        2,
        3,
        4,
        255,
        1 << 31,
        1 << 32,
        (1 << 32) + 1,
        1 << 63,
        u64::MAX,
    ] {
        trial.open(row)?;
        trial.chart_open(row)?;
    }
    Ok(())
}

/// The station for the generator to look at; for one that isn't sound a fresh one.
pub fn seen(subject: &Subject) -> Station {
    let station = encode::station(&subject.places);
    match station.sound(&grain_model::Rules::in_force()) {
        true => station,
        false => Station::fresh(0),
    }
}

fn any_call(trial: &mut Trial, subject: &mut Subject, lean: Lean) -> Result<(), Difference> {
    let sheets = if lean.mood == Mood::Zeros { 75 } else { 60 };
    match trial.rng.below(100) {
        call if call < sheets => sheet(trial, subject, lean),
        ..94 => market(trial, subject, lean),
        _ => repair(trial, subject, lean),
    }
}

/// How many lines the row has.
fn lines(station: &Station) -> usize {
    if station.row == 0 { 1 } else { 3 }
}

/// Mostly a line of the grain.
pub fn a_line(rng: &mut Rng, station: &Station) -> u64 {
    if rng.chance(97) {
        return rng.below(lines(station)) as u64;
    }
    rng.pick(&[1, 2, 3, 1 << 32, (1 << 32) + 1, u64::MAX])
}

/// The asked line, or line 0 for one that the grain doesn't have.
pub fn line_of(station: &Station, line: u64) -> &Line {
    let place = usize::try_from(line).unwrap_or(0);
    let lines = &station.lines[..lines(station)];
    lines.get(place).unwrap_or(&lines[0])
}

/// A day, mostly the station's or the next, or beside the edges of 7 and 14 days.
pub fn a_day(rng: &mut Rng, station: &Station, line: &Line, lean: Lean) -> u32 {
    let day = station.day;
    let day = match rng.below(100) {
        0..50 => day,
        50..68 => day + 1,
        68..76 => day + rng.range(0, 6),
        76..95 => edge_day(rng, station, line, lean).max(day),
        95..97 => day - 1,
        97 => rng.pick(&[100_000, i64::from(u32::MAX), 1 << 31]),
        _ if lean.ending => rng.pick(&[99_998, 99_999, 100_000]),
        _ => day,
    };
    day as u32
}

/// The day on which a set is 7, 8, 14 or 15 days old. Where zero sets are to come between, mostly the
/// station's day, or one on which the sets that aren't zero just count, or just not.
fn edge_day(rng: &mut Rng, station: &Station, line: &Line, lean: Lean) -> i64 {
    let (newest, nonzero) = (line.newest.sets(), line.nonzero.sets());
    let later = |set: Option<&PastSet>, days| set.map_or(station.day, |set| set.day + days);
    if lean.mood == Mood::Zeros && rng.chance(85) {
        return match rng.below(10) {
            0..3 => later(nonzero.last(), rng.pick(&[14, 15])),
            3..5 => later(nonzero.first(), rng.pick(&[8, 15])),
            _ => station.day,
        };
    }
    match &[newest, nonzero].concat()[..] {
        [] => station.day + 1,
        sets => rng.pick(sets).day + rng.pick(&[7, 8, 14, 15]),
    }
}

fn repair(trial: &mut Trial, subject: &mut Subject, lean: Lean) -> Result<(), Difference> {
    let station = seen(subject);
    let day = a_day(&mut trial.rng, &station, &station.lines[0], lean);
    if trial.repair(subject, day)?.is_err() {
        return Ok(());
    }
    for line in &station.lines[..lines(&station)] {
        trial.met.branch(match line.phase() {
            LinePhase::New => "repair: new line",
            LinePhase::Open => "repair: open line",
            LinePhase::Adjusted => "repair: adjusted line",
            LinePhase::Shut => "repair: shut line",
        });
        let none = line.nonzero.sets().is_empty();
        trial.met.branch_if(!none, "repair: non-zero sets go");
    }
    Ok(())
}

// Sheets.

/// The limits the generator aims at.
fn limits_of(row: i64, line: u64) -> Limits {
    let rules = grain_model::Rules::in_force();
    let lines = &rules.products[row as usize].lines;
    let place = usize::try_from(line).unwrap_or(0);
    lines.get(place).unwrap_or(&lines[0]).clone()
}

fn sheet(trial: &mut Trial, subject: &mut Subject, lean: Lean) -> Result<(), Difference> {
    let station = seen(subject);
    let favoured = lean.is_steady() && station.row == 1 && trial.rng.chance(85);
    let line = match favoured {
        true => lean.line,
        false => a_line(&mut trial.rng, &station),
    };
    let held = line_of(&station, line);
    let day = a_day(&mut trial.rng, &station, held, lean);
    let limits = limits_of(station.row, line);
    let samples = if station.row == 0 { 6 } else { 4 };
    let writer = &mut Writer {
        rng: &mut trial.rng,
        limits: &limits,
        intercept: held.intercept,
    };
    let mut numbers = writer.sheet(lean.mood, held, i64::from(day), samples);
    if writer.rng.chance(12) {
        damage(writer.rng, &mut numbers);
    }
    let past = subject.book.as_ref().map(|book| book.past(line as usize));
    let answer = trial.sheet_in_orders(subject, day, line, &numbers)?;
    if let Ok(judged) = answer {
        let day = i64::from(day);
        Accepted::new(held, &limits, day, &judged, past.as_deref()).count(&mut trial.met);
        count_samples(trial, &limits, held.intercept, &numbers);
        let (s, n) = (judged.outcome.s, judged.outcome.n);
        let events = &subject.history[line as usize];
        history::count_check_after_repair(&mut trial.met, events, s.abs() <= limits.one * n);
        trial
            .met
            .branch(["sheet: line 0", "sheet: line 1", "sheet: line 2"][line as usize]);
    }
    Ok(())
}

/// Writes the numbers of a sheet with wanted deviations.
struct Writer<'a> {
    rng: &'a mut Rng,
    limits: &'a Limits,
    intercept: i64,
}

impl Writer<'_> {
    fn sheet(&mut self, mood: Mood, line: &Line, day: i64, samples: usize) -> Vec<i32> {
        let outliers = mood == Mood::Outliers || self.rng.chance(8);
        let dropped = match outliers {
            true => self.rng.below(samples + 1),
            false => 0,
        };
        let kept = samples - dropped;
        let wanted = self.wanted(mood, line, day, 2 * kept as i64);
        let mut deviations = self.spread(wanted, kept);
        for _ in 0..dropped {
            let away = 2 * self.limits.sample + self.rng.pick(&[1, 2, 30, 300]);
            deviations.push(self.rng.either_sign(away));
        }
        let turn = self.rng.below(samples);
        deviations.rotate_left(turn);
        let largest = deviations.iter().max().copied().unwrap_or(0);
        let smallest = deviations.iter().min().copied().unwrap_or(0);
        let again_due = largest - smallest > 2 * self.limits.range;
        let keep_again = self.rng.chance(30);
        let sample = |deviation: &i64| self.sample(*deviation, again_due, keep_again);
        deviations.iter().flat_map(sample).collect()
    }

    /// The S to reach with this N.
    fn wanted(&mut self, mood: Mood, line: &Line, day: i64, n: i64) -> i64 {
        let limits = self.limits;
        match mood {
            Mood::Steady if self.rng.chance(80) => self.steady(line, n),
            Mood::Zeros if self.rng.chance(45) => 0,
            Mood::Zeros if self.rng.chance(85) => self.steady(line, n),
            Mood::Bound if self.rng.chance(50) => self.bound(n),
            _ => match self.rng.below(10) {
                0..6 => self.edge(line, day, n),
                6 => self.steady(line, n),
                7 => self.rng.range(-3, 3),
                8 => self.rng.range(-2 * limits.one * n, 2 * limits.one * n),
                _ if self.rng.chance(25) => self.bound(n),
                // A half average: rounded away from zero.
                _ => {
                    let whole = limits.one + self.rng.range(0, 9);
                    self.rng.either_sign(whole * n + n / 2)
                }
            },
        }
    }

    /// An S beside the limit of five, sometimes up to that of three, on the side of the newest set that
    /// isn't zero.
    fn steady(&mut self, line: &Line, n: i64) -> i64 {
        let limits = self.limits;
        let below = line.nonzero.sets().first().is_some_and(|set| set.s < 0);
        let s = match self.rng.chance(70) {
            true => self
                .rng
                .range((limits.five - 1) * n, limits.five * n + n / 2),
            false => self.rng.range(limits.five * n, limits.three * n),
        };
        if below { -s } else { s }
    }

    /// An S at or beside the limit of one of the tests.
    fn edge(&mut self, line: &Line, day: i64, n: i64) -> i64 {
        let limits = self.limits;
        let (newest, nonzero) = (line.newest.sets(), line.nonzero.sets());
        let (sets, count, limit) = match line.phase().phase() {
            Phase::CheckDue => (newest, 0, limits.check),
            _ => self.rng.pick(&[
                (newest, 0, limits.one),
                (newest, 1, limits.two),
                (newest, 2, limits.three),
                (nonzero, 4, limits.five),
                (nonzero, 4, limits.five),
            ]),
        };
        let past: Vec<&PastSet> = sets
            .iter()
            .filter(|set| day - set.day <= 15)
            .take(count)
            .collect();
        let n = n + past.iter().map(|set| set.n).sum::<i64>();
        let s = past.iter().map(|set| set.s).sum::<i64>();
        let sign = if s < 0 || (s == 0 && self.rng.chance(50)) {
            -1
        } else {
            1
        };
        sign * (limit * n + self.rng.pick(&[0, 0, 1, 1, -1])) - s
    }

    /// An S that moves the intercept to its bound, or just not or just beyond; sometimes to 500
    /// instead, where the gluten intercept is rounded at a half.
    fn bound(&mut self, n: i64) -> i64 {
        let bound = self.rng.pick(&[1000, 1000, 1000, 500]);
        let bound = self.rng.either_sign(bound);
        let beside = self.rng.range(-2, 2);
        let average = self.intercept - bound + beside;
        average * n + self.rng.pick(&[0, 0, n / 2, -n / 2, n / 2 - 1, 1 - n / 2])
    }

    /// `sum` spread over `count` deviations, not quite evenly.
    fn spread(&mut self, sum: i64, count: usize) -> Vec<i64> {
        if count == 0 {
            return vec![];
        }
        let each = sum.div_euclid(count as i64);
        let mut deviations = vec![each; count];
        deviations[0] += sum.rem_euclid(count as i64);
        for _ in 0..self.rng.below(3) {
            let most = self.rng.pick(&[4, 40, 2 * self.limits.range]);
            // Sometimes two are as far apart as the range limit allows, or just further.
            let shift = match self.rng.chance(8) {
                true => self.limits.range + self.rng.range(0, 1),
                false => self.rng.range(0, most),
            };
            let (one, other) = (self.rng.below(count), self.rng.below(count));
            deviations[one] += shift;
            deviations[other] -= shift;
        }
        deviations
    }

    /// The six numbers of a sample with this deviation.
    fn sample(&mut self, deviation: i64, again_due: bool, keep_again: bool) -> [i32; 6] {
        let limit = 2 * self.limits.sample;
        let sum = deviation - 2 * self.intercept;
        // Mostly a usual baseline; one that keeps the pair within 0..10000.
        let lowest = (-sum).div_euclid(2) + 400;
        let baseline = self.rng.range(1000, 1800).max(lowest).clamp(0, 10_000);
        let total = sum + 2 * baseline;
        let [first, second, third] = self.measured(total);
        let [again_first, again_second] = match again_due && deviation.abs() > limit {
            false => [-1, -1],
            true => {
                let anew = match keep_again {
                    true => self.rng.pick(&[0, 1, limit, limit - 1]),
                    false => self
                        .rng
                        .pick(&[limit, limit + 1, limit + 1, limit + 2, limit + 90]),
                };
                let anew = self.rng.either_sign(anew) - 2 * self.intercept + 2 * baseline;
                let spread = self.rng.range(0, 200);
                self.pair(anew, spread)
            }
        };
        [baseline, first, second, third, again_first, again_second].map(|number| number as i32)
    }

    /// Two numbers with this sum, about `spread` apart.
    fn pair(&mut self, sum: i64, spread: i64) -> [i64; 2] {
        let spread = spread + (sum - spread).rem_euclid(2);
        let pair = [(sum + spread) / 2, (sum - spread) / 2];
        if self.rng.chance(50) {
            pair
        } else {
            [pair[1], pair[0]]
        }
    }

    /// First, second and third of which the used pair has this sum.
    fn measured(&mut self, sum: i64) -> [i64; 3] {
        let limit = self.limits.pair;
        let close = self.rng.range(0, limit - 1);
        if self.rng.chance(70) {
            // No third; often at the pair limit itself.
            let spread = if self.rng.chance(15) {
                limit - 1
            } else {
                close
            };
            let [first, second] = self.pair(sum, spread);
            let at_limit = self.rng.chance(50) && (sum - limit).rem_euclid(2) == 0;
            return match at_limit {
                true => [(sum + limit) / 2, (sum - limit) / 2, -1],
                false => [first, second, -1],
            };
        }
        let far = limit + self.rng.pick(&[1, 1, 2, 40]);
        match self.rng.below(3) {
            // First and second are apart, and the third no closer to either.
            0 => {
                let [first, second] = self.pair(sum, far);
                let spread = (first - second).abs();
                let further = self.rng.pick(&[0, 0, 1, 50]);
                [first, second, first.max(second) + spread + further]
            }
            // The third is close to the first, sometimes just as close to the second.
            1 => {
                let [first, third] = self.pair(sum, close);
                let apart = (first - third).abs().max(far - close);
                let away = if first < third {
                    third + apart
                } else {
                    third - apart
                };
                let second = if (away - first).abs() > limit {
                    away
                } else {
                    first + far
                };
                [first, second, third]
            }
            _ => {
                let [second, third] = self.pair(sum, close);
                let first = if second < third {
                    second + far + close
                } else {
                    second - far - close
                };
                let first = if self.rng.chance(50) {
                    first
                } else {
                    third + (third - second) + far
                };
                [first, second, third]
            }
        }
    }
}

/// One thing wrong with a sheet, for the numbers 4 to 7; sometimes two, or several samples wrong.
fn damage(rng: &mut Rng, numbers: &mut Vec<i32>) {
    if rng.chance(20) {
        return wrong_samples(rng, numbers);
    }
    for _ in 0..rng.pick(&[1, 1, 1, 2]) {
        let place = rng.below(numbers.len().max(1));
        let sample = place / 6 * 6;
        match rng.below(10) {
            0 => numbers.truncate(rng.pick(&[0, place])),
            1 => numbers.extend([1300, 1300, 1300, -1, -1, -1]),
            2 => numbers.push(0),
            3 | 4 if place < numbers.len() => {
                numbers[place] = rng.pick(&[-1, -2, 10_000, 10_001, i32::MIN, i32::MAX]);
            }
            5 if sample + 6 <= numbers.len() => wrong_third(&mut numbers[sample..]),
            6 | 7 if sample + 6 <= numbers.len() => wrong_again(rng, &mut numbers[sample..]),
            // First and second drawn apart.
            _ if sample + 6 <= numbers.len() => {
                let apart = rng.pick(&[30, 31, -31, 40, 41, 90, 91]);
                numbers[sample + 1] = numbers[sample + 2].saturating_add(apart);
            }
            _ => {}
        }
    }
}

/// Two or three samples of a whole sheet wrong, often each in another way: the numbers 5 to 7 beside
/// each other.
fn wrong_samples(rng: &mut Rng, numbers: &mut [i32]) {
    let samples = numbers.len() / 6;
    let turn = rng.below(samples);
    for one in 0..rng.pick(&[2, 3]) {
        let sample = &mut numbers[(turn + one) % samples * 6..];
        match rng.below(3) {
            0 => sample[rng.below(6)] = rng.pick(&[-2, 10_001, i32::MIN, i32::MAX]),
            1 => wrong_third(sample),
            _ => wrong_again(rng, sample),
        }
    }
}

/// A third too many or too few.
fn wrong_third(sample: &mut [i32]) {
    sample[3] = if sample[3] == -1 { 1300 } else { -1 };
}

/// An again pair too many or too few, or half of one.
fn wrong_again(rng: &mut Rng, sample: &mut [i32]) {
    let pair = rng.pick(&[[-1, -1], [1300, 1310], [1300, 1310], [-1, 1300], [1300, -1]]);
    sample[4..6].copy_from_slice(&pair);
}

/// The branches of a sheet's samples.
fn count_samples(trial: &mut Trial, limits: &Limits, intercept: i64, numbers: &[i32]) {
    let read = |numbers| Sample::read(&trial.rules, numbers).unwrap();
    let samples: Vec<Sample> = numbers.chunks_exact(6).map(read).collect();
    let deviates = |deviation: i64| deviation.abs() > 2 * limits.sample;
    let again_round = samples.iter().any(|sample| sample.again.is_some());
    let met = &mut trial.met;
    for sample in samples {
        let pair = sample.pair();
        let deviation = sample.deviation(pair, intercept);
        let spread = (sample.first - sample.second).abs();
        let at_limit = deviation.abs() == 2 * limits.sample;
        met.branch_if(at_limit, "sheet: deviation at twice the sample limit");
        let kept = deviates(deviation) && !again_round;
        met.branch_if(kept, "sheet: deviating sample kept, range within");
        met.branch_if(spread == limits.pair, "sheet: no third at the pair limit");
        met.branch_if(
            spread == limits.pair + 1,
            "sheet: third due beside the pair limit",
        );
        let Some(third) = sample.third else {
            continue;
        };
        met.branch(if pair == [sample.first, sample.second] {
            "sheet: pair first-second of three"
        } else if pair == [sample.first, third] {
            "sheet: pair first-third"
        } else {
            "sheet: pair second-third"
        });
        let spreads = [
            spread,
            (sample.first - third).abs(),
            (sample.second - third).abs(),
        ];
        let closest = spreads.iter().min();
        let equal = spreads
            .iter()
            .filter(|spread| Some(*spread) == closest)
            .count()
            > 1;
        met.branch_if(equal, "sheet: equal spreads");
    }
}
