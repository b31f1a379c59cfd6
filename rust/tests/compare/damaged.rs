//! Damaged models: each number of the rules off by one, models that tell the lines that aren't open
//! wrongly, that take zero sets wrongly (kinds.rs), wrong calendars, lots stated wrongly, and charts that
//! plot or judge wrongly.

use grain_model::lot::{bad_sublot, statement, unlike_basis};
use grain_model::rules::{CalendarRules, ChartRow, LotRules};
use grain_model::{
    Calendar, Certificate, Chart, ChartSet, ChartValues, Line, LinePhase, LotStatement, Rules,
    Station, Sublot, Verdict, ship_lot,
};

use crate::encode::{self, StationPlaces};
use crate::kinds::{Kind, Of};
use crate::markets;
use crate::plots::{self, EXACT, PLOT, Plotted, SIXTIETHS};
use crate::stations::Request;

/// The numbers of the rules with a name each.
pub fn numbers(rules: &mut Rules) -> Vec<(String, &mut i64)> {
    let mut numbers = Vec::new();
    let mut add = |name: String, number| numbers.push((name, number));
    for (product, of) in rules.products.iter_mut().zip(["wheat", "corn"]) {
        add(format!("{of} standard basis"), &mut product.standard);
        add(format!("{of} samples"), &mut product.samples);
        for (line, limits) in product.lines.iter_mut().enumerate() {
            add(format!("{of} line {line} pair limit"), &mut limits.pair);
            add(format!("{of} line {line} sample limit"), &mut limits.sample);
            add(format!("{of} line {line} range limit"), &mut limits.range);
            add(format!("{of} line {line} one set"), &mut limits.one);
            add(format!("{of} line {line} two sets"), &mut limits.two);
            add(format!("{of} line {line} three sets"), &mut limits.three);
            add(format!("{of} line {line} five sets"), &mut limits.five);
            add(format!("{of} line {line} check limit"), &mut limits.check);
        }
    }
    for (row, limits) in rules.charts.iter_mut().enumerate() {
        add(format!("chart {row} absolute"), &mut limits.absolute);
        add(format!("chart {row} tolerance"), &mut limits.tolerance);
        add(format!("chart {row} run"), &mut limits.run);
        add(
            format!("chart {row} range absolute"),
            &mut limits.range_absolute,
        );
        add(
            format!("chart {row} range tolerance"),
            &mut limits.range_tolerance,
        );
    }
    let single: [(&str, &mut i64); 18] = [
        ("last day", &mut rules.last_day),
        ("past days", &mut rules.past_days),
        ("newest days", &mut rules.newest_days),
        ("intercept bound", &mut rules.intercept),
        ("set average bound", &mut rules.set_average),
        ("sheet number bound", &mut rules.sheet_number),
        ("basis bound", &mut rules.basis),
        ("corrected value bound", &mut rules.corrected),
        ("value at B bound", &mut rules.at_basis),
        ("gluten factor", &mut rules.gluten_factor),
        ("gluten basis", &mut rules.gluten_basis),
        ("last week", &mut rules.last_week),
        ("pairs", &mut rules.pairs),
        ("chart plot bound", &mut rules.chart_plot),
        ("chart range bound", &mut rules.chart_range),
        ("chart result bound", &mut rules.chart_result),
        ("text bytes", &mut rules.text_bytes),
        ("line bytes", &mut rules.line_bytes),
    ];
    numbers.extend(single.map(|(name, number)| (name.to_string(), number)));
    numbers.extend(calendar_numbers(&mut rules.calendar));
    numbers.extend(lot_numbers(&mut rules.lots));
    numbers
}

fn calendar_numbers(rules: &mut CalendarRules) -> Vec<(String, &mut i64)> {
    let mut numbers = Vec::new();
    for (month, length) in (1..).zip(&mut rules.month_lengths) {
        numbers.push((format!("length of month {month}"), length));
    }
    let single: [(&str, &mut i64); 11] = [
        ("length of a leap year's February", &mut rules.leap_february),
        ("leap years", &mut rules.leap_years),
        ("century", &mut rules.century),
        ("leap centuries", &mut rules.leap_centuries),
        ("first year", &mut rules.first_year),
        ("first weekday", &mut rules.first_weekday),
        ("weekdays", &mut rules.weekdays),
        ("calendar's last day", &mut rules.last_day),
        ("last holiday", &mut rules.last_holiday),
        ("working weekdays", &mut rules.working_weekdays),
        ("due days", &mut rules.due_days),
    ];
    numbers.extend(single.map(|(name, number)| (name.to_string(), number)));
    numbers
}

fn lot_numbers(rules: &mut LotRules) -> Vec<(String, &mut i64)> {
    let mut numbers = Vec::new();
    for (name, bounds) in [
        ("records of a lot", &mut rules.records),
        ("tonnes of a sublot", &mut rules.tonnes),
        ("figure of a sublot", &mut rules.figure),
        ("basis of a sublot", &mut rules.basis),
    ] {
        numbers.push((format!("least {name}"), &mut bounds.least));
        numbers.push((format!("most {name}"), &mut bounds.most));
    }
    numbers
}

/// The rules with the number at this place off by `by`, and its name. None past the end.
pub fn rules(place: usize, by: i64) -> Option<(String, Rules)> {
    let mut rules = Rules::in_force();
    let name = {
        let mut numbers = numbers(&mut rules);
        let (name, number) = numbers.get_mut(place)?;
        **number += by;
        format!("{name} {} instead of {}", **number, **number - by)
    };
    Some((name, rules))
}

/// The rules with the number of this name off by `by`.
pub fn rules_of(name: &str, by: i64) -> Rules {
    let mut rules = Rules::in_force();
    let mut numbers = numbers(&mut rules);
    let (_, number) = numbers
        .iter_mut()
        .find(|(other, _)| other == name)
        .expect(name);
    **number += by;
    drop(numbers);
    rules
}

/// What a wrong model does.
#[derive(Clone, Copy, Debug, PartialEq, Eq)]
pub enum Wrong {
    /// 12 for every line that isn't open.
    OneNumber,
    /// 25 and 26 exchanged.
    Exchanged,
    /// 25 and 26 tried before 11.
    BeforeCorrected,
    /// 13 tried before 25 and 26, by the first place of the newest sets.
    AfterOldSet,
    /// 14 tried before 25 and 26.
    AfterHighValue,
    /// Shut is told by N = 0 alone: a line at the bound is adjusted.
    ShutByNothingKept,
    /// A shut line that its check adjusts stays shut.
    StaysShut,
    /// An adjusted line that is shut stays adjusted.
    StaysAdjusted,
    /// A repair makes a shut line adjusted.
    RepairAdjusts,
    /// A repair makes an adjusted line shut.
    RepairShuts,
    /// A repair makes a line new whose check is due.
    RepairForgets,
    /// A zero set that joins an open or new line is held among the non-zero ones too.
    ZeroJoins,
    /// A zero set that opens a line by its check is held among the non-zero ones too.
    ZeroOpens,
    /// A zero set moves the places of the non-zero ones on, and none more is held.
    ZeroMovesOn,
    /// A zero set blanks the spare places of the non-zero ones.
    ZeroBlanks,
    /// Only sets that aren't zero are the newest.
    ZeroIsNotNewest,
    /// A zero set is tested for five, with four non-zero ones on one side.
    ZeroTested,
    /// A zero set among the newest four breaks the five.
    ZeroBreaks,
    /// Signs don't break the five.
    SignsIgnored,
    /// Zero sets are passed over in the averages of two and three too.
    PassedOverByAll,
    /// The averages of two and three are left out for a zero set.
    ZeroNotAveraged,
    /// The five is tested with three non-zero sets as well.
    FourForFive,
    /// The five is tested only where two newest sets are valid.
    FiveNeedsTwo,
    /// The five is tested only where a newest set is valid.
    FiveNeedsOne,
    /// The five takes non-zero sets of any age.
    FiveIgnoresAge,
    /// The five takes non-zero sets where the newest set is valid, whatever their age.
    FiveByNewestAge,
    /// Sets of one kind count for 15 days.
    FifteenDays(Kind),
    /// Sets of one kind count for 13 days.
    ThirteenDays(Kind),
    /// Three newest sets are held.
    ThreeNewest,
    /// Three non-zero sets are held.
    ThreeNonzero,
    /// Non-zero sets survive a repair.
    SurviveRepair,
    /// Non-zero sets survive an adjustment.
    SurviveAdjustment,
    /// Non-zero sets survive shutting.
    SurviveShutting,
    /// A certificate carries the day of the newest non-zero set.
    DayOfNonzero,
    /// Number 13 looks at the newest non-zero set.
    AgeOfNonzero,
    /// Number 0 wants the newest non-zero set to be no newer than the newest set.
    KindsCompared,
    /// Number 0 wants the newest sets that aren't zero among the non-zero ones.
    KindsShared,
    /// Number 0 wants two newest sets where four non-zero ones are held.
    TwoBesideFour,
    /// Number 0 wants a non-zero set on an open line.
    NonzeroNeeded,
    /// Number 0 allows zero sets among the non-zero ones.
    ZeroAllowed,
    /// Number 0 allows sets of one kind on a line that isn't open.
    HeldAnywhere(Kind),
    /// Number 0 allows an open line whose only sets are non-zero ones.
    NonzeroAlone,
    /// Number 0 doesn't look at one of the numbers of one kind's sets.
    Unseen(Kind, Of),
    /// Every fourth year is a leap year, 2100 and 2200 too.
    EveryFourthYear,
    /// Saturday is a working day.
    SaturdayWorks,
    /// A starting day that is a working day is counted.
    StartCounted,
    /// 28 tried before 27 of the day handed in.
    HolidaysFirst,
    /// 27 of the day found tried before 28.
    HolidaysLast,
    /// A list may have a holiday twice.
    MayRepeat,
    /// The holidays are not looked at where the count is 0.
    UnseenAtZero,
    /// The last holiday is not looked at where the day is found before it.
    UnseenBeyond,
    /// A holiday on a weekend moves the day found as well.
    WeekendHolidays,
    /// 30 tried before 29.
    SublotsBeforeSize,
    /// 31 tried before 29.
    BasisBeforeSize,
    /// 31 tried before 30.
    BasisBeforeSublots,
    /// Record after record is tried for 30 and 31.
    RecordByRecord,
    /// A bad last record is not noticed.
    LastRecordUnseen,
    /// The last record's basis is not compared.
    LastBasisUnseen,
    /// The lowest figure of the first two records only.
    LowestOfFirstTwo,
    /// The highest figure of the last two records only.
    HighestOfLastTwo,
    /// The mean of the records' figures, whatever their tonnes.
    NotWeighted,
    /// The mean halfway between lowest and highest.
    Midway,
    /// The mean's tenth is cut off.
    CutOff,
    /// An exact half goes down.
    HalvesDown,
    /// An exact half goes to the even tenth.
    HalvesToEven,
    /// The mean is rounded to a hundredth of a percent, and that to a tenth.
    RoundedTwice,
    /// Sum and tonnes are reduced.
    Reduced,
    /// The sum is kept in 32 bits.
    ShortSum,
    /// Of several records with the same figure only the last counts.
    FiguresOnce,
    /// The plot is the mean of the differences, rounded once, halves up.
    DifferencesRounded,
    /// The plot is the mean of the differences, rounded once, halves away from zero.
    DifferencesRoundedAway,
    /// The plot is the monitor mean minus the original mean.
    MeansExchanged,
    /// The original mean's hundredth is cut off.
    OriginalCutOff,
    /// The monitor mean's hundredth is cut off.
    MonitorCutOff,
    /// An exact half of the original mean goes down.
    OriginalHalvesDown,
    /// An exact half of the monitor mean goes down.
    MonitorHalvesDown,
    /// Of both means an exact half goes down.
    MeansHalvesDown,
    /// An exact half of the original mean goes to the even hundredth.
    OriginalHalvesToEven,
    /// An exact half of the monitor mean goes to the even hundredth.
    MonitorHalvesToEven,
    /// Of both means an exact half goes to the even hundredth.
    MeansHalvesToEven,
    /// The absolute limit is compared with the exact average.
    AbsoluteOfExact,
    /// The tolerance limit is compared with the exact averages.
    ToleranceOfExact,
    /// A run is one of the exact averages.
    RunOfExact,
    /// All limits of the average are compared with the exact averages.
    LimitsOfExact,
    /// A set that plots 0 lies on the side of its sum.
    SideOfSum,
    /// A plot of 0 lies on the side of the others.
    ZeroOnASide,
    /// The run's mean is that of the exact averages.
    RunMeanOfExact,
    /// The run's mean is that of all differences of the four sets.
    RunMeanPooled,
    /// The run's mean counts a plot as often as its set has pairs.
    RunMeanWeighted,
    /// The run's mean is rounded, halves away from zero.
    RunMeanRounded,
    /// The run's mean is cut off.
    RunMeanCutOff,
    /// The magnitude of a held plot is at most 10000 times the count.
    HeldTimesCount,
}

pub const WRONG: [Wrong; 100] = [
    Wrong::OneNumber,
    Wrong::Exchanged,
    Wrong::BeforeCorrected,
    Wrong::AfterOldSet,
    Wrong::AfterHighValue,
    Wrong::ShutByNothingKept,
    Wrong::StaysShut,
    Wrong::StaysAdjusted,
    Wrong::RepairAdjusts,
    Wrong::RepairShuts,
    Wrong::RepairForgets,
    Wrong::ZeroJoins,
    Wrong::ZeroOpens,
    Wrong::ZeroMovesOn,
    Wrong::ZeroBlanks,
    Wrong::ZeroIsNotNewest,
    Wrong::ZeroTested,
    Wrong::ZeroBreaks,
    Wrong::SignsIgnored,
    Wrong::PassedOverByAll,
    Wrong::ZeroNotAveraged,
    Wrong::FourForFive,
    Wrong::FiveNeedsTwo,
    Wrong::FiveNeedsOne,
    Wrong::FiveIgnoresAge,
    Wrong::FiveByNewestAge,
    Wrong::FifteenDays(Kind::Newest),
    Wrong::FifteenDays(Kind::Nonzero),
    Wrong::ThirteenDays(Kind::Newest),
    Wrong::ThirteenDays(Kind::Nonzero),
    Wrong::ThreeNewest,
    Wrong::ThreeNonzero,
    Wrong::SurviveRepair,
    Wrong::SurviveAdjustment,
    Wrong::SurviveShutting,
    Wrong::DayOfNonzero,
    Wrong::AgeOfNonzero,
    Wrong::KindsCompared,
    Wrong::KindsShared,
    Wrong::TwoBesideFour,
    Wrong::NonzeroNeeded,
    Wrong::ZeroAllowed,
    Wrong::HeldAnywhere(Kind::Newest),
    Wrong::HeldAnywhere(Kind::Nonzero),
    Wrong::NonzeroAlone,
    Wrong::Unseen(Kind::Newest, Of::Day),
    Wrong::Unseen(Kind::Newest, Of::S),
    Wrong::Unseen(Kind::Newest, Of::N),
    Wrong::Unseen(Kind::Nonzero, Of::Day),
    Wrong::Unseen(Kind::Nonzero, Of::S),
    Wrong::Unseen(Kind::Nonzero, Of::N),
    Wrong::EveryFourthYear,
    Wrong::SaturdayWorks,
    Wrong::StartCounted,
    Wrong::HolidaysFirst,
    Wrong::HolidaysLast,
    Wrong::MayRepeat,
    Wrong::UnseenAtZero,
    Wrong::UnseenBeyond,
    Wrong::WeekendHolidays,
    Wrong::SublotsBeforeSize,
    Wrong::BasisBeforeSize,
    Wrong::BasisBeforeSublots,
    Wrong::RecordByRecord,
    Wrong::LastRecordUnseen,
    Wrong::LastBasisUnseen,
    Wrong::LowestOfFirstTwo,
    Wrong::HighestOfLastTwo,
    Wrong::NotWeighted,
    Wrong::Midway,
    Wrong::CutOff,
    Wrong::HalvesDown,
    Wrong::HalvesToEven,
    Wrong::RoundedTwice,
    Wrong::Reduced,
    Wrong::ShortSum,
    Wrong::FiguresOnce,
    Wrong::DifferencesRounded,
    Wrong::DifferencesRoundedAway,
    Wrong::MeansExchanged,
    Wrong::OriginalCutOff,
    Wrong::MonitorCutOff,
    Wrong::OriginalHalvesDown,
    Wrong::MonitorHalvesDown,
    Wrong::MeansHalvesDown,
    Wrong::OriginalHalvesToEven,
    Wrong::MonitorHalvesToEven,
    Wrong::MeansHalvesToEven,
    Wrong::AbsoluteOfExact,
    Wrong::ToleranceOfExact,
    Wrong::RunOfExact,
    Wrong::LimitsOfExact,
    Wrong::SideOfSum,
    Wrong::ZeroOnASide,
    Wrong::RunMeanOfExact,
    Wrong::RunMeanPooled,
    Wrong::RunMeanWeighted,
    Wrong::RunMeanRounded,
    Wrong::RunMeanCutOff,
    Wrong::HeldTimesCount,
];

impl Wrong {
    /// The rules of the wrong model.
    pub fn rules(self) -> Rules {
        let mut rules = Rules::in_force();
        match self {
            Wrong::EveryFourthYear => rules.calendar.century = i64::MAX,
            Wrong::SaturdayWorks => rules.calendar.working_weekdays = 6,
            _ => {}
        }
        rules
    }

    /// The phase of a line after an accepted sheet with this verdict, in place of the right one.
    pub fn phase(self, before: LinePhase, verdict: Verdict) -> Option<LinePhase> {
        let shut = matches!(verdict, Verdict::NothingKept | Verdict::Bounded(_));
        let adjusted = matches!(verdict, Verdict::Adjusted(..));
        match (self, before) {
            (Wrong::ShutByNothingKept, _) if matches!(verdict, Verdict::Bounded(_)) => {
                Some(LinePhase::Adjusted)
            }
            (Wrong::StaysShut, LinePhase::Shut) if adjusted => Some(LinePhase::Shut),
            (Wrong::StaysAdjusted, LinePhase::Adjusted) if shut => Some(LinePhase::Adjusted),
            _ => None,
        }
    }

    /// The station after an accepted repair.
    pub fn repair(self, before: &StationPlaces, after: &mut Station) {
        let before = encode::station(before);
        for (line, then) in before.lines.iter().zip(&mut after.lines) {
            if self == Wrong::SurviveRepair && line.phase == LinePhase::Open.code() {
                then.nonzero = line.nonzero;
            }
            let phase = match (self, LinePhase::of(line.phase)) {
                (Wrong::RepairAdjusts, Some(LinePhase::Shut)) => LinePhase::Adjusted,
                (Wrong::RepairShuts, Some(LinePhase::Adjusted)) => LinePhase::Shut,
                (Wrong::RepairForgets, Some(LinePhase::Adjusted | LinePhase::Shut)) => {
                    LinePhase::New
                }
                _ => continue,
            };
            then.phase = phase.code();
        }
    }

    /// The answer in place of the right one to a market test.
    pub fn market(
        self,
        before: &StationPlaces,
        request: Request,
        right: Result<Certificate, u8>,
    ) -> Result<Certificate, u8> {
        let station = encode::station(before);
        let Some(line) = usize::try_from(request.line)
            .ok()
            .and_then(|place| station.lines.get(place))
        else {
            return right;
        };
        match right {
            Ok(certificate) => self.certificate(line, request, certificate),
            Err(number) => Err(self.number(&station, line, request, number)),
        }
    }

    /// The number in place of the right one that refuses a market test.
    fn number(self, station: &Station, line: &Line, request: Request, right: u8) -> u8 {
        let old = |line: &Line| i64::from(request.day) - line.newest.places[0].day > 7;
        let high = || request.asked == 0 && markets::too_high(station, line, request);
        match (self, right) {
            (Wrong::OneNumber, 25 | 26) => 12,
            (Wrong::Exchanged, 25) => 26,
            (Wrong::Exchanged, 26) => 25,
            (Wrong::BeforeCorrected, 11) => match LinePhase::of(line.phase) {
                Some(LinePhase::Adjusted) => 25,
                Some(LinePhase::Shut) => 26,
                _ => 11,
            },
            (Wrong::AfterOldSet, 25 | 26) if old(line) => 13,
            (Wrong::AfterHighValue, 25 | 26) if high() => 14,
            _ => right,
        }
    }

    /// The answer in place of the right one to a call for a working day.
    pub fn working_day(
        self,
        calendar: &Calendar,
        day: u32,
        count: u32,
        holidays: &[i32],
    ) -> Result<i64, u8> {
        let right = calendar.working_day(day, count, holidays);
        let counted = |count| calendar.working_day(day, count, holidays);
        match (self, right) {
            (Wrong::StartCounted, Ok(_) | Err(27))
                if calendar.weekday(day).is_ok() && calendar.is_working(day as usize, holidays) =>
            {
                counted(count.saturating_sub(1))
            }
            (Wrong::HolidaysFirst, Err(27)) if calendar.bad_holidays(holidays) => Err(28),
            (Wrong::HolidaysLast, Err(28)) if count > 99_999 - day => Err(27),
            (Wrong::MayRepeat, Err(28)) => {
                let mut once = holidays.to_vec();
                once.dedup();
                calendar.working_day(day, count, &once)
            }
            (Wrong::UnseenAtZero, Err(28)) if count == 0 => Ok(day.into()),
            (Wrong::UnseenBeyond, Err(28)) => {
                let seen = &holidays[..holidays.len() - 1];
                let found = calendar.working_day(day, count, seen);
                let beyond = |&last: &i32| found.is_ok_and(|found| i64::from(last) > found);
                if seen.last().is_some_and(beyond) {
                    found
                } else {
                    right
                }
            }
            (Wrong::WeekendHolidays, Ok(found)) => {
                counted(count + weekend_holidays(calendar, day, found, holidays))
            }
            _ => right,
        }
    }

    /// The answer in place of the right one to a lot.
    pub fn ship_lot(self, rules: &Rules, records: &[Sublot]) -> Result<LotStatement, u8> {
        match ship_lot(rules, records) {
            Ok(right) => Ok(self.statement(records, right)),
            Err(right) => self.refused_lot(rules, records, right),
        }
    }

    fn refused_lot(self, rules: &Rules, records: &[Sublot], right: u8) -> Result<LotStatement, u8> {
        let bad = |record: &Sublot| bad_sublot(&rules.lots, record);
        let Some((_, but_last)) = records.split_last() else {
            return Err(right);
        };
        match (self, right) {
            (Wrong::SublotsBeforeSize, 29) if records.iter().any(bad) => Err(30),
            (Wrong::BasisBeforeSize, 29) if unlike_basis(records) => Err(31),
            (Wrong::BasisBeforeSublots, 30) if unlike_basis(records) => Err(31),
            (Wrong::RecordByRecord, 30) => {
                let first_bad = records.iter().position(bad).unwrap_or(0);
                let unlike = unlike_basis(&records[..first_bad]);
                Err(if unlike { 31 } else { 30 })
            }
            (Wrong::LastRecordUnseen, 30) => ship_lot(rules, but_last).map_err(|_| 30),
            (Wrong::LastBasisUnseen, 31) if !unlike_basis(but_last) => Ok(statement(records)),
            _ => Err(right),
        }
    }

    fn statement(self, records: &[Sublot], right: LotStatement) -> LotStatement {
        let lowest = |of: &[Sublot]| statement(of).lowest;
        let highest = |of: &[Sublot]| statement(of).highest;
        let count = records.len();
        match self {
            Wrong::LowestOfFirstTwo => LotStatement {
                lowest: lowest(&records[..count.min(2)]),
                ..right
            },
            Wrong::HighestOfLastTwo => LotStatement {
                highest: highest(&records[count.saturating_sub(2)..]),
                ..right
            },
            Wrong::Reduced => {
                let divisor = common_divisor(right.weighted_sum, right.tonnes);
                LotStatement {
                    weighted_sum: right.weighted_sum / divisor,
                    tonnes: right.tonnes / divisor,
                    ..right
                }
            }
            Wrong::ShortSum => LotStatement {
                weighted_sum: right.weighted_sum & 0xFFFF_FFFF,
                ..right
            },
            Wrong::FiguresOnce => statement(&figures_once(records)),
            _ => LotStatement {
                mean: self.mean(records, right),
                ..right
            },
        }
    }

    /// The mean's tenth in place of the right one.
    fn mean(self, records: &[Sublot], right: LotStatement) -> i64 {
        let (sum, tonnes) = (right.weighted_sum, right.tonnes);
        let half = 2 * sum == (2 * right.mean - 1) * tonnes;
        match self {
            Wrong::NotWeighted => {
                let single = |record: &Sublot| Sublot {
                    tonnes: 1,
                    ..*record
                };
                let singles: Vec<Sublot> = records.iter().map(single).collect();
                statement(&singles).mean
            }
            Wrong::Midway => (right.lowest + right.highest + 1) / 2,
            Wrong::CutOff => sum / tonnes,
            Wrong::HalvesDown if half => right.mean - 1,
            Wrong::HalvesToEven if half && right.mean % 2 == 1 => right.mean - 1,
            Wrong::RoundedTwice => {
                let hundredths = (20 * sum + tonnes) / (2 * tonnes);
                (hundredths + 5) / 10
            }
            _ => right.mean,
        }
    }
}

impl Wrong {
    /// The answer in place of the right one to a set, and the chart after it. `past` are the exact averages
    /// of the held sets that were charted here.
    pub fn chart_set(
        self,
        rules: &Rules,
        chart: &mut Chart,
        past: &[i64],
        week: u32,
        numbers: &[i32],
        line: &mut [u8],
    ) -> Result<ChartValues, u8> {
        let before = *chart;
        let rules = self.chart_rules(rules, &before);
        let right = chart.set(&rules, week, numbers, line)?;
        let row = &rules.charts[before.row as usize];
        let set = ChartSet {
            count: right.count,
            plot: self.plot(numbers, right.plot),
            range: right.range,
        };
        let mut values = before.judged(row, right.week, set);
        let sets = plots::plotted(&before, past, set, numbers);
        self.limits(row, &sets, &mut values);
        values.run = self.run(row, &sets);
        values.length = values.write(line);
        *chart = before;
        chart.hold(right.week, set);
        Ok(values)
    }

    /// The rules by which a chart is sound.
    pub fn chart_rules(self, rules: &Rules, chart: &Chart) -> Rules {
        let mut rules = rules.clone();
        let within = |set: &ChartSet| {
            (1..=rules.pairs).contains(&set.count) && set.plot.abs() <= rules.chart_plot * set.count
        };
        let held = (0..=4).contains(&chart.held) && chart.held_sets().iter().all(within);
        if self == Wrong::HeldTimesCount && held {
            rules.chart_plot *= rules.pairs;
        }
        rules
    }

    /// The plot in place of the right one.
    fn plot(self, numbers: &[i32], right: i64) -> i64 {
        let exact = plots::exact(numbers);
        let (original, monitor): (Rounded, Rounded) = match self {
            Wrong::DifferencesRounded => return plots::rounded_once(exact),
            Wrong::DifferencesRoundedAway => {
                return exact.signum() * plots::rounded_once(exact.abs());
            }
            Wrong::MeansExchanged => return -right,
            Wrong::OriginalCutOff => (cut_off, halves_up),
            Wrong::MonitorCutOff => (halves_up, cut_off),
            Wrong::OriginalHalvesDown => (halves_down, halves_up),
            Wrong::MonitorHalvesDown => (halves_up, halves_down),
            Wrong::MeansHalvesDown => (halves_down, halves_down),
            Wrong::OriginalHalvesToEven => (halves_to_even, halves_up),
            Wrong::MonitorHalvesToEven => (halves_up, halves_to_even),
            Wrong::MeansHalvesToEven => (halves_to_even, halves_to_even),
            _ => return right,
        };
        let ([originals, monitors], count) = (plots::sums(numbers), numbers.len() as i64 / 2);
        original(originals, count) - monitor(monitors, count)
    }

    /// The limits of one set and of two where they are not compared with plots.
    fn limits(self, row: &ChartRow, sets: &[Plotted], values: &mut ChartValues) {
        let all = self == Wrong::LimitsOfExact;
        if all || self == Wrong::AbsoluteOfExact {
            values.absolute = sets[0].exact.abs() >= SIXTIETHS * row.absolute;
        }
        if all || self == Wrong::ToleranceOfExact {
            let limit = SIXTIETHS * row.tolerance;
            values.tolerance = sets.get(..2).is_some_and(|two| {
                two.iter().all(|set| set.exact >= limit)
                    || two.iter().all(|set| set.exact <= -limit)
            });
        }
    }

    /// Whether the set and some three of the held ones are a run.
    fn run(self, row: &ChartRow, sets: &[Plotted]) -> bool {
        let side = |four: &[Plotted]| match self {
            Wrong::RunOfExact | Wrong::LimitsOfExact | Wrong::SideOfSum => {
                plots::one_side(four, EXACT)
            }
            Wrong::ZeroOnASide => plots::but_for_zeros(four),
            _ => plots::one_side(four, PLOT),
        };
        let count = |four: &[Plotted]| four.iter().map(|set| set.count).sum::<i64>();
        let mean = |four: &[Plotted]| match self {
            Wrong::RunOfExact | Wrong::LimitsOfExact | Wrong::RunMeanOfExact => {
                plots::beyond(four, EXACT) > 4 * SIXTIETHS * row.run
            }
            Wrong::RunMeanPooled => {
                let differences = plots::beyond(four, |set| set.exact * set.count);
                differences > SIXTIETHS * count(four) * row.run
            }
            Wrong::RunMeanWeighted => {
                plots::beyond(four, |set| set.plot * set.count) > count(four) * row.run
            }
            Wrong::RunMeanRounded => (plots::beyond(four, PLOT) + 2) / 4 > row.run,
            Wrong::RunMeanCutOff => plots::beyond(four, PLOT) / 4 > row.run,
            _ => plots::beyond(four, PLOT) > 4 * row.run,
        };
        let run = |four: &Vec<Plotted>| side(four) && mean(four);
        plots::fours(sets).iter().any(run)
    }
}

/// A way to round a mean, of its sum and count.
type Rounded = fn(i64, i64) -> i64;

fn cut_off(sum: i64, count: i64) -> i64 {
    sum / count
}

fn halves_up(sum: i64, count: i64) -> i64 {
    (2 * sum + count) / (2 * count)
}

fn halves_down(sum: i64, count: i64) -> i64 {
    (2 * sum + count - 1) / (2 * count)
}

fn halves_to_even(sum: i64, count: i64) -> i64 {
    let up = halves_up(sum, count);
    match plots::is_half(sum, count) {
        true => up - up % 2,
        false => up,
    }
}

/// Of the records with one figure only the last.
fn figures_once(records: &[Sublot]) -> Vec<Sublot> {
    let mut kept: Vec<Sublot> = Vec::new();
    for record in records.iter().rev() {
        if kept.iter().all(|other| other.figure != record.figure) {
            kept.push(*record);
        }
    }
    kept
}

/// The greatest number that divides both.
fn common_divisor(one: i64, other: i64) -> i64 {
    match other {
        0 => one,
        _ => common_divisor(other, one % other),
    }
}

/// How many of the holidays lie on weekends after `day`, up to `found`.
fn weekend_holidays(calendar: &Calendar, day: u32, found: i64, holidays: &[i32]) -> u32 {
    let between =
        |holiday: &&i32| i64::from(day) < i64::from(**holiday) && i64::from(**holiday) <= found;
    let weekend = |holiday: &&i32| {
        calendar
            .weekday(**holiday as u32)
            .is_ok_and(|weekday| weekday > 5)
    };
    holidays.iter().filter(between).filter(weekend).count() as u32
}
