//! Calendar calls: the comparison, over all days and dates, and working days with holidays of every kind.

use grain::ffi;
use grain_model::{Calendar, Date};

use crate::lent::{Difference, Lent, same};
use crate::met::Met;
use crate::rng::Rng;
use crate::stations::{Trial, number, plain_answer};

const LAST: u32 = 99_999;

/// The C interface's answer that carries a day.
fn day_answer(answer: Result<i64, u8>) -> ffi::Day {
    let ffi::Answer { accepted, number } = plain_answer(answer.map(|_| ()));
    ffi::Day {
        accepted,
        number,
        day: answer.unwrap_or(0) as u32,
    }
}

fn date_answer(answer: Result<Date, u8>) -> ffi::Date {
    match answer {
        Ok(date) => ffi::Date {
            accepted: 1,
            number: 0,
            year: date.year as u32,
            month: date.month as u32,
            day: date.day as u32,
        },
        Err(number) => ffi::Date {
            number: number.into(),
            ..ffi::Date::default()
        },
    }
}

fn weekday_answer(answer: Result<i64, u8>) -> ffi::Weekday {
    let ffi::Answer { accepted, number } = plain_answer(answer.map(|_| ()));
    ffi::Weekday {
        accepted,
        number,
        weekday: answer.unwrap_or(0) as u32,
    }
}

/// The wrapper's date in the model's terms.
fn told(date: grain::Date) -> Date {
    Date {
        year: date.year.into(),
        month: date.month.into(),
        day: date.day.into(),
    }
}

/// The holidays as far as they are worth showing.
fn shown(holidays: &[i32]) -> String {
    let first = &holidays[..holidays.len().min(100)];
    format!("{} holidays {first:?}", holidays.len())
}

/// A call for a working day and what it answered. Results that are due have count 2.
struct Asked<'a> {
    day: u32,
    count: u32,
    holidays: &'a [i32],
    null: bool,
    answer: Result<i64, u8>,
}

impl Trial {
    pub fn day_from_date(&mut self, date: [u32; 3]) -> Result<(), Difference> {
        let [year, month, day] = date;
        let answer = self.calendar.day_from_date(year, month, day);
        let what = || format!("the day of {date:?}");
        let core = ffi::grain_day_from_date(year, month, day);
        same(what, core, day_answer(answer))?;
        let wrapped = number(grain::day_from_date(grain::Date { year, month, day }));
        same(what, wrapped.map(i64::from), answer)?;
        self.met.call("day from date", answer.err());
        count_date(&mut self.met, date, answer.is_ok());
        count_no_date(&mut self.met, date, answer.is_ok());
        Ok(())
    }

    /// The date of a day, which must turn back into the day.
    pub fn date_from_day(&mut self, day: u32) -> Result<(), Difference> {
        let answer = self.calendar.date_from_day(day);
        let what = || format!("the date of {day}");
        let core = ffi::grain_date_from_day(day);
        same(what, core, date_answer(answer))?;
        same(what, number(grain::date_from_day(day)).map(told), answer)?;
        self.met.call("date from day", answer.err());
        if answer.is_err() {
            let name = match day {
                100_000 => "day: 27, day 100000",
                u32::MAX => "day: 27, day 4294967295",
                _ => "day: 27, another above 99999",
            };
            self.met.branch(name);
            return Ok(());
        }
        let back = ffi::grain_day_from_date(core.year, core.month, core.day);
        same(what, back, day_answer(Ok(day.into())))?;
        self.met.branch("day: its date came back");
        self.day_from_date([core.year, core.month, core.day])
    }

    pub fn weekday(&mut self, day: u32) -> Result<(), Difference> {
        let answer = self.calendar.weekday(day);
        let what = || format!("the weekday of {day}");
        let core = ffi::grain_weekday_of_day(day);
        same(what, core, weekday_answer(answer))?;
        let wrapped = number(grain::weekday(day));
        same(what, wrapped.map(|day| day.number().into()), answer)?;
        self.met.call("weekday", answer.err());
        let name = match answer {
            Ok(weekday) => WEEKDAYS[(weekday as usize - 1) % 7],
            Err(_) => "weekday: 27",
        };
        self.met.branch(name);
        Ok(())
    }

    /// The model's answer, or a wrong model's.
    fn working_by_model(&self, day: u32, count: u32, holidays: &[i32]) -> Result<i64, u8> {
        match self.wrong {
            Some(wrong) => wrong.working_day(&self.calendar, day, count, holidays),
            None => self.calendar.working_day(day, count, holidays),
        }
    }

    pub fn working_day(
        &mut self,
        day: u32,
        count: u32,
        holidays: &[i32],
    ) -> Result<(), Difference> {
        let answer = self.working_by_model(day, count, holidays);
        let what = || format!("{count} working days after {day}, {}", shown(holidays));

        let mut lent = Lent::of(&mut self.rng, holidays);
        // SAFETY: the holidays are lent with their length.
        let core = unsafe { ffi::grain_working_day(day, count, lent.pointer(), lent.len()) };
        same(what, core, day_answer(answer))?;
        lent.untouched(what)?;
        let wrapped = number(grain::working_day(day, count, lent.lent()));
        same(what, wrapped.map(i64::from), answer)?;
        lent.untouched(what)?;
        self.met.call("working day", answer.err());
        let asked = Asked {
            day,
            count,
            holidays,
            null: lent.is_null(),
            answer,
        };
        count_refused(&mut self.met, &self.calendar, &asked);
        count_found(&mut self.met, &self.calendar, &asked);
        Ok(())
    }

    pub fn results_due(&mut self, day: u32, holidays: &[i32]) -> Result<(), Difference> {
        let answer = self.calendar.results_due(day, holidays);
        let what = || format!("results of day {day}, {}", shown(holidays));

        let mut lent = Lent::of(&mut self.rng, holidays);
        // SAFETY: the holidays are lent with their length.
        let core = unsafe { ffi::grain_results_due(day, lent.pointer(), lent.len()) };
        same(what, core, day_answer(answer))?;
        lent.untouched(what)?;
        let wrapped = number(grain::results_due(day, lent.lent()));
        same(what, wrapped.map(i64::from), answer)?;
        lent.untouched(what)?;
        self.met.call("results due", answer.err());
        let asked = Asked {
            day,
            count: 2,
            holidays,
            null: lent.is_null(),
            answer,
        };
        count_due(&mut self.met, &self.calendar, &asked);
        Ok(())
    }
}

/// All days from 0 on and some beyond: date and back, weekday, results due. A step above 1 leaves days
/// out, but none beside the ends.
pub fn days(trial: &mut Trial, step: usize) -> Result<(), Difference> {
    let ends = [0, 1, 2, LAST - 2, LAST - 1, LAST, LAST + 1, LAST + 2];
    let beyond = [
        LAST + 65_536,
        1 << 17,
        146_097,
        (1 << 31) - 1,
        1 << 31,
        (1 << 31) + 59,
        u32::MAX - 59,
        u32::MAX - 1,
        u32::MAX,
    ];
    for day in (0..=LAST).step_by(step).chain(ends).chain(beyond) {
        trial.date_from_day(day)?;
        trial.weekday(day)?;
        trial.results_due(day, &[])?;
    }
    Ok(())
}

/// The years from 1998 to 2276 with the months from 0 to 13 and the days from 0 to 32 each; then parts of
/// dates that lie at edges or come round to a date where they are cut short.
pub fn dates(trial: &mut Trial, step: usize) -> Result<(), Difference> {
    for place in (0..279 * 14 * 33).step_by(step) {
        let (year, month, day) = (1998 + place / (14 * 33), place / 33 % 14, place % 33);
        trial.day_from_date([year, month, day])?;
    }
    for place in (0..PARTS.len().pow(3)).step_by(step) {
        let part = |power| PARTS[place / PARTS.len().pow(power) % PARTS.len()];
        trial.day_from_date([part(2), part(1), part(0)])?;
    }
    for _ in 0..10_000 / step {
        let year = come_round(&mut trial.rng);
        let month = trial.rng.pick(&[1, 2, 3, 12]);
        let day = trial.rng.pick(&[1, 15, 28]);
        trial.day_from_date([year, month, day])?;
    }
    Ok(())
}

const PARTS: [u32; 29] = [
    0,
    1,
    2,
    3,
    4,
    10,
    12,
    13,
    15,
    16,
    28,
    29,
    30,
    31,
    32,
    257,
    1999,
    2000,
    2001,
    2100,
    2272,
    2273,
    2274,
    65_537,
    65_536 + 2000,
    (1 << 31) + 1,
    (1 << 31) + 2000,
    u32::MAX - 1,
    u32::MAX,
];

/// A year beyond the calendar whose days from 2000 on, counted in 32 bits, come round to its days.
fn come_round(rng: &mut Rng) -> u32 {
    let days = rng.range(1, 365) << 32;
    // 400 years have 146097 days.
    (2000 + 400 * days / 146_097 + rng.range(0, 273)) as u32
}

/// A call for a working day, or for the day on which results are due.
pub fn single(trial: &mut Trial) -> Result<(), Difference> {
    let day = a_day(&mut trial.rng);
    let mut holidays = a_list(&mut trial.rng, day.min(LAST) as i32);
    if trial.rng.chance(20) {
        damage(&mut trial.rng, &mut holidays);
    }
    if trial.rng.chance(25) {
        return trial.results_due(day, &holidays);
    }
    let left = |day: u32| {
        let working = |&day: &usize| trial.calendar.is_working(day, &holidays);
        (day as usize + 1..100_000).filter(working).count() as i64
    };
    let count = match day {
        99_900..=LAST if trial.rng.chance(40) => (left(day) + trial.rng.range(-1, 1)).max(0) as u32,
        _ => a_count(&mut trial.rng),
    };
    trial.working_day(day, count, &holidays)
}

fn a_day(rng: &mut Rng) -> u32 {
    match rng.below(40) {
        0 => rng.pick(&[LAST + 1, LAST + 2, 1 << 17, 1 << 31, u32::MAX - 1, u32::MAX]),
        1..4 => LAST - rng.below(4) as u32,
        4..9 => LAST - rng.below(60) as u32,
        9..11 => rng.below(9) as u32,
        _ => rng.below(100_000) as u32,
    }
}

/// The days of `low` to `high`, as far as there are such, each taken in `percent` of a hundred.
fn some(rng: &mut Rng, low: i32, high: i32, percent: u64) -> Vec<i32> {
    let days = low.max(0)..=high.min(LAST as i32);
    days.filter(|_| rng.chance(percent)).collect()
}

/// A good list of holidays, mostly near the day.
fn a_list(rng: &mut Rng, day: i32) -> Vec<i32> {
    let weekend = |day: &i32| (day + 5) % 7 >= 5;
    match rng.below(200) {
        0..30 => Vec::new(),
        30..60 => some(rng, day - 400, day + 800, 3),
        60..90 => some(rng, day - 20, day + 40, 50),
        90..120 => {
            // A run of days, over weekends too, and another one.
            let start = day + rng.range(-4, 6) as i32;
            let end = start + rng.range(0, 14) as i32;
            let then = end + rng.range(2, 9) as i32;
            let again = then + rng.range(0, 9) as i32;
            [some(rng, start, end, 100), some(rng, then, again, 100)].concat()
        }
        120..140 => {
            let days = some(rng, day - 9, day + 30, 80);
            days.into_iter().filter(weekend).collect()
        }
        140..155 => some(rng, day, day + 2, 70),
        155..165 => some(rng, day - 300, day - 1, 10),
        165..175 => some(rng, day + 40, day + 400, 10),
        175..185 => some(rng, day - 1, day + 60, 95),
        185..199 => {
            let ends: [&[i32]; 4] = [&[0], &[99_999], &[0, 99_999], &[99_997, 99_998, 99_999]];
            rng.pick(&ends).to_vec()
        }
        _ => {
            let percent = rng.pick(&[1, 3, 3, 30]);
            some(rng, 0, LAST as i32, percent)
        }
    }
}

/// One thing wrong with a list, for number 28: at its end, at its start or anywhere.
fn damage(rng: &mut Rng, holidays: &mut Vec<i32>) {
    let bad = rng.pick(&[-1, -1, 100_000, 100_000, i32::MIN, i32::MAX]);
    let last = holidays.last().copied();
    match (rng.below(6), last) {
        (0, Some(last)) => holidays.push(last),
        (1, Some(last)) => holidays.push(last - 1),
        (2, _) => holidays.push(bad),
        (3, _) => holidays.insert(0, bad),
        (4, Some(_)) => {
            let place = rng.below(holidays.len());
            holidays.insert(place, holidays[place]);
        }
        (_, Some(_)) => {
            let place = rng.below(holidays.len());
            holidays[place] = bad;
        }
        (_, None) => holidays.extend([5, 5]),
    }
}

fn a_count(rng: &mut Rng) -> u32 {
    match rng.below(100) {
        0..15 => 0,
        15..35 => 1,
        35..50 => 2,
        50..80 => rng.range(3, 15) as u32,
        80..97 => rng.range(16, 300) as u32,
        97 => rng.range(300, 80_000) as u32,
        98 => rng.pick(&[71_428, 71_429, 100_000, 1 << 31, u32::MAX - 1, u32::MAX]),
        _ => {
            // Times 7 and by 5, in 32 bits, it comes round to a small number.
            let of = rng.pick(&[1, 5, 7]);
            let round = (rng.range(1, of) << 32) / of;
            (round + rng.range(-3, 60_000)) as u32
        }
    }
}

/// The cases that the rules name, and those at the ends of the calendar.
pub fn particular(trial: &mut Trial) -> Result<(), Difference> {
    let lists: [&[i32]; 12] = [
        &[],
        &[5, 5],
        &[6, 5],
        &[-1],
        &[100_000],
        &[i32::MIN],
        &[i32::MAX],
        &[0],
        &[99_999],
        &[99_998, 99_999],
        &[7, 8, 9],
        &[9, 10, 11, 12, 13],
    ];
    for day in (0..17).chain(LAST - 16..LAST + 3).chain([u32::MAX]) {
        for holidays in lists {
            for count in 0..7 {
                trial.working_day(day, count, holidays)?;
            }
            // From the first days it is a long way.
            if day > 16 {
                trial.working_day(day, u32::MAX, holidays)?;
            }
            trial.results_due(day, holidays)?;
        }
    }
    Ok(())
}

/// Every day is a holiday, or all but one; and lists that are too long to be good.
pub fn longest(trial: &mut Trial) -> Result<(), Difference> {
    let all: Vec<i32> = (0..100_000).collect();
    let but_one = |day| [&all[..day], &all[day + 1..]].concat();
    let lists = [
        all.clone(),
        but_one(99_999),
        but_one(50_003),
        but_one(0),
        [&all[..], &[99_999]].concat(),
        [&all[..], &[100_000]].concat(),
    ];
    for holidays in &lists {
        for day in [0, 1, 50_000, 99_998, LAST, LAST + 1] {
            for count in [0, 1, u32::MAX] {
                trial.working_day(day, count, holidays)?;
            }
            trial.results_due(day, holidays)?;
        }
    }
    Ok(())
}

/// Whether a list that rises has the day.
fn listed(holidays: &[i32], day: i64) -> bool {
    holidays.binary_search(&(day as i32)).is_ok()
}

/// The branches of dates that there are.
fn count_date(met: &mut Met, [year, month, day]: [u32; 3], accepted: bool) {
    let name = match (month, day) {
        _ if !accepted => return,
        (1, 1) if year == 2000 => "date: 1 January 2000",
        (10, 15) if year == 2273 => "date: 15 October 2273",
        (2, 29) if year == 2000 => "date: 29 February 2000",
        (2, 29) => "date: 29 February of another leap year",
        (2, 28) if year % 100 == 0 && year > 2000 => "date: 28 February 2100 or 2200",
        (3, 1) if year % 100 == 0 && year > 2000 => "date: 1 March 2100 or 2200",
        (3, 1) => "date: 1 March",
        (12, 31) => "date: 31 December",
        (1, 1) => "date: 1 January of a later year",
        (4 | 6 | 9 | 11, 30) => "date: the 30th of a month of 30 days",
        (_, 31) => "date: the 31st",
        _ => return,
    };
    met.branch(name);
}

/// The ways to 27, each where nothing else is wrong.
fn count_no_date(met: &mut Met, [year, month, day]: [u32; 3], accepted: bool) {
    let whole_year = (2000..2273).contains(&year);
    let a_month = (1..=12).contains(&month);
    let name = match (month, day) {
        _ if accepted => return,
        (1..=12, 1..=28) if year == 1999 => "date: 27, year 1999",
        (1..=12, 1..=28) if year == 2274 => "date: 27, year 2274",
        (1..=12, 1..=28) if year > 1 << 16 => "date: 27, a year far beyond",
        (1..=12, 1..=28) if year == 0 => "date: 27, year 0",
        (10, 16) if year == 2273 => "date: 27, 16 October 2273",
        (11, 1) if year == 2273 => "date: 27, 1 November 2273",
        _ if !whole_year => return,
        (0, 1..=31) => "date: 27, month 0",
        (13, 1..=31) => "date: 27, month 13",
        (u32::MAX, 1..=31) => "date: 27, month 4294967295",
        (_, 0) if a_month => "date: 27, day 0",
        (_, 32) if a_month => "date: 27, day 32",
        (_, u32::MAX) if a_month => "date: 27, day 4294967295",
        (4 | 6 | 9 | 11, 31) => "date: 27, the 31st of a month of 30 days",
        (2, 29) if year == 2100 => "date: 27, 29 February 2100",
        (2, 29) if year == 2200 => "date: 27, 29 February 2200",
        (2, 29) => "date: 27, 29 February of a common year",
        (2, 30) => "date: 27, 30 February",
        (2, 31) => "date: 27, 31 February",
        _ => return,
    };
    met.branch(name);
}

const WEEKDAYS: [&str; 7] = [
    "weekday: Monday",
    "weekday: Tuesday",
    "weekday: Wednesday",
    "weekday: Thursday",
    "weekday: Friday",
    "weekday: Saturday",
    "weekday: Sunday",
];

/// The ways to 27 and 28 of a call for a working day.
fn count_refused(met: &mut Met, calendar: &Calendar, asked: &Asked) {
    let &Asked {
        day,
        count,
        holidays,
        answer,
        ..
    } = asked;
    let bad = calendar.bad_holidays(holidays);
    if day > LAST {
        met.branch_if(!bad, "working: 27, the day handed in");
        met.branch_if(bad, "working: 27 before 28");
        met.branch_if(count == 0, "working: 27, the day handed in, count 0");
    } else if answer == Err(28) {
        met.branch_if(count == 0, "working: 28, count 0");
        met.branch_if(count > LAST - day, "working: 28 before a day past 99999");
        count_bad(met, calendar, holidays);
    } else if answer == Err(27) {
        met.branch_if(day == LAST, "working: 27, from day 99999");
        met.branch_if(count == u32::MAX, "working: 27, count 4294967295");
        let by_holidays = calendar.working_day(day, count, &[]).is_ok();
        met.branch_if(by_holidays, "working: 27, found past 99999 by holidays");
        let before = calendar.working_day(day, count - 1, holidays);
        met.branch_if(before == Ok(99_999), "working: 27, one beyond day 99999");
        let none_left = before == Ok(day.into()) && day < 99_990;
        met.branch_if(none_left, "working: 27, no working day is left");
    }
}

/// What is wrong with a bad list, where it is one thing only, and where.
fn count_bad(met: &mut Met, calendar: &Calendar, holidays: &[i32]) {
    let pairs = || holidays.windows(2);
    let inside = |&day: &i32| (0..=LAST as i32).contains(&day);
    let all_inside = holidays.iter().all(inside);
    let rising = pairs().all(|two| two[0] < two[1]);
    let never_falls = pairs().all(|two| two[0] <= two[1]);
    let differ = pairs().all(|two| two[0] != two[1]);
    met.branch_if(all_inside && never_falls, "working: 28, a holiday twice");
    met.branch_if(all_inside && differ, "working: 28, holidays that fall");
    let below = |&day: &i32| day < 0;
    let only_below = rising && holidays.iter().all(|day| below(day) || inside(day));
    met.branch_if(only_below, "working: 28, a holiday below 0");
    let only_above = rising && !holidays.iter().any(below);
    met.branch_if(only_above, "working: 28, a holiday above 99999");
    let first = |day| holidays.first() == Some(&day);
    met.branch_if(first(-1) && rising, "working: 28, holiday -1");
    met.branch_if(first(i32::MIN) && rising, "working: 28, the least i32");
    let last = |day| holidays.last() == Some(&day);
    met.branch_if(last(100_000) && rising, "working: 28, holiday 100000");
    met.branch_if(last(i32::MAX) && rising, "working: 28, the largest i32");
    let count = holidays.len();
    let at_end = count > 1 && !calendar.bad_holidays(&holidays[..count - 1]);
    met.branch_if(at_end, "working: 28, for the last holiday only");
    let at_start = count > 1 && !calendar.bad_holidays(&holidays[1..]);
    met.branch_if(at_start, "working: 28, for the first holiday only");
    met.branch_if(count > 100_000, "working: 28, more than 100000 holidays");
}

/// The branches of a working day that was found.
fn count_found(met: &mut Met, calendar: &Calendar, asked: &Asked) {
    let &Asked {
        day,
        count,
        holidays,
        ..
    } = asked;
    let (Ok(found), Ok(weekday)) = (asked.answer, calendar.weekday(day)) else {
        return;
    };
    let listed = listed(holidays, day.into());
    met.branch_if(asked.null, "working: holidays null");
    met.branch_if(holidays.is_empty(), "working: no holidays");
    met.branch_if(holidays.len() == 100_000, "working: 100000 holidays");
    if count == 0 {
        met.branch_if(weekday <= 5 && !listed, "working: count 0, a working day");
        met.branch_if(weekday == 6, "working: count 0, Saturday");
        met.branch_if(weekday == 7, "working: count 0, Sunday");
        met.branch_if(weekday <= 5 && listed, "working: count 0, a holiday");
        met.branch_if(found == 99_999, "working: count 0, day 99999");
        return;
    }
    met.branch(STARTS[(weekday as usize - 1) % 7]);
    met.branch_if(weekday <= 5 && listed, "working: from a holiday");
    met.branch_if(
        weekday > 5 && listed,
        "working: from a holiday on a weekend",
    );
    met.branch_if(day == 0, "working: from day 0");
    met.branch_if(found == 99_999, "working: found day 99999");
    met.branch_if(
        count == 1 && found == i64::from(day) + 1,
        "working: the next day",
    );
    met.branch_if(count > 10_000, "working: count above 10000");
    count_passed(met, calendar, asked, found);
}

const STARTS: [&str; 7] = [
    "working: from Monday",
    "working: from Tuesday",
    "working: from Wednesday",
    "working: from Thursday",
    "working: from Friday",
    "working: from Saturday",
    "working: from Sunday",
];

/// The holidays between the day and the day found.
fn count_passed(met: &mut Met, calendar: &Calendar, asked: &Asked, found: i64) {
    let (day, holidays) = (i64::from(asked.day), asked.holidays);
    let passed = |&&holiday: &&i32| (day + 1..=found).contains(&holiday.into());
    let passed: Vec<i32> = holidays.iter().filter(passed).copied().collect();
    let weekday = |day: i32| calendar.weekday(day as u32).unwrap_or(0);
    let on = |number| passed.iter().any(|&day| weekday(day) == number);
    let working = passed.iter().filter(|&&day| weekday(day) <= 5).count();
    met.branch_if(on(6), "working: a holiday on a Saturday passed");
    met.branch_if(on(7), "working: a holiday on a Sunday passed");
    met.branch_if(working == 1, "working: one holiday passed");
    met.branch_if(working > 1, "working: holidays passed");
    let only_weekends = working == 0 && !passed.is_empty();
    met.branch_if(only_weekends, "working: passed only holidays on weekends");
    let week = |five: &[i32]| weekday(five[0]) == 1 && five[4] - five[0] == 4;
    met.branch_if(
        passed.windows(5).any(week),
        "working: a week of holidays passed",
    );
    let next = listed(holidays, day + 1);
    met.branch_if(next, "working: the next day is a holiday");
    let after = listed(holidays, found + 1);
    met.branch_if(after, "working: the day after the one found is a holiday");
    let before = holidays.last().is_some_and(|&last| i64::from(last) < day);
    met.branch_if(before, "working: all holidays before the day");
    let beyond = holidays
        .first()
        .is_some_and(|&first| i64::from(first) > found);
    met.branch_if(beyond, "working: all holidays after the day found");
}

/// The branches of results that are due.
fn count_due(met: &mut Met, calendar: &Calendar, asked: &Asked) {
    let (day, holidays) = (asked.day, asked.holidays);
    let bad = calendar.bad_holidays(holidays);
    let Ok(weekday) = calendar.weekday(day) else {
        met.branch_if(!bad, "due: 27, the day handed in");
        met.branch_if(bad, "due: 27 before 28");
        return;
    };
    match asked.answer {
        Err(28) => met.branch_if(day + 1 >= LAST, "due: 28 before a day past 99999"),
        Err(_) => {
            met.branch("due: 27, the day found");
            met.branch_if(day + 2 <= LAST, "due: 27, found past 99999 by holidays");
        }
        Ok(found) => {
            let (retrieved, alone) = (i64::from(day), holidays.is_empty());
            met.branch_if(asked.null, "due: holidays null");
            met.branch_if(found == retrieved + 2, "due: 2 days later");
            met.branch_if(alone && weekday == 4, "due: from Thursday over a weekend");
            met.branch_if(alone && weekday == 5, "due: from Friday over a weekend");
            met.branch_if(alone && weekday == 6, "due: retrieved on a Saturday");
            met.branch_if(alone && weekday == 7, "due: retrieved on a Sunday");
            let holiday = weekday <= 5 && listed(holidays, retrieved);
            met.branch_if(holiday, "due: retrieved on a holiday");
            let next = weekday < 5 && listed(holidays, retrieved + 1);
            met.branch_if(next, "due: the day after is a holiday");
            met.branch_if(found > retrieved + 9, "due: more than a week of holidays");
            met.branch_if(found == 99_999, "due: on day 99999");
        }
    }
}
