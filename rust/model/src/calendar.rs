//! Section "The calendar": dates and weekdays by succession, working days counted one by one.

use crate::Refusal;
use crate::rules::{CalendarRules, Rules};

/// A date: year, month and day of the month. A later one is greater.
#[derive(Clone, Copy, Debug, PartialEq, Eq, PartialOrd, Ord)]
pub struct Date {
    pub year: i64,
    pub month: i64,
    pub day: i64,
}

/// The calendar written out: every day from 0 to the last with its date and weekday.
#[derive(Clone, Debug)]
pub struct Calendar {
    rules: CalendarRules,
    dates: Vec<Date>,
    weekdays: Vec<i64>,
}

impl Date {
    /// The next day of the month, the first of the next month, or 1 January of the next year.
    fn next(self, rules: &CalendarRules) -> Date {
        let (year, month, day) = (self.year, self.month, self.day);
        if day < month_length(rules, year, month) {
            return Date {
                day: day + 1,
                ..self
            };
        }
        let (year, month) = match month {
            12 => (year + 1, 1),
            _ => (year, month + 1),
        };
        Date {
            year,
            month,
            day: 1,
        }
    }
}

/// Gregorian rule: every fourth year is a leap year, but of the full centuries only every fourth.
fn leap_year(rules: &CalendarRules, year: i64) -> bool {
    let every = |years| year % years == 0;
    every(rules.leap_years) && (!every(rules.century) || every(rules.leap_centuries))
}

/// The months' lengths, February's by the year.
fn month_length(rules: &CalendarRules, year: i64, month: i64) -> i64 {
    match month {
        2 if leap_year(rules, year) => rules.leap_february,
        _ => rules.month_lengths[month as usize - 1],
    }
}

impl Calendar {
    /// 1 January 2000 is day 0, a Saturday; each day has the date and the weekday after those of the
    /// day before it.
    pub fn new(rules: &Rules) -> Calendar {
        let rules = rules.calendar.clone();
        let mut date = Date {
            year: rules.first_year,
            month: 1,
            day: 1,
        };
        let mut weekday = rules.first_weekday;
        let (mut dates, mut weekdays) = (Vec::new(), Vec::new());
        for _ in 0..=rules.last_day {
            dates.push(date);
            weekdays.push(weekday);
            date = date.next(&rules);
            weekday = if weekday < rules.weekdays {
                weekday + 1
            } else {
                1
            };
        }
        Calendar {
            rules,
            dates,
            weekdays,
        }
    }

    /// The day that has this date. Number 27: there is none. The dates rise, so it is looked up by
    /// halving.
    pub fn day_from_date(&self, year: u32, month: u32, day: u32) -> Result<i64, Refusal> {
        let [year, month, day] = [year, month, day].map(i64::from);
        let place = self.dates.binary_search(&Date { year, month, day });
        place.map(|day| day as i64).map_err(|_| 27)
    }

    /// The day's place. Number 27: there is no such day.
    fn place(&self, day: u32) -> Result<usize, Refusal> {
        let place = usize::try_from(day).ok();
        place.filter(|&day| day < self.dates.len()).ok_or(27)
    }

    pub fn date_from_day(&self, day: u32) -> Result<Date, Refusal> {
        Ok(self.dates[self.place(day)?])
    }

    /// The weekday, from Monday, 1, to Sunday, 7.
    pub fn weekday(&self, day: u32) -> Result<i64, Refusal> {
        Ok(self.weekdays[self.place(day)?])
    }

    /// Number 28: Holidays not strictly rising, or one outside 0..99999.
    pub fn bad_holidays(&self, holidays: &[i32]) -> bool {
        let outside = |&day: &i32| !(0..=self.rules.last_holiday).contains(&i64::from(day));
        holidays.windows(2).any(|two| two[0] >= two[1]) || holidays.iter().any(outside)
    }

    /// Monday to Friday are working days unless listed. The list rises, so the day is looked up by
    /// halving.
    pub fn is_working(&self, day: usize, holidays: &[i32]) -> bool {
        let listed = holidays.binary_search(&(day as i32)).is_ok();
        self.weekdays[day] <= self.rules.working_weekdays && !listed
    }

    /// The day that is a number of working days after another. A count of 0 gives the day itself. The
    /// input is tried for 27, then for 28, and the day found last.
    pub fn working_day(&self, day: u32, count: u32, holidays: &[i32]) -> Result<i64, Refusal> {
        let mut day = self.place(day)?;
        if self.bad_holidays(holidays) {
            return Err(28);
        }
        for _ in 0..count {
            let mut after = day + 1..self.dates.len();
            let next = after.find(|&day| self.is_working(day, holidays));
            day = next.ok_or(27)?;
        }
        Ok(day as i64)
    }

    /// Monitoring results are due at the service point within 2 working days of retrieval; day of
    /// retrieval excluded.
    pub fn results_due(&self, day: u32, holidays: &[i32]) -> Result<i64, Refusal> {
        self.working_day(day, self.rules.due_days as u32, holidays)
    }
}
