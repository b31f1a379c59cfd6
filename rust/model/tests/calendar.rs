//! The model on the calendar's cases: dates at the edges of months, years and the calendar, both leap
//! rules, and working days over weekends and holidays.

use grain_model::{Calendar, Date, Rules};

fn calendar() -> Calendar {
    Calendar::new(&Rules::in_force())
}

/// A day and the date it has.
fn has(calendar: &Calendar, day: u32, [year, month, of_month]: [u32; 3]) {
    let found = calendar.day_from_date(year, month, of_month);
    assert_eq!(found, Ok(day.into()), "{year} {month} {of_month}");
    let date = Date {
        year: year.into(),
        month: month.into(),
        day: of_month.into(),
    };
    assert_eq!(calendar.date_from_day(day), Ok(date), "{day}");
}

#[test]
fn dates_and_days() {
    let calendar = calendar();
    for (day, date) in [
        (0, [2000, 1, 1]),
        (30, [2000, 1, 31]),
        (31, [2000, 2, 1]),
        (59, [2000, 2, 29]), // 2000 is a leap year
        (60, [2000, 3, 1]),
        (365, [2000, 12, 31]),
        (366, [2001, 1, 1]),
        (424, [2001, 2, 28]),
        (425, [2001, 3, 1]),
        (1520, [2004, 2, 29]),
        (9817, [2026, 11, 17]),
        (36_524, [2099, 12, 31]),
        (36_583, [2100, 2, 28]), // 2100 isn't one
        (36_584, [2100, 3, 1]),
        (73_107, [2200, 2, 28]), // nor is 2200
        (73_108, [2200, 3, 1]),
        (99_999, [2273, 10, 15]),
    ] {
        has(&calendar, day, date);
    }
}

#[test]
fn no_such_date() {
    let calendar = calendar();
    for [year, month, day] in [
        [1999, 12, 31],
        [2273, 10, 16],
        [2273, 11, 1],
        [2274, 1, 1],
        [2100, 2, 29],
        [2200, 2, 29],
        [2001, 2, 29],
        [2000, 2, 30],
        [2000, 4, 31],
        [2000, 1, 32],
        [2000, 1, 0],
        [2000, 0, 1],
        [2000, 13, 1],
        [0, 0, 0],
        [u32::MAX, 1, 1],
        [2000, u32::MAX, 1],
        [2000, 1, u32::MAX],
    ] {
        let found = calendar.day_from_date(year, month, day);
        assert_eq!(found, Err(27), "{year} {month} {day}");
    }
    for day in [100_000, u32::MAX] {
        assert_eq!(calendar.date_from_day(day), Err(27));
        assert_eq!(calendar.weekday(day), Err(27));
        assert_eq!(calendar.working_day(day, 0, &[]), Err(27));
        assert_eq!(calendar.results_due(day, &[]), Err(27));
    }
}

/// Every day's date is later than the one before and turns back into the day.
#[test]
fn every_date_comes_back() {
    let calendar = calendar();
    let mut before = None;
    for day in 0..100_000 {
        let date = calendar.date_from_day(day).unwrap();
        assert!(before < Some(date), "{day}");
        let [year, month, of_month] = [date.year, date.month, date.day].map(|part| part as u32);
        assert_eq!(
            calendar.day_from_date(year, month, of_month),
            Ok(day.into())
        );
        before = Some(date);
    }
    // 274 years from 2000 on, of which 67 have 366 days, less the 77 days after 15 October 2273.
    assert_eq!(274 * 365 + 67 - 77, 100_000);
}

#[test]
fn weekdays() {
    let calendar = calendar();
    for (day, weekday) in [
        (0, 6),      // Saturday
        (1, 7),      // Sunday
        (2, 1),      // Monday
        (9817, 2),   // Tuesday, 17 November 2026
        (99_999, 3), // Wednesday
    ] {
        assert_eq!(calendar.weekday(day), Ok(weekday), "{day}");
    }
    for day in 7..100_000 {
        assert_eq!(calendar.weekday(day), calendar.weekday(day - 7));
    }
}

/// Day, count, holidays and what the call answers. Day 2 is a Monday, day 6 a Friday.
type Case = (u32, u32, &'static [i32], Result<i64, u8>);

fn answers(cases: &[Case]) {
    let calendar = calendar();
    for &(day, count, holidays, expected) in cases {
        let found = calendar.working_day(day, count, holidays);
        assert_eq!(found, expected, "{day}, {count}, {holidays:?}");
    }
}

#[test]
fn working_days() {
    answers(&[
        (2, 1, &[], Ok(3)),
        (2, 4, &[], Ok(6)),
        (2, 5, &[], Ok(9)),
        (6, 1, &[], Ok(9)),
        (6, 5, &[], Ok(13)),
        (6, 6, &[], Ok(16)),
        // From a day that is no working day.
        (7, 1, &[], Ok(9)),
        (8, 1, &[], Ok(9)),
        (8, 2, &[], Ok(10)),
        (0, 1, &[], Ok(2)),
        // Holidays after the day are passed over, one by one and a whole week of them.
        (2, 1, &[3], Ok(4)),
        (2, 2, &[3], Ok(5)),
        (2, 2, &[4], Ok(5)),
        (2, 2, &[5], Ok(4)),
        (6, 1, &[9], Ok(10)),
        (6, 1, &[9, 10, 11, 12, 13], Ok(16)),
        (6, 1, &[7, 8, 9, 10, 11, 12, 13, 14, 15], Ok(16)),
        // One on a Saturday or Sunday changes nothing, nor does one before the day or after the one found.
        (6, 1, &[7], Ok(9)),
        (6, 1, &[8], Ok(9)),
        (6, 1, &[7, 8], Ok(9)),
        (6, 1, &[0, 1, 2, 3, 4, 5], Ok(9)),
        (6, 1, &[10, 11, 99_999], Ok(9)),
    ]);
}

/// The starting day is never counted, working or not, and a count of 0 gives it whatever it is.
#[test]
fn the_starting_day() {
    answers(&[
        (3, 1, &[], Ok(4)),
        (3, 1, &[3], Ok(4)),
        (7, 1, &[7], Ok(9)),
        (3, 0, &[], Ok(3)),
        (3, 0, &[3], Ok(3)), // a holiday
        (0, 0, &[], Ok(0)),  // a Saturday
        (1, 0, &[], Ok(1)),  // a Sunday
        (8, 0, &[8], Ok(8)), // a holiday on a Sunday
        (8, 0, &[7, 9], Ok(8)),
        (99_999, 0, &[], Ok(99_999)),
        (99_999, 0, &[99_999], Ok(99_999)),
    ]);
}

#[test]
fn past_the_last_day() {
    answers(&[
        (99_998, 1, &[], Ok(99_999)),
        (99_998, 2, &[], Err(27)),
        (99_998, 1, &[99_999], Err(27)),
        (99_999, 1, &[], Err(27)),
        (99_999, u32::MAX, &[], Err(27)),
        (0, u32::MAX, &[], Err(27)),
        // The 99999 days after day 0 are 14285 weeks, a Sunday and three working days.
        (0, 71_428, &[], Ok(99_999)),
        (0, 71_429, &[], Err(27)),
    ]);
}

/// 27 of the day handed in comes before 28, and 28 before 27 of the day found and before any day.
#[test]
fn the_order_of_27_and_28() {
    answers(&[
        (99_999, 1, &[5, 5], Err(28)),
        (100_000, 1, &[5, 5], Err(27)),
        (100_000, 0, &[5, 5], Err(27)),
        (u32::MAX, 1, &[5], Err(27)),
        (0, 0, &[5, 5], Err(28)),
        (0, 1, &[5, 5], Err(28)),
        (0, u32::MAX, &[5, 5], Err(28)),
    ]);
}

#[test]
fn bad_holidays() {
    answers(&[
        (10, 1, &[0, 99_999], Ok(11)),
        (10, 1, &[6, 5], Err(28)),
        (10, 1, &[-1], Err(28)),
        (10, 1, &[100_000], Err(28)),
        (10, 1, &[i32::MIN, 5], Err(28)),
        (10, 1, &[5, i32::MAX], Err(28)),
        // The whole list is looked at.
        (10, 1, &[11, 12, 5000, 5000], Err(28)),
        (10, 0, &[11, 12, 5000, 100_000], Err(28)),
        (10, 1, &[3, 3, 12], Err(28)),
    ]);
}

/// Every day may be a holiday: then no working day is left.
#[test]
fn all_days_are_holidays() {
    let calendar = calendar();
    let all: Vec<i32> = (0..100_000).collect();
    assert_eq!(calendar.working_day(0, 0, &all), Ok(0));
    assert_eq!(calendar.working_day(0, 1, &all), Err(27));
    assert_eq!(calendar.working_day(0, 1, &all[..99_999]), Ok(99_999));
    let more = [&all[..], &[99_999]].concat();
    assert_eq!(calendar.working_day(0, 0, &more), Err(28));
}

/// Within 2 working days of retrieval, the day of retrieval excluded.
#[test]
fn results_are_due() {
    let calendar = calendar();
    for (day, holidays, due) in [
        (2, &[][..], Ok(4)),
        (5, &[], Ok(9)),  // retrieved on Thursday
        (6, &[], Ok(10)), // on Friday
        (7, &[], Ok(10)), // on Saturday
        (8, &[], Ok(10)),
        (6, &[9], Ok(11)),
        (6, &[6], Ok(10)),
        (9825, &[9826], Ok(9830)), // 25 November 2026, the 26th a holiday: the 30th
        (99_997, &[], Ok(99_999)),
        (99_998, &[], Err(27)),
        (99_998, &[1, 1], Err(28)),
        (100_000, &[1, 1], Err(27)),
    ] {
        assert_eq!(calendar.results_due(day, holidays), due, "{day}");
        assert_eq!(calendar.working_day(day, 2, holidays), due, "{day}");
    }
}
