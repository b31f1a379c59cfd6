//! Zero sets are passed over: the averages of two and three look at the newest sets, the five at those
//! that aren't zero. Every call is told to a station and to a book, which must answer the same.

mod random;
mod sheets;

use grain_model::{
    Asked, Basis, Book, Certificate, LinePhase, PastSet, Rules, Scan, Station, Test, Verdict,
};
use random::draw;
use sheets::{again, wheat_sheet};

/// A wheat station and its book.
struct Told {
    rules: Rules,
    station: Station,
    book: Book,
}

impl Told {
    fn new() -> Told {
        Told {
            rules: Rules::in_force(),
            station: Station::fresh(0),
            book: Book::new(0),
        }
    }

    /// After sheets of these days and S, each of which met.
    fn after(sheets: &[(u32, i32)]) -> Told {
        let mut told = Told::new();
        for &(day, s) in sheets {
            assert_eq!(told.sheet(day, s), Verdict::Met, "{sheets:?}, {day}, {s}");
        }
        told
    }

    /// The verdict on a sheet with this S, N 12.
    fn sheet(&mut self, day: u32, s: i32) -> Verdict {
        let numbers = wheat_sheet(s, self.station.lines[0].intercept as i32);
        let judged = self.station.sheet(&self.rules, day, 0, &numbers).unwrap();
        let told = self.book.sheet(&self.rules, day, 0, &numbers);
        assert_eq!(told, Ok(judged.outcome));
        assert_eq!((judged.outcome.s, judged.outcome.n), (i64::from(s), 12));
        self.agree();
        judged.verdict
    }

    fn repair(&mut self, day: u32) {
        assert_eq!(self.station.repair(&self.rules, day), Ok(()));
        assert_eq!(self.book.repair(&self.rules, day), Ok(()));
        self.agree();
    }

    /// A market test of 13.54 percent.
    fn market(&mut self, day: u32) -> Result<Certificate, u8> {
        let scan = Scan::Wheat(13.54_f32.to_bits());
        let (figure, basis) = (Asked::LineFigure, Basis::Dry);
        let answer = self
            .station
            .market(&self.rules, day, 0, scan, figure, basis);
        let told = self.book.market(&self.rules, day, 0, scan, figure, basis);
        assert_eq!(told, answer);
        answer
    }

    /// The station holds the book's newest two sets, and its newest four that aren't zero.
    fn agree(&self) {
        let line = &self.station.lines[0];
        assert_eq!(self.book.phase(0), line.phase());
        let (past, mut nonzero) = (self.book.past(0), self.book.past(0));
        nonzero.retain(|set| set.s != 0);
        assert_eq!(nonzero, self.book.nonzero(0));
        assert_eq!(past[..past.len().min(2)], *line.newest.sets());
        assert_eq!(nonzero[..nonzero.len().min(4)], *line.nonzero.sets());
    }

    /// Day and S of the sets that the station holds, of both kinds.
    fn held(&self) -> [Vec<(i64, i64)>; 2] {
        let line = &self.station.lines[0];
        let pair = |set: &PastSet| (set.day, set.s);
        [line.newest.sets(), line.nonzero.sets()].map(|sets| sets.iter().map(pair).collect())
    }
}

/// Sheets of one day.
fn on_day_5(sums: &[i32]) -> Told {
    let sheets: Vec<_> = sums.iter().map(|&s| (5, s)).collect();
    Told::after(&sheets)
}

const FIVE: Verdict = Verdict::Adjusted(Test::Five, -3);

/// 37, 37, 0, 37, 37, 37: the five that aren't zero are tested.
#[test]
fn the_five_pass_over_a_zero_set() {
    assert_eq!(on_day_5(&[37, 37, 0, 37, 37]).sheet(5, 37), FIVE);
    assert_eq!(on_day_5(&[36, 36, 0, 36, 36]).sheet(5, 36), Verdict::Met);
    // Wherever the zero sets stand, and however many there are.
    for place in 0..=4 {
        for zeros in 1..=5 {
            let mut sums = vec![37; 4];
            sums.splice(place..place, vec![0; zeros]);
            assert_eq!(on_day_5(&sums).sheet(5, 37), FIVE, "{sums:?}");
            sums.iter_mut().for_each(|s| *s = -*s);
            let other_way = Verdict::Adjusted(Test::Five, 3);
            assert_eq!(on_day_5(&sums).sheet(5, -37), other_way, "{sums:?}");
        }
    }
    // Fewer than four others are no five.
    assert_eq!(on_day_5(&[60, 0, 60, 0, 60]).sheet(5, 60), Verdict::Met);
}

/// Four of 60 and a zero set: their average is 4 with it, but it isn't tested for five.
#[test]
fn a_zero_set_is_not_tested_for_five() {
    let mut told = on_day_5(&[60, 60, 60, 60]);
    assert_eq!(told.sheet(5, 0), Verdict::Met);
    let sixty = (5, 60);
    assert_eq!(told.held(), [vec![(5, 0), sixty], vec![sixty; 4]]);
    // The next that isn't zero is, with the same four.
    assert_eq!(told.sheet(5, 1), Verdict::Adjusted(Test::Five, -4));
}

/// 70, 0, 99: the averages of two and three look at the zero set.
#[test]
fn two_and_three_sets_count_zero_sets() {
    assert_eq!(on_day_5(&[70, 0]).sheet(5, 99), Verdict::Met);
    assert_eq!(
        on_day_5(&[70]).sheet(5, 99),
        Verdict::Adjusted(Test::Two, -7)
    );
    assert_eq!(
        on_day_5(&[70, 0]).sheet(5, 111),
        Verdict::Adjusted(Test::Three, -5)
    );
    assert_eq!(on_day_5(&[70, 0, 0]).sheet(5, 120), Verdict::Met);
}

/// Four of 60, -1, 60: another sign still breaks the five, and moves the oldest out.
#[test]
fn another_sign_breaks_the_five() {
    assert_eq!(on_day_5(&[60, 60, 60, 60, -1]).sheet(5, 60), Verdict::Met);
    assert_eq!(
        on_day_5(&[60, 60, 60, 60, -1, 0, 0]).sheet(5, 60),
        Verdict::Met
    );
    // Past four newer ones it doesn't any more.
    let mut told = on_day_5(&[60, -1, 60, 0, 60, 0, 60, 0]);
    assert_eq!(told.sheet(5, 60), Verdict::Met);
    assert_eq!(told.sheet(5, 0), Verdict::Met);
    assert_eq!(told.sheet(5, 60), Verdict::Adjusted(Test::Five, -5));
}

/// Each kind ages by itself.
#[test]
fn each_kind_ages_by_itself() {
    let sheets = [(5, 60), (6, 60), (6, 60), (7, 60), (15, 0), (15, 0)];
    assert_eq!(
        Told::after(&sheets).sheet(19, 60),
        Verdict::Adjusted(Test::Five, -5)
    );
    // On day 20 the oldest is 15 days old.
    assert_eq!(Told::after(&sheets).sheet(20, 60), Verdict::Met);
    // Old ones are held all the same.
    let mut told = Told::after(&sheets);
    assert_eq!(told.sheet(40, 0), Verdict::Met);
    let nonzero = vec![(7, 60), (6, 60), (6, 60), (5, 60)];
    assert_eq!(told.held(), [vec![(40, 0), (15, 0)], nonzero]);
}

/// A stored line may have four sets that count for five, and fewer than two newest that count.
#[test]
fn the_five_ask_for_no_newest_set() {
    let four = Told::after(&[(5, 37), (5, 37), (5, 37), (5, 37)]);
    let set = |day| PastSet { day, s: 0, n: 12 };
    for (newest, count) in [([0, 0], 2), ([0, 0], 1), ([18, 0], 2), ([18, 3], 2)] {
        let mut station = four.station;
        station.day = 19;
        station.lines[0].newest.places = newest.map(set);
        station.lines[0].newest.count = count;
        let judged = station.sheet(&four.rules, 19, 0, &wheat_sheet(37, 0));
        assert_eq!(judged.unwrap().verdict, FIVE, "{newest:?} {count}");
    }
}

/// A check that a zero set meets opens the line with one newest set and no other.
#[test]
fn a_check_opens_with_a_zero_set() {
    let mut told = Told::new();
    assert_eq!(told.sheet(5, 121), Verdict::Adjusted(Test::One, -10));
    assert_eq!(told.sheet(6, 0), Verdict::Met);
    assert_eq!(told.held(), [vec![(6, 0)], vec![]]);
    let mut told = Told::new();
    told.sheet(5, 121);
    assert_eq!(told.sheet(6, -60), Verdict::Met);
    assert_eq!(told.held(), [vec![(6, -60)], vec![(6, -60)]]);
}

/// A repair, an adjustment and shutting empty both kinds.
#[test]
fn both_kinds_are_emptied() {
    let none = [vec![], vec![]];
    let mut repaired = on_day_5(&[60, 60, 60, 60, 0, 0]);
    repaired.repair(6);
    assert_eq!(repaired.held(), none);
    // The four went: 60 would make five with them.
    assert_eq!(repaired.sheet(6, 60), Verdict::Met);
    for (s, phase) in [(121, LinePhase::Adjusted), (12_006, LinePhase::Shut)] {
        let mut told = on_day_5(&[60, 60, 60, 60, 0, 0]);
        assert_ne!(told.sheet(6, s), Verdict::Met);
        let line = told.station.lines[0];
        assert_eq!((line.phase(), told.held()), (phase, none.clone()));
        assert_eq!(told.sheet(6, 60), Verdict::Met);
        assert_eq!(told.held(), [vec![(6, 60)], vec![(6, 60)]]);
    }
}

/// Where nothing is kept S is 0 too: that is no zero set, and the line is shut.
#[test]
fn nothing_kept_is_no_zero_set() {
    let mut told = on_day_5(&[60, 60, 60, 60]);
    let deviations = [-500, 500, 500, 500, 500, 500];
    let numbers = deviations.map(|deviation| again(deviation, deviation));
    let numbers = numbers.concat();
    let judged = told.station.sheet(&told.rules, 5, 0, &numbers).unwrap();
    assert_eq!(
        told.book.sheet(&told.rules, 5, 0, &numbers),
        Ok(judged.outcome)
    );
    assert_eq!((judged.outcome.s, judged.outcome.n), (0, 0));
    assert_eq!(told.station.lines[0].phase(), LinePhase::Shut);
    assert_eq!(told.held(), [vec![], vec![]]);
    told.agree();
}

/// Day 0 S 5, day 6 S 0: the certificate of day 13 has day 6, and on day 14 the zero set is too old.
#[test]
fn a_zero_set_is_the_newest() {
    let mut told = Told::after(&[(0, 5), (6, 0)]);
    let certificate = told.market(13).unwrap();
    assert_eq!((certificate.set_day, certificate.intercept), (6, 0));
    assert_eq!(told.market(14), Err(13));
    let mut zeros = Told::after(&[(0, 0), (6, 0)]);
    assert_eq!(zeros.market(13).unwrap().set_day, 6);
}

/// Any list of calls is answered alike by a station, which holds two sets and four, and by its book,
/// which holds them all; it meets the five past zero sets.
#[test]
fn any_list_of_calls() {
    let sums = [0, 0, 0, 0, 36, 37, 37, 45, 59, 60, -1, -37];
    let mut random = 7;
    let (mut fives, mut passed_over) = (0, 0);
    for _ in 0..400 {
        let mut told = Told::new();
        let mut day = 0;
        for _ in 0..60 {
            day += [0, 0, 0, 0, 0, 1, 1, 2, 6, 7][draw(&mut random, 10)];
            match draw(&mut random, 20) {
                0 => told.repair(day),
                1..4 => {
                    let _ = told.market(day);
                }
                _ => {
                    let past = told.book.past(0);
                    let oldest = told.station.lines[0].nonzero.sets().last().copied();
                    let verdict = told.sheet(day, sums[draw(&mut random, sums.len())]);
                    if matches!(verdict, Verdict::Adjusted(Test::Five, _)) {
                        let oldest = past.iter().position(|set| Some(*set) == oldest);
                        fives += 1;
                        passed_over += usize::from(oldest > Some(3));
                    }
                }
            }
        }
    }
    assert!(fives > 200 && passed_over > 100, "{fives} {passed_over}");
}
