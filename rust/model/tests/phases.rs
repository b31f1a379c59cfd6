//! What a line that isn't open answers to a market test: new (12), adjusted (25) or shut (26). Every
//! call is told to a station and to a book, which must answer the same.

mod random;
mod sheets;

use grain_model::{
    Asked, Basis, Book, Certificate, LinePhase, Phase, Rules, Scan, Station, WheatClass,
};
use random::draw;
use sheets::{again, wheat_sheet};

/// A call that a line's phase rests on, on a wheat station.
#[derive(Clone, Copy, Debug)]
enum Call {
    /// A sheet with this S.
    Sheet(i32),
    /// A sheet of which no sample is kept.
    NothingKept,
    Repair,
}

use Call::{NothingKept, Repair, Sheet};

/// A first S whose average 1000.5 would move the intercept beyond its bound.
const BEYOND: i32 = 12_006;
/// A first S that moves the intercept to the bound itself.
const TO_BOUND: i32 = 12_000;

/// A station and its book.
struct Told {
    rules: Rules,
    station: Station,
    book: Book,
}

impl Told {
    fn new(row: i64) -> Told {
        Told {
            rules: Rules::in_force(),
            station: Station::fresh(row),
            book: Book::new(row),
        }
    }

    /// A wheat station and its book after these calls of day 5.
    fn after(calls: &[Call]) -> Told {
        let mut told = Told::new(0);
        for &call in calls {
            told.call(5, call);
        }
        told
    }

    fn call(&mut self, day: u32, call: Call) {
        let intercept = self.station.lines[0].intercept as i32;
        match call {
            Sheet(s) => self.sheet(day, 0, &wheat_sheet(s, intercept)),
            NothingKept => self.sheet(day, 0, &nothing_kept(6, intercept)),
            Repair => {
                let answer = self.station.repair(&self.rules, day);
                assert_eq!(self.book.repair(&self.rules, day), answer);
                self.agree();
            }
        }
    }

    /// The outcome tells open from check due, and adjusted from shut by the change only.
    fn sheet(&mut self, day: u32, line: usize, numbers: &[i32]) {
        let answer = self.station.sheet(&self.rules, day, line as u64, numbers);
        let answer = answer.map(|judged| judged.outcome);
        let told = self.book.sheet(&self.rules, day, line as u64, numbers);
        assert_eq!(told, answer);
        if let Ok(outcome) = answer {
            let phase = match (outcome.phase, outcome.change) {
                (Phase::New, _) => unreachable!("no sheet makes a line new"),
                (Phase::Open, _) => LinePhase::Open,
                (Phase::CheckDue, 0) => LinePhase::Shut,
                (Phase::CheckDue, _) => LinePhase::Adjusted,
            };
            assert_eq!(self.station.lines[line].phase(), phase);
        }
        self.agree();
    }

    fn agree(&self) {
        for (place, line) in self.station.lines.iter().enumerate() {
            assert_eq!(self.book.phase(place), line.phase());
            assert_eq!(self.book.intercept(place), line.intercept);
        }
    }

    fn market(
        &mut self,
        day: u32,
        line: u64,
        scan: Scan,
        asked: Asked,
        basis: Basis,
    ) -> Result<Certificate, u8> {
        let rules = &self.rules;
        let answer = self.station.market(rules, day, line, scan, asked, basis);
        let told = self.book.market(rules, day, line, scan, asked, basis);
        assert_eq!(told, answer);
        answer
    }

    /// The number that a market test of 13.54 percent is refused by on this day.
    fn number(&mut self, day: u32) -> Option<u8> {
        let scan = Scan::Wheat(13.54_f32.to_bits());
        let answer = self.market(day, 0, scan, Asked::LineFigure, Basis::Standard);
        answer.err()
    }
}

/// A sheet whose samples all deviate, by their again pairs too.
fn nothing_kept(samples: i32, intercept: i32) -> Vec<i32> {
    let sample = |place: i32| {
        let deviation = if place == 0 { -500 } else { 500 } - 2 * intercept;
        again(deviation, deviation)
    };
    (0..samples).flat_map(sample).collect()
}

/// Calls, and the number of a market test after them; none: it gets a certificate.
const WAYS: &[(&[Call], Option<u8>)] = &[
    // New: never adjusted nor shut, or opened since and then repaired.
    (&[], Some(12)),
    (&[Repair], Some(12)),
    (&[Sheet(0)], None),
    (&[Sheet(0), Repair], Some(12)),
    (&[NothingKept, Sheet(60), Repair], Some(12)),
    (&[Sheet(BEYOND), Sheet(60), Repair], Some(12)),
    (&[Sheet(121), Sheet(60), Repair], Some(12)),
    // Adjusted, from new and from open, and again by the check.
    (&[Sheet(121)], Some(25)),
    (&[Sheet(0), Sheet(121)], Some(25)),
    (&[Sheet(121), Sheet(61)], Some(25)),
    (&[Sheet(TO_BOUND)], Some(25)),
    // Shut, from new and from open, by N = 0 and by the intercept's bound.
    (&[NothingKept], Some(26)),
    (&[Sheet(0), NothingKept], Some(26)),
    (&[Sheet(BEYOND)], Some(26)),
    (&[Sheet(0), Sheet(-BEYOND)], Some(26)),
    // The newest sheet alone decides.
    (&[NothingKept, Sheet(61)], Some(25)),
    (&[Sheet(BEYOND), Sheet(-61)], Some(25)),
    (&[Sheet(121), NothingKept], Some(26)),
    (&[Sheet(TO_BOUND), Sheet(66)], Some(26)),
    (&[NothingKept, NothingKept], Some(26)),
    (&[NothingKept, Sheet(BEYOND)], Some(26)),
    (&[Sheet(BEYOND), NothingKept], Some(26)),
    (&[NothingKept, Sheet(61), NothingKept], Some(26)),
    // A repair doesn't alter which of the two it is.
    (&[Sheet(121), Repair], Some(25)),
    (&[Sheet(121), Repair, Repair], Some(25)),
    (&[NothingKept, Repair], Some(26)),
    (&[Sheet(BEYOND), Repair, Repair], Some(26)),
    // The next sheet is the check, with a repair between too: a new line would be open with 61.
    (&[Repair, Sheet(61)], None),
    (&[Sheet(121), Repair, Sheet(60)], None),
    (&[Sheet(121), Repair, Sheet(61)], Some(25)),
    (&[NothingKept, Repair, Sheet(60)], None),
    (&[NothingKept, Repair, Sheet(61)], Some(25)),
    (&[Sheet(121), Repair, NothingKept], Some(26)),
    (&[NothingKept, Repair, NothingKept], Some(26)),
];

#[test]
fn numbers_of_lines_that_are_not_open() {
    for (calls, number) in WAYS {
        assert_eq!(Told::after(calls).number(5), *number, "{calls:?}");
    }
}

/// 25 and 26 stand in the place of 12: after 8, 23, 24, 9, 10 and 11, before 13 and 14.
#[test]
fn numbers_before_and_after() {
    let wheat = |percent: f32| Scan::Wheat(percent.to_bits());
    let set = |percent: f32| Scan::WheatGluten(f32::NAN.to_bits(), percent.to_bits());
    let figure = Asked::LineFigure;
    let gluten = Asked::Gluten(WheatClass::HardRedWinter);
    let other = Asked::Gluten(WheatClass::Other);
    // Intercept -10: the gluten intercept is -30.
    let adjusted: &[Call] = &[Sheet(121)];
    let shut: &[Call] = &[Sheet(121), NothingKept];
    for (calls, number) in [(adjusted, 25), (shut, 26)] {
        let asked = |day, scan, asked, basis| {
            let answer = Told::after(calls).market(day, 0, scan, asked, basis);
            answer.unwrap_err()
        };
        let cases = [
            (4, wheat(13.54), figure, Basis::Standard, 2),
            (5, Scan::Fault, figure, Basis::Standard, 8),
            (5, wheat(13.54), gluten, Basis::Standard, 8),
            (5, set(34.0), other, Basis::Standard, 23),
            (5, set(34.0), gluten, Basis::Dry, 24),
            (5, wheat(f32::NAN), figure, Basis::Standard, 9),
            (5, wheat(13.54), figure, Basis::AsIs(5001), 10),
            (5, wheat(0.05), figure, Basis::Standard, 11),
            (5, wheat(0.10), figure, Basis::Standard, number),
            (5, set(0.29), gluten, Basis::Standard, 11),
            (5, set(0.30), gluten, Basis::Standard, number),
            // On an open line these would be 13 and 14.
            (13, wheat(13.54), figure, Basis::Standard, number),
            (99_999, wheat(13.54), figure, Basis::Standard, number),
            (99_999, set(34.0), gluten, Basis::Standard, number),
            (5, wheat(99.0), figure, Basis::Dry, number),
            (99_999, wheat(99.0), figure, Basis::Dry, number),
        ];
        for (day, scan, what, basis, number) in cases {
            let said = asked(day, scan, what, basis);
            assert_eq!(said, number, "{calls:?}, day {day}: {scan:?} {basis:?}");
        }
    }
}

/// Each line of corn has its own: one is open, one adjusted, one shut; a repair makes the first new.
#[test]
fn lines_of_corn() {
    let mut told = Told::new(1);
    told.sheet(5, 0, &[1300, 1300, 1300, -1, -1, -1].repeat(4));
    told.sheet(5, 1, &[1300, 1316, 1316, -1, -1, -1].repeat(4));
    told.sheet(5, 2, &nothing_kept(4, 0));
    let scan = Scan::Corn([13.54_f32.to_bits(); 3]);
    let numbers = |told: &mut Told| {
        [0, 1, 2].map(|line| {
            let answer = told.market(5, line, scan, Asked::LineFigure, Basis::Standard);
            answer.err()
        })
    };
    assert_eq!(numbers(&mut told), [None, Some(25), Some(26)]);
    told.call(5, Repair);
    assert_eq!(numbers(&mut told), [Some(12), Some(25), Some(26)]);
}

/// Any list of calls is answered alike by a station and by its book, and meets each number.
#[test]
fn any_list_of_calls() {
    let sums = [0, 60, 61, -61, 98, 99, 120, 121, -126, TO_BOUND, BEYOND];
    let mut random = 3;
    let mut answers = [0; 27];
    for _ in 0..300 {
        let mut told = Told::new(0);
        let mut day = 0;
        for _ in 0..60 {
            day += [0, 0, 0, 1, 8, 15][draw(&mut random, 6)];
            match draw(&mut random, 10) {
                0..4 => told.call(day, Sheet(sums[draw(&mut random, sums.len())])),
                4 => told.call(day, NothingKept),
                5 => told.call(day, Repair),
                _ => {
                    let percent: f32 = [0.0, 13.54, 34.0, 99.0, 100.0][draw(&mut random, 5)];
                    let scan = Scan::WheatGluten(percent.to_bits(), percent.to_bits());
                    let gluten = Asked::Gluten(WheatClass::HardRedSpring);
                    let asked = [Asked::LineFigure, gluten][draw(&mut random, 2)];
                    let basis = [Basis::Standard, Basis::Dry][draw(&mut random, 2)];
                    let answer = told.market(day, 0, scan, asked, basis);
                    answers[usize::from(answer.err().unwrap_or(0))] += 1;
                }
            }
        }
    }
    // 0 stands for a certificate.
    for number in [0, 11, 12, 13, 14, 24, 25, 26] {
        assert!(answers[number] > 20, "{number}: {}", answers[number]);
    }
}
