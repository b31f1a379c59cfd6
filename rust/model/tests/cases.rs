//! The model on the cases at the edges of the rules, the example of week 26 and the readings of
//! sentences that admit two.

mod sheets;

use grain_model::rules::Limits;
use grain_model::sheet::Sample;
use grain_model::station::BLANK;
use grain_model::text::program;
use grain_model::{
    Asked, Basis, Book, Certificate, Chart, ChartSet, ChartValues, Held, Judged, Line, LinePhase,
    PastSet, Rules, Scan, Station, Test, Verdict, WheatClass, reading,
};
use sheets::{again, twice, wheat_sheet};

const NAMES: &str = "week sample original monitor\n";
const OUT_NAMES: &str = "week n plot range al tl run ral rtl\n";

fn wheat() -> Limits {
    Rules::in_force().products[0].lines[0].clone()
}

/// A wheat station with this line 0, its past sets newest first.
fn station(phase: LinePhase, intercept: i64, day: i64, past: &[(i64, i64)]) -> Station {
    let mut line = Line {
        intercept,
        phase: phase.code(),
        ..Line::FRESH
    };
    for &(day, s) in past.iter().rev() {
        line.join(PastSet { day, s, n: 12 });
    }
    let mut station = Station::fresh(0);
    station.day = day;
    station.lines[0] = line;
    station
}

/// The verdict on a sheet with this S entered on this day.
fn entered(mut station: Station, day: u32, s: i32) -> (Station, Verdict) {
    let numbers = wheat_sheet(s, station.lines[0].intercept as i32);
    let judged = station.sheet(&Rules::in_force(), day, 0, &numbers).unwrap();
    assert_eq!((judged.outcome.s, judged.outcome.n), (i64::from(s), 12));
    assert_eq!(judged.outcome.phase, station.lines[0].phase().phase());
    (station, judged.verdict)
}

/// Day and S of the sets that line 0 holds: its newest, and those that aren't zero.
fn held(station: &Station) -> [Vec<(i64, i64)>; 2] {
    let line = &station.lines[0];
    [line.newest.sets(), line.nonzero.sets()]
        .map(|sets| sets.iter().map(|set| (set.day, set.s)).collect())
}

#[test]
fn readings() {
    assert_eq!(reading(0x3BA3_D70A), Ok(0));
    assert_eq!(reading(0.125_f32.to_bits()), Ok(13));
    assert_eq!(reading(100_f32.to_bits()), Ok(10_000));
    assert_eq!(reading(0), Ok(0));
    assert_eq!(reading(0x8000_0000), Ok(0));
    assert_eq!(reading(0x8000_0001), Err(9));
    assert_eq!(reading(100_f32.to_bits() + 1), Err(9));
    for not_finite in [f32::NAN, -f32::NAN, f32::INFINITY, f32::NEG_INFINITY] {
        assert_eq!(reading(not_finite.to_bits()), Err(9));
    }
    assert_eq!(reading(1), Ok(0));
    // 3BA3D70B is the next float, just above 0.005.
    assert_eq!(reading(0x3BA3_D70B), Ok(1));
    // Exact halves (odd multiples of 1/8) go up.
    assert_eq!(reading(0.375_f32.to_bits()), Ok(38));
    assert_eq!(reading(12.625_f32.to_bits()), Ok(1263));
}

#[test]
fn thirds_and_pairs() {
    let sample = |second, third| Sample {
        baseline: 1300,
        first: 1300,
        second,
        third,
        again: None,
    };
    assert!(!sample(1330, None).third_due(&wheat()));
    assert!(sample(1331, None).third_due(&wheat()));
    assert_eq!(sample(1331, Some(1316)).pair(), [1331, 1316]);
    assert_eq!(sample(1331, Some(1362)).pair(), [1300, 1331]);
    // Among equals the earlier named: first-third before second-third.
    assert_eq!(sample(1340, Some(1320)).pair(), [1300, 1320]);
    assert_eq!(sample(1330, None).pair(), [1300, 1330]);
}

#[test]
fn again_pairs() {
    let rules = Rules::in_force();
    let sums =
        |sheet: [[i32; 6]; 6]| grain_model::sheet::sums(&rules, 6, &wheat(), 0, &sheet.concat());
    let zero = twice(0);
    // 82 and zeros: all kept.
    let kept = sums([twice(82), zero, zero, zero, zero, zero]).unwrap();
    assert_eq!((kept.s, kept.n, kept.again, kept.dropped), (82, 12, 0, 0));
    // An again pair that isn't due.
    assert_eq!(sums([again(82, 0), zero, zero, zero, zero, zero]), Err(7));
    // 82 and -20: again due for the first.
    let low = twice(-20);
    assert_eq!(sums([twice(82), low, zero, zero, zero, zero]), Err(7));
    let kept = sums([again(82, 80), low, zero, zero, zero, zero]).unwrap();
    assert_eq!((kept.s, kept.n, kept.again, kept.dropped), (60, 12, 1, 0));
    let dropped = sums([again(82, 81), low, zero, zero, zero, zero]).unwrap();
    assert_eq!(
        (dropped.s, dropped.n, dropped.again, dropped.dropped),
        (-20, 10, 1, 1)
    );
    // 80 doesn't deviate, and 82 with -18 is 100 apart: within.
    assert_eq!(
        sums([twice(80), twice(-80), zero, zero, zero, zero])
            .unwrap()
            .n,
        12
    );
    assert_eq!(
        sums([twice(82), twice(-18), zero, zero, zero, zero])
            .unwrap()
            .s,
        64
    );
    // Every sample still deviating: nothing kept.
    let all = sums([
        again(82, 82),
        again(-82, -82),
        again(82, 82),
        again(82, 82),
        again(82, 82),
        again(82, 81),
    ]);
    assert_eq!(
        all.map(|sums| (sums.s, sums.n, sums.dropped)),
        Ok((0, 0, 6))
    );
}

/// All orders of these samples.
fn orders(samples: &[[i32; 6]]) -> Vec<Vec<[i32; 6]>> {
    let Some((first, others)) = samples.split_first() else {
        return vec![vec![]];
    };
    let mut all = Vec::new();
    for order in orders(others) {
        for place in 0..=order.len() {
            let mut order = order.clone();
            order.insert(place, *first);
            all.push(order);
        }
    }
    all
}

/// The answer and the station after a sheet of these samples, which are the same in all 720 orders.
fn in_every_order(station: Station, samples: [[i32; 6]; 6]) -> (Result<Judged, u8>, Station) {
    let rules = Rules::in_force();
    let entered = |order: &[[i32; 6]]| {
        let mut after = station;
        (after.sheet(&rules, 20, 0, &order.concat()), after)
    };
    let orders = orders(&samples);
    assert_eq!(orders.len(), 720);
    for order in &orders {
        assert_eq!(entered(order), entered(&samples), "{order:?}");
    }
    entered(&samples)
}

/// The same samples in another order: the same outcome and station, or the same refusal.
#[test]
fn orders_of_samples() {
    let open = station(LinePhase::Open, 0, 20, &[(19, 20), (18, -10)]);
    let third = [1250, 1240, 1275, 1245, -1, -1];
    let kept = [1400, 1451, 1451, -1, 1410, 1412];
    let dropped = [1200, 1140, 1145, -1, 1150, 1155];
    let (answer, after) =
        in_every_order(open, [third, kept, dropped, twice(30), twice(-7), twice(0)]);
    let judged = answer.unwrap();
    assert_eq!((judged.outcome.s, judged.outcome.n), (30, 10));
    assert_eq!((judged.again, judged.dropped), (2, 1));
    assert_eq!(after.lines[0].newest.sets()[0].s, 30);
    // The lowest number over the whole sheet, wherever its sample stands.
    let mut no_third = third;
    no_third[3] = -1;
    let needless = again(0, 0);
    for extreme in [-2, 10_001, i32::MIN, i32::MAX] {
        let mut number = twice(0);
        number[2] = extreme;
        let wrong = [no_third, number, needless, kept, dropped, twice(0)];
        assert_eq!(in_every_order(open, wrong), (Err(5), open));
    }
    let wrong = [no_third, needless, kept, dropped, twice(30), twice(-7)];
    assert_eq!(in_every_order(open, wrong), (Err(6), open));
    let wrong = [third, needless, kept, dropped, twice(30), twice(-7)];
    assert_eq!(in_every_order(open, wrong), (Err(7), open));
}

#[test]
fn one_set() {
    let fresh = Station::fresh(0);
    let (open, verdict) = entered(fresh, 3, 120);
    assert_eq!(
        (verdict, open.lines[0].phase()),
        (Verdict::Met, LinePhase::Open)
    );
    assert_eq!(held(&open), [&[(3, 120)][..]; 2]);
    assert_eq!(open.day, 3);
    let (adjusted, verdict) = entered(fresh, 3, 121);
    assert_eq!(verdict, Verdict::Adjusted(Test::One, -10));
    assert_eq!(adjusted.lines[0].intercept, -10);
    assert_eq!(adjusted.lines[0].phase(), LinePhase::Adjusted);
    assert_eq!(entered(fresh, 3, -126).0.lines[0].intercept, 11);
    assert_eq!(entered(fresh, 3, -125).0.lines[0].intercept, 10);
}

#[test]
fn two_and_three_sets() {
    let open = station(LinePhase::Open, 0, 20, &[(6, 70)]);
    assert_eq!(entered(open, 20, 98).1, Verdict::Met);
    assert_eq!(entered(open, 20, 99).1, Verdict::Adjusted(Test::Two, -7));
    // 14 days old counts, 15 doesn't.
    assert_eq!(entered(open, 21, 99).1, Verdict::Met);
    let adjusted = entered(open, 20, 99).0.lines[0];
    assert_eq!(
        (adjusted.newest, adjusted.nonzero),
        (Held::NONE, Held::NONE)
    );
    let open = station(LinePhase::Open, 0, 20, &[(7, 60), (6, 60)]);
    assert_eq!(entered(open, 20, 60).1, Verdict::Met);
    assert_eq!(entered(open, 20, 61).1, Verdict::Adjusted(Test::Three, -5));
    // The older one ignored: two sets only.
    assert_eq!(entered(open, 21, 61).1, Verdict::Met);
}

#[test]
fn five_sets() {
    let past = |s: i64| {
        station(
            LinePhase::Open,
            0,
            20,
            &[(20, s), (20, s), (19, s), (18, s)],
        )
    };
    assert_eq!(entered(past(36), 20, 36).1, Verdict::Met);
    assert_eq!(
        entered(past(37), 20, 37).1,
        Verdict::Adjusted(Test::Five, -3)
    );
    assert_eq!(
        entered(past(-37), 20, -37).1,
        Verdict::Adjusted(Test::Five, 3)
    );
    // Another sign breaks the five.
    let broken = station(
        LinePhase::Open,
        0,
        20,
        &[(20, 55), (20, 55), (19, -1), (18, 90)],
    );
    assert_eq!(entered(broken, 20, 60).1, Verdict::Met);
    // Only the newest two and the newest four that aren't zero are held.
    let (five, _) = entered(past(36), 20, 35);
    assert_eq!(
        held(&five),
        [
            vec![(20, 35), (20, 36)],
            vec![(20, 35), (20, 36), (20, 36), (19, 36)]
        ]
    );
}

#[test]
fn check_due() {
    for phase in [LinePhase::Adjusted, LinePhase::Shut] {
        checked(station(phase, 40, 9, &[]));
    }
}

/// The check of a line of intercept 40, whatever made it due.
fn checked(due: Station) {
    let (open, verdict) = entered(due, 9, 60);
    assert_eq!(
        (verdict, open.lines[0].phase()),
        (Verdict::Met, LinePhase::Open)
    );
    assert_eq!(held(&open), [&[(9, 60)][..]; 2]);
    let (again, verdict) = entered(due, 9, 61);
    assert_eq!(verdict, Verdict::Adjusted(Test::Check, -5));
    assert_eq!(
        (again.lines[0].intercept, again.lines[0].phase()),
        (35, LinePhase::Adjusted)
    );
}

#[test]
fn shut_at_the_bound() {
    let near = station(LinePhase::New, -990, 0, &[]);
    assert_eq!(entered(near, 0, 125).1, Verdict::Adjusted(Test::One, -10));
    let (shut, verdict) = entered(near, 0, 126);
    assert_eq!(verdict, Verdict::Bounded(Test::One));
    assert_eq!(
        (shut.lines[0].intercept, shut.lines[0].phase()),
        (-990, LinePhase::Shut)
    );
}

#[test]
fn repairs() {
    let rules = Rules::in_force();
    let mut open = station(LinePhase::Open, 12, 9, &[(9, 5), (8, 6)]);
    assert_eq!(open.repair(&rules, 8), Err(2));
    assert_eq!(open.repair(&rules, 10), Ok(()));
    assert_eq!(open, station(LinePhase::New, 12, 10, &[]));
    for phase in [LinePhase::Adjusted, LinePhase::Shut] {
        let mut due = station(phase, 12, 9, &[]);
        due.repair(&rules, 99_999).unwrap();
        assert_eq!(due, station(phase, 12, 99_999, &[]));
        assert_eq!(due.repair(&rules, 100_000), Err(2));
    }
}

/// Number 0 looks at the row's lines and their held sets only; a number below 0 is no day, and a
/// code other than 0 to 3 no phase.
#[test]
fn stored_stations() {
    let rules = Rules::in_force();
    let open = station(LinePhase::Open, 12, 9, &[(9, 5), (8, 6)]);
    let refused = |mut station: Station| station.repair(&rules, 9) == Err(0);
    assert!(!refused(open));
    for phase in [-1, 4, i64::from(i32::MIN), i64::from(i32::MAX)] {
        let mut unknown = open;
        unknown.lines[0].phase = phase;
        assert!(refused(unknown));
        unknown.lines[0].empty();
        assert!(refused(unknown));
        let mut spare = open;
        spare.lines[2].phase = phase;
        spare.lines[2].newest.count = phase;
        spare.lines[2].nonzero.count = phase;
        spare.lines[2].intercept = phase;
        spare.repair(&rules, 9).unwrap();
        let repaired = Line {
            intercept: phase,
            phase,
            ..Line::FRESH
        };
        assert_eq!(spare.lines[2], repaired);
    }
    let damages: [fn(&mut Station); 4] = [
        |station| station.row = 2,
        |station| station.row = -1,
        |station| station.day = -1,
        |station| station.day = 100_000,
    ];
    for damage in damages {
        let mut damaged = open;
        damage(&mut damaged);
        assert!(refused(damaged));
    }
}

/// Number 0 on a line that is open on day 9.
fn unsound(line: Line) -> bool {
    let mut open = station(LinePhase::Open, 0, 9, &[]);
    open.lines[0] = line;
    open.repair(&Rules::in_force(), 9) == Err(0)
}

/// A line of two newest sets, both zero, and four that aren't zero, all of day 5.
fn both_kinds() -> Line {
    let past = [(5, 0), (5, 0), (5, 1), (5, 2), (5, 3), (5, 4)];
    let line = station(LinePhase::Open, 0, 9, &past).lines[0];
    assert_eq!((line.newest.count, line.nonzero.count), (2, 4));
    line
}

/// Days, N and S are judged of each kind by itself.
#[test]
fn stored_sets_of_each_kind() {
    assert!(!unsound(both_kinds()));
    type Damage = fn(&mut [PastSet]);
    let sound: [Damage; 5] = [
        |sets| sets[0].day = 9,
        |sets| sets[sets.len() - 1].day = 0,
        |sets| sets[0].s = 11_000 * sets[0].n,
        |sets| sets[0].s = -11_000 * sets[0].n,
        |sets| sets[0].n = 2,
    ];
    let damages: [Damage; 10] = [
        |sets| sets[0].day = 10,
        |sets| sets[1].day = 6,
        |sets| sets[1].day = -1,
        |sets| sets[0].day = 4,
        |sets| sets[1].n = 0,
        |sets| sets[1].n = 14,
        |sets| sets[1].n = 11,
        |sets| sets[1].n = -12,
        |sets| sets[0].s = 11_000 * sets[0].n + 1,
        |sets| sets[0].s = -11_000 * sets[0].n - 1,
    ];
    let changed = |change: Damage| {
        let (mut newest, mut nonzero) = (both_kinds(), both_kinds());
        change(&mut newest.newest.places);
        change(&mut nonzero.nonzero.places);
        [unsound(newest), unsound(nonzero)]
    };
    assert_eq!(sound.map(changed), [[false; 2]; 5]);
    assert_eq!(damages.map(changed), [[true; 2]; 10]);
    // A set that isn't zero has an S other than 0, wherever it stands.
    for place in 0..4 {
        let mut line = both_kinds();
        line.nonzero.places[place].s = 0;
        assert!(unsound(line));
        line.nonzero.count = place as i64;
        assert!(!unsound(line));
    }
}

/// The kinds are not compared with each other.
#[test]
fn kinds_that_disagree_are_sound() {
    let mut line = both_kinds();
    line.newest.count = 1;
    assert!(!unsound(line));
    // The non-zero ones newer than the newest, or much older.
    for day in [0, 9] {
        line.nonzero.places = line.nonzero.places.map(|set| PastSet { day, ..set });
        assert!(!unsound(line));
    }
    // A newest set that isn't zero, and no non-zero one.
    line.newest.places[0].s = 7;
    line.nonzero = Held::NONE;
    assert!(!unsound(line));
}

/// A spare set is moved on as it is, with a set that joins its kind.
#[test]
fn spare_sets_move_on() {
    let odd = PastSet {
        day: -7,
        s: 1 << 30,
        n: -1,
    };
    let mut spare = station(LinePhase::Open, 12, 9, &[(9, 5)]);
    spare.lines[0].newest.places[1] = odd;
    spare.lines[0].nonzero.places[1] = odd;
    spare.lines[0].nonzero.places[2] = BLANK;
    spare.lines[0].nonzero.places[3] = odd;
    // A zero set leaves the non-zero ones as they are, spare places too.
    let (after, verdict) = entered(spare, 9, 0);
    assert_eq!((verdict, after.lines[0].newest.count), (Verdict::Met, 2));
    assert_eq!(after.lines[0].newest.places[1].s, 5);
    assert_eq!(after.lines[0].nonzero, spare.lines[0].nonzero);
    let (after, _) = entered(spare, 9, 6);
    assert_eq!((after.lines[0].nonzero.count, after.day), (2, 9));
    assert_eq!(after.lines[0].nonzero.places[1].s, 5);
    assert_eq!(after.lines[0].nonzero.places[2..], [odd, BLANK]);
    // A new line's spare places move on too.
    let mut new = station(LinePhase::New, 12, 9, &[]);
    new.lines[0].newest.places[0] = odd;
    new.lines[0].nonzero.places[0] = odd;
    let (after, _) = entered(new, 9, 6);
    assert_eq!(after.lines[0].newest.places[1], odd);
    assert_eq!(after.lines[0].nonzero.places[1], odd);
}

/// An open line has one or two newest sets and at most four that aren't zero, any other none of
/// either.
#[test]
fn only_open_lines_hold_sets() {
    let with = |phase: LinePhase, newest: i64, nonzero: i64| {
        let mut line = both_kinds();
        line.phase = phase.code();
        (line.newest.count, line.nonzero.count) = (newest, nonzero);
        unsound(line)
    };
    for (phase, _) in NOT_OPEN {
        assert!(!with(phase, 0, 0));
        assert!(with(phase, 1, 0) && with(phase, 0, 1) && with(phase, 1, 1));
    }
    for nonzero in 0..=4 {
        for newest in [1, 2] {
            assert!(!with(LinePhase::Open, newest, nonzero));
        }
        for newest in [0, 3, -1, i64::from(i32::MIN), i64::from(i32::MAX)] {
            assert!(with(LinePhase::Open, newest, nonzero));
        }
    }
    for nonzero in [5, -1, i64::from(i32::MIN), i64::from(i32::MAX)] {
        assert!(with(LinePhase::Open, 2, nonzero));
    }
}

/// The phases in which no market grain is tested, with their numbers.
const NOT_OPEN: [(LinePhase, u8); 3] = [
    (LinePhase::New, 12),
    (LinePhase::Adjusted, 25),
    (LinePhase::Shut, 26),
];

#[test]
fn market_figures() {
    let rules = Rules::in_force();
    let open = station(LinePhase::Open, 0, 10, &[(10, 0)]);
    let asked = |mut station: Station, day, percent: f32, basis| {
        let scan = Scan::Wheat(percent.to_bits());
        let answer = station.market(&rules, day, 0, scan, Asked::LineFigure, basis);
        answer.map(|certificate| (certificate.corrected, certificate.at_basis))
    };
    assert_eq!(asked(open, 10, 13.54, Basis::Dry), Ok((135, 154)));
    assert_eq!(asked(open, 10, 13.50, Basis::Dry), Ok((135, 153)));
    assert_eq!(asked(open, 10, 13.45, Basis::Standard), Ok((135, 135)));
    assert_eq!(asked(open, 10, 88.00, Basis::Dry), Ok((880, 1000)));
    assert_eq!(asked(open, 10, 88.01, Basis::Dry), Err(14));
    assert_eq!(asked(open, 17, 13.45, Basis::Standard), Ok((135, 135)));
    assert_eq!(asked(open, 18, 13.45, Basis::Standard), Err(13));
    assert_eq!(asked(open, 9, 13.45, Basis::Standard), Err(2));
    assert_eq!(asked(open, 10, 13.45, Basis::AsIs(-1)), Err(10));
    assert_eq!(asked(open, 10, 13.45, Basis::AsIs(5001)), Err(10));
    assert_eq!(
        asked(open, 10, 13.45, Basis::Specified(5000)),
        Ok((135, 76))
    );
    assert_eq!(asked(open, 10, 13.45, Basis::Unknown), Err(10));
    assert_eq!(asked(open, 10, f32::NAN, Basis::Unknown), Err(9));
    let low = station(LinePhase::Open, -1000, 10, &[(10, 0)]);
    assert_eq!(asked(low, 10, 9.99, Basis::Unknown), Err(10));
    assert_eq!(asked(low, 10, 9.99, Basis::Standard), Err(11));
    assert_eq!(asked(low, 10, 10.0, Basis::Standard), Ok((0, 0)));
    // B and h are judged though the line isn't open; a set's age and the value at B are not.
    for (phase, number) in NOT_OPEN {
        let not_open = station(phase, -1000, 10, &[]);
        assert_eq!(asked(not_open, 10, 9.99, Basis::Unknown), Err(10));
        assert_eq!(asked(not_open, 10, 9.99, Basis::Standard), Err(11));
        assert_eq!(asked(not_open, 10, 10.0, Basis::Standard), Err(number));
        assert_eq!(asked(not_open, 99_999, 99.0, Basis::Dry), Err(number));
    }
}

#[test]
fn scans() {
    let rules = Rules::in_force();
    let asked = |row, line, scan| {
        let mut station = Station::fresh(row);
        station.market(&rules, 0, line, scan, Asked::LineFigure, Basis::Dry)
    };
    let nan = f32::NAN.to_bits();
    let scan = Scan::Corn([nan, 4_f32.to_bits(), nan]);
    assert_eq!(asked(1, 0, scan), Err(9));
    assert_eq!(asked(1, 1, scan), Err(12));
    assert_eq!(asked(1, 3, scan), Err(3));
    assert_eq!(asked(1, 0, Scan::Wheat(nan)), Err(8));
    assert_eq!(asked(1, 0, Scan::WheatGluten(nan, nan)), Err(8));
    assert_eq!(asked(1, 0, Scan::Fault), Err(8));
    assert_eq!(asked(0, 0, scan), Err(8));
    assert_eq!(Station::open(&rules, 2), (Station::fresh(0), Err(1)));
}

const NAN: f32 = f32::NAN;
const WINTER: Asked = Asked::Gluten(WheatClass::HardRedWinter);
const SPRING: Asked = Asked::Gluten(WheatClass::HardRedSpring);
const OTHER_CLASS: Asked = Asked::Gluten(WheatClass::Other);

/// A wheat scan with gluten.
fn wheat_scan(protein: f32, gluten: f32) -> Scan {
    Scan::WheatGluten(protein.to_bits(), gluten.to_bits())
}

/// A wheat station that is open with this intercept, its newest set of day 10.
fn open_wheat(intercept: i64) -> Station {
    station(LinePhase::Open, intercept, 10, &[(10, 0), (9, 0)])
}

/// What is asked of a wheat station's line 0 on day 10.
fn market(mut station: Station, scan: Scan, asked: Asked, basis: Basis) -> Result<Certificate, u8> {
    station.market(&Rules::in_force(), 10, 0, scan, asked, basis)
}

/// Times 3.029, halves away from zero.
#[test]
fn derived_intercepts() {
    let derived = |intercept: i64| {
        let answer = market(
            open_wheat(intercept),
            wheat_scan(13.0, 40.0),
            WINTER,
            Basis::Standard,
        );
        answer.unwrap().intercept
    };
    let cases = [
        (0, 0),
        (1, 3),
        (11, 33),
        (17, 51),
        (18, 55),
        (499, 1511),
        (500, 1515),
        (501, 1518),
        (1000, 3029),
    ];
    for (intercept, gluten) in cases {
        assert_eq!(derived(intercept), gluten);
        assert_eq!(derived(-intercept), -gluten);
    }
}

#[test]
fn gluten_figures() {
    let asked = |intercept, percent, asked| {
        let scan = wheat_scan(NAN, percent);
        let answer = market(open_wheat(intercept), scan, asked, Basis::Standard);
        answer.map(|certificate| (certificate.corrected, certificate.at_basis))
    };
    // The protein float may be anything.
    let certificate = Certificate {
        set_day: 10,
        intercept: -33,
        basis: 1400,
        corrected: 338,
        at_basis: 338,
    };
    let scan = wheat_scan(NAN, 34.08);
    for class in [WINTER, SPRING] {
        let answer = market(open_wheat(-11), scan, class, Basis::Standard);
        assert_eq!(answer, Ok(certificate));
    }
    // h 3375 is a half of a tenth and goes up, 3374 goes down.
    assert_eq!(asked(-11, 34.08, WINTER), Ok((338, 338)));
    assert_eq!(asked(-11, 34.07, WINTER), Ok((337, 337)));
    // 0.375 reads 38, and 38 with 27 is 65: the figure 0.7 lies 0.055 from 0.375 with 0.27.
    assert_eq!(asked(9, 0.375, SPRING), Ok((7, 7)));
    // 11 looks at gluten's h: with protein's intercept 6972 would be within.
    assert_eq!(asked(1000, 69.72, WINTER), Err(11));
    assert_eq!(asked(1000, 69.71, WINTER), Ok((1000, 1000)));
    assert_eq!(asked(-1000, 30.28, WINTER), Err(11));
    assert_eq!(asked(-1000, 30.29, WINTER), Ok((0, 0)));
    assert_eq!(asked(0, 100.0, WINTER), Ok((1000, 1000)));
    // 9 looks at gluten's float.
    assert_eq!(asked(0, NAN, WINTER), Err(9));
    assert_eq!(asked(0, -0.5, SPRING), Err(9));
    assert_eq!(asked(0, 100.1, SPRING), Err(9));
}

/// 8, 23, 24, 9, 11, then 12, 25 or 26, then 13, in this order.
#[test]
fn gluten_refusals() {
    let asked = |scan, class, basis| market(open_wheat(0), scan, class, basis).map(|_| ());
    let (good, bad) = (wheat_scan(NAN, 34.0), wheat_scan(13.0, NAN));
    let percent = 34_f32.to_bits();
    let bases = [
        Basis::Dry,
        Basis::Specified(1400),
        Basis::Specified(1200),
        Basis::Specified(9999),
        Basis::Specified(-1),
        Basis::AsIs(1400),
        Basis::AsIs(i32::MIN),
        Basis::Unknown,
    ];
    for basis in bases {
        for class in [WINTER, SPRING] {
            assert_eq!(asked(good, class, basis), Err(24));
            assert_eq!(asked(bad, class, basis), Err(24));
        }
        assert_eq!(asked(good, OTHER_CLASS, basis), Err(23));
    }
    assert_eq!(asked(good, WINTER, Basis::Standard), Ok(()));
    assert_eq!(asked(good, OTHER_CLASS, Basis::Standard), Err(23));
    assert_eq!(asked(bad, OTHER_CLASS, Basis::Standard), Err(23));
    assert_eq!(asked(bad, WINTER, Basis::Standard), Err(9));
    // A missing gluten float comes before class and basis.
    for scan in [Scan::Wheat(percent), Scan::Corn([percent; 3]), Scan::Fault] {
        for class in [WINTER, SPRING, OTHER_CLASS] {
            assert_eq!(asked(scan, class, Basis::Standard), Err(8));
            assert_eq!(asked(scan, class, Basis::Specified(9999)), Err(8));
        }
    }
    // The line's permission is the protein line's.
    for (phase, number) in NOT_OPEN {
        let not_open = station(phase, -1000, 10, &[]);
        let asked = |scan| market(not_open, scan, WINTER, Basis::Standard);
        assert_eq!(asked(wheat_scan(50.0, 30.28)), Err(11));
        assert_eq!(asked(wheat_scan(50.0, 30.29)), Err(number));
    }
    let rules = Rules::in_force();
    let on = |day, line| {
        let mut station = open_wheat(0);
        let answer = station.market(&rules, day, line, good, WINTER, Basis::Standard);
        answer.map(|certificate| (certificate.set_day, station.day))
    };
    assert_eq!(on(17, 0), Ok((10, 17)));
    assert_eq!(on(18, 0), Err(13));
    assert_eq!(on(9, 0), Err(2));
    assert_eq!(on(10, 1), Err(3));
}

/// Without gluten asked a scan with gluten serves as a wheat value.
#[test]
fn gluten_not_asked() {
    let open = open_wheat(12);
    for gluten in [34.0, NAN, -1.0] {
        for basis in [Basis::Standard, Basis::Dry, Basis::Unknown] {
            let asked = |scan| market(open, scan, Asked::LineFigure, basis);
            let plain = asked(Scan::Wheat(13.54_f32.to_bits()));
            assert_eq!(asked(wheat_scan(13.54, gluten)), plain);
        }
        let asked = |scan| market(open, scan, Asked::LineFigure, Basis::Standard);
        assert_eq!(asked(wheat_scan(NAN, gluten)), Err(9));
    }
}

/// On a corn station gluten is 8 on every line, whatever the scan.
#[test]
fn gluten_of_corn() {
    let rules = Rules::in_force();
    let percent = 34_f32.to_bits();
    let scans = [
        Scan::Corn([percent; 3]),
        Scan::Wheat(percent),
        Scan::WheatGluten(percent, percent),
        Scan::Fault,
    ];
    for scan in scans {
        for class in [WINTER, SPRING, OTHER_CLASS] {
            for basis in [Basis::Standard, Basis::Specified(1400), Basis::Unknown] {
                let on = |line| Station::fresh(1).market(&rules, 0, line, scan, class, basis);
                assert_eq!([0, 1, 2, 3].map(on), [8, 8, 8, 3].map(Err));
            }
        }
    }
}

/// Changes -10 and +21 derive 33 from their sum 11; derived apart they would sum up to 34.
#[test]
fn the_book_derives_from_the_sum() {
    let rules = Rules::in_force();
    let (mut station, mut book) = (Station::fresh(0), Book::new(0));
    for (s, change) in [(121, -10), (-252, 21), (0, 0)] {
        let numbers = wheat_sheet(s, station.lines[0].intercept as i32);
        let judged = station.sheet(&rules, 5, 0, &numbers).unwrap();
        assert_eq!(judged.outcome.change, change);
        assert_eq!(book.sheet(&rules, 5, 0, &numbers), Ok(judged.outcome));
    }
    let scan = wheat_scan(13.0, 34.02);
    let certificate = Certificate {
        set_day: 5,
        intercept: 33,
        basis: 1400,
        corrected: 344,
        at_basis: 344,
    };
    let asked = station.market(&rules, 6, 0, scan, SPRING, Basis::Standard);
    assert_eq!(asked, Ok(certificate));
    let asked = book.market(&rules, 6, 0, scan, SPRING, Basis::Standard);
    assert_eq!(asked, Ok(certificate));
    // The day moved.
    let asked = book.market(&rules, 5, 0, scan, SPRING, Basis::Standard);
    assert_eq!(asked, Err(2));
}

/// The numbers of a set with these results.
fn pairs(originals: &[i32], monitors: &[i32]) -> Vec<i32> {
    assert_eq!(originals.len(), monitors.len());
    let pairs = originals.iter().zip(monitors);
    pairs.flat_map(|(&one, &other)| [one, other]).collect()
}

fn plot(originals: &[i32], monitors: &[i32]) -> i64 {
    ChartSet::of(&pairs(originals, monitors)).plot
}

/// The values of the last of these sets, on a fresh wheat chart.
fn last_of(sets: &[Vec<i32>]) -> ChartValues {
    let (rules, mut chart) = (Rules::in_force(), Chart::fresh(0));
    let mut charted =
        |(week, numbers): (u32, &Vec<i32>)| chart.set(&rules, week, numbers, &mut [0; 40]).unwrap();
    (1..).zip(sets).map(&mut charted).last().unwrap()
}

/// The values of the last set of five pairs each, every monitor result 1000, whose differences have
/// these sums.
fn last(sums: &[i32]) -> ChartValues {
    let set = |sum: &i32| pairs(&[1000 + sum, 1000, 1000, 1000, 1000], &[1000; 5]);
    last_of(&sums.iter().map(set).collect::<Vec<_>>())
}

#[test]
fn charts() {
    assert_eq!([98, 97].map(|sum| last(&[sum]).plot), [20, 19]);
    assert_eq!([-98, -97].map(|sum| last(&[sum]).plot), [-20, -19]);
    assert!(last(&[98]).absolute && last(&[-98]).absolute);
    assert!(!last(&[97]).absolute && !last(&[-97]).absolute);
    assert_eq!([75, 73, 72].map(|sum| last(&[sum]).plot), [15, 15, 14]);
    assert!(last(&[75, 75]).tolerance && last(&[-75, -75]).tolerance);
    assert!(last(&[75, 73]).tolerance && last(&[73, 75]).tolerance);
    assert!(!last(&[75, -75]).tolerance && !last(&[75, 72]).tolerance);
    assert!(!last(&[72, 75]).tolerance && !last(&[75]).tolerance);
    assert!(last(&[60, 60]).range_absolute && !last(&[59]).range_absolute);
    assert!(last(&[40, 40]).range_tolerance && !last(&[40, 39]).range_tolerance);
}

#[test]
fn runs() {
    assert_eq!([53, 52, 0, 2].map(|sum| last(&[sum]).plot), [11, 10, 0, 0]);
    assert!(last(&[53, 53, 53, 53]).run && last(&[-53, -53, -53, -53]).run);
    assert!(!last(&[52, 52, 52, 52]).run && !last(&[-52, -52, -52, -52]).run);
    assert!(!last(&[53, 53, 53]).run);
    // The mean of four isn't rounded: 11, 10, 10 and 10 are a run wherever the 11 stands.
    for place in 0..4 {
        let mut sums = [52; 4];
        sums[place] = 53;
        assert!(last(&sums).run && last(&sums.map(|sum| -sum)).run);
    }
    // As little as a hundredth less elsewhere, and there is none.
    assert!(!last(&[53, 52, 45, 52]).run);
    assert!(last(&[53, 53, -9, 53, 53]).run && last(&[-9, 53, 53, 53, 53]).run);
    assert!(!last(&[53, 53, 0, 0, 53]).run && !last(&[53, 53, 53, 53, 0]).run);
    // Any choice suffices: of four previous, the three largest.
    assert_eq!([60, 6, 45].map(|sum| last(&[sum]).plot), [12, 1, 9]);
    assert!(last(&[60, 53, 53, 6, 45]).run);
    assert!(!last(&[53, 53, 6, 45]).run && !last(&[60, 53, 6, 45]).run);
}

/// A set that plots 0 lies on no side, whatever its sum: with three plots of 20 it is no run.
#[test]
fn a_plot_of_zero_is_on_no_side() {
    for sum in [2, -2, 0] {
        assert_eq!(last(&[sum]).plot, 0);
        for place in 0..4 {
            let mut sums = [100; 4];
            sums[place] = sum;
            assert!(!last(&sums).run && !last(&sums.map(|sum| -sum)).run);
        }
        // It is left out where three others go with this set.
        assert!(last(&[100, sum, 100, 100, 100]).run);
        assert!(!last(&[100, sum, 100, sum, 100]).run);
        assert!(!last(&[100, 100, 100, 100, sum]).run);
    }
    // 3 plots 1.
    assert!(last(&[100, 100, 100, 3]).run);
}

/// Each mean is rounded by itself, halves up.
#[test]
fn plots() {
    let one = |original, monitor| plot(&[original], &[monitor]);
    assert_eq!((one(1012, 1000), one(1000, 1012)), (12, -12));
    assert_eq!((one(10_000, 0), one(0, 10_000)), (10_000, -10_000));
    // Not symmetric: 1019.5 goes up to 1020, and 980.5 up to 981.
    assert_eq!(plot(&[1039, 1000], &[1000; 2]), 20);
    assert_eq!(plot(&[961, 1000], &[1000; 2]), -19);
    // A half of the original mean, of the monitor mean, and of both. Of the second the mean of the
    // differences, -0.5, would be rounded to 0.
    assert_eq!(plot(&[1000, 1001], &[1000; 2]), 1);
    assert_eq!(plot(&[1000; 2], &[1000, 1001]), -1);
    assert_eq!(plot(&[1000, 1001], &[1000, 1001]), 0);
    assert_eq!(plot(&[1001, 1002], &[1000; 2]), 2);
    assert_eq!(plot(&[1000, 1001, 1000, 1001], &[1000; 4]), 1);
    assert_eq!(plot(&[1000; 4], &[1003, 1000, 1002, 1001]), -2);
    assert_eq!(plot(&[1000, 1001, 1000, 1000], &[1000; 4]), 0);
    assert_eq!(plot(&[1000, 1001, 1001, 1001], &[1000; 4]), 1);
    // 1000.33 and 1000.67, 1000.4 and 1000.6: the mean of the differences would be rounded to 0.
    for count in [3, 5] {
        let (less, more) = (
            spread(1000 * count + count / 2, count),
            spread(1000 * count + count / 2 + 1, count),
        );
        assert_eq!((plot(&less, &more), plot(&more, &less)), (-1, 1));
    }
    // 9999.6 plots 10000.
    assert_eq!(plot(&[10_000; 5], &[0, 2, 0, 0, 0]), 10_000);
    assert_eq!(plot(&[1, 0, 0, 1, 0], &[10_000; 5]), -10_000);
}

/// `count` results with this sum.
fn spread(sum: i32, count: i32) -> Vec<i32> {
    let result = |place| sum / count + i32::from(place < sum % count);
    (0..count).map(result).collect()
}

/// For any means: each of the two is the nearest hundredth, of two as near the larger, and the plot
/// lies less than a hundredth from the mean of the differences. So it is never on the other side of
/// zero, and where that mean reaches a limit the plot does too.
#[test]
fn every_mean_is_rounded() {
    for count in 1..=5 {
        let over = 3 * count;
        let off = |mean: i64, sum: i32| mean * i64::from(count) - i64::from(sum);
        let half = 1 - i64::from(count)..=i64::from(count);
        for sum in 0..=over {
            let (results, zeros) = (spread(sum, count), spread(0, count));
            assert!(half.contains(&(2 * off(plot(&results, &zeros), sum))));
            assert!(half.contains(&(2 * off(-plot(&zeros, &results), sum))));
            for other in 0..=over {
                let apart = off(plot(&results, &spread(other, count)), sum - other);
                assert!(apart.abs() < count.into(), "{sum} {other} {count}");
            }
        }
    }
}

/// A held plot's magnitude is at most 10000, whatever the count.
#[test]
fn stored_charts() {
    let rules = Rules::in_force();
    let answer = |count, plot| {
        let mut chart = Chart::fresh(0);
        chart.hold(
            1,
            ChartSet {
                count,
                plot,
                range: 0,
            },
        );
        let mut buffer = [0; 40];
        chart
            .set(&rules, 2, &[1000, 1000], &mut buffer)
            .map(|values| values.plot)
    };
    for count in 1..=5 {
        for plot in [10_000, -10_000] {
            assert_eq!(answer(count, plot), Ok(0));
            assert_eq!(answer(count, plot + plot.signum()), Err(0));
            assert_eq!(answer(count, 5 * plot), Err(0));
        }
    }
    for count in [-1, 0, 6] {
        assert_eq!(answer(count, 0), Err(0));
    }
}

#[test]
fn chart_refusals() {
    let rules = Rules::in_force();
    let mut chart = Chart::fresh(3);
    chart.last_week = 7;
    let mut set = |week, numbers: &[i32], bytes: usize| {
        let mut buffer = vec![b'#'; bytes];
        let answer = chart.set(&rules, week, numbers, &mut buffer);
        assert!(answer.is_ok() || buffer.iter().all(|&byte| byte == b'#'));
        answer.map(|values| values.length)
    };
    assert_eq!(set(7, &[], 0), Err(19));
    assert_eq!(set(10_000, &[], 0), Err(19));
    assert_eq!(set(8, &[], 0), Err(20));
    assert_eq!(set(8, &[-1], 0), Err(20));
    assert_eq!(set(8, &[1; 12], 0), Err(20));
    assert_eq!(set(8, &[1, 10_001], 0), Err(21));
    assert_eq!(set(8, &[-1, 1], 0), Err(21));
    assert_eq!(set(8, &[1, 1], 39), Err(22));
    assert_eq!(set(8, &[1, 1], 40), Ok("8 1 0 0 0 0 0 0 0\n".len()));
    let (fresh, refused) = Chart::open(&rules, 4);
    assert_eq!((fresh, refused), (Chart::fresh(0), Err(1)));
    chart.sets[0].count = 6;
    assert_eq!(chart.set(&rules, 9, &[], &mut []), Err(0));
}

fn printed(text: &str) -> String {
    String::from_utf8(program(&Rules::in_force(), text.as_bytes())).unwrap()
}

#[test]
fn week_26() {
    let text = "week sample original monitor\n\
        26 1 1315 1307\n26 2 1018 1054\n26 3 1447 1479\n26 4 1256 1223\n26 5 1857 1877\n";
    let output = "week n plot range al tl run ral rtl\n26 5 -9 69 0 0 0 1 0\n";
    assert_eq!(printed(text), output);
    assert_eq!(printed(NAMES), OUT_NAMES);
}

#[test]
fn refused_texts() {
    let lines = |lines: &str| printed(&format!("{NAMES}{lines}"));
    assert_eq!(printed(""), "refused 16 1\n");
    assert_eq!(printed("week sample original monitor"), "refused 16 1\n");
    assert_eq!(printed("week sample original monitor \n"), "refused 16 1\n");
    assert_eq!(lines("1 1 0 0"), "refused 17 2\n");
    assert_eq!(lines("1 1 0 0\n\n"), "refused 17 3\n");
    assert_eq!(lines("1 1 00 0\n"), "refused 17 2\n");
    assert_eq!(lines("1 1  0 0\n"), "refused 17 2\n");
    assert_eq!(lines("1 1 0 0\r\n"), "refused 17 2\n");
    assert_eq!(lines("1 1 100000 0\n"), "refused 17 2\n");
    assert_eq!(lines("1 1 99999 0\n"), "refused 21 2\n");
    assert_eq!(lines("1 2 0 0\n"), "refused 18 2\n");
    assert_eq!(lines("1 1 0 0\n1 1 0 0\n"), "refused 18 3\n");
    assert_eq!(lines("0 1 0 0\n"), "refused 19 2\n");
    assert_eq!(lines("0 2 0 0\n"), "refused 18 2\n");
    assert_eq!(lines("10000 1 0 0\n"), "refused 19 2\n");
    assert_eq!(lines("2 1 0 0\n1 1 0 0\n"), "refused 19 3\n");
    let six = "3 1 0 0\n3 2 0 0\n3 3 0 0\n3 4 0 0\n3 5 0 0\n3 6 0 0\n";
    assert_eq!(lines(six), "refused 18 7\n");
    assert_eq!(lines("1 1 10001 0\n"), "refused 21 2\n");
    assert_eq!(printed(&"x".repeat(65_537)), "refused 15 0\n");
    assert_eq!(printed(&"x".repeat(65_536)), "refused 16 1\n");
}

#[test]
fn a_text_needs_forty_bytes_a_line() {
    let rules = Rules::in_force();
    let text = format!("{NAMES}1 1 0 0\n2 1 0 0\n");
    let charted = |bytes: usize| {
        let answer = grain_model::text::chart_text(&rules, text.as_bytes(), &mut vec![0; bytes]);
        answer.map_err(|refusal| (refusal.number, refusal.line))
    };
    assert_eq!(charted(119), Err((22, 0)));
    assert_eq!(
        charted(120),
        Ok(OUT_NAMES.len() + 2 * "1 1 0 0 0 0 0 0 0\n".len())
    );
}

/// Old sets are ignored by the tests but still held, and the book says the same.
#[test]
fn the_book_agrees() {
    let rules = Rules::in_force();
    let mut book = Book::new(0);
    let mut station = Station::fresh(0);
    let entries = [
        (0, 100),
        (0, 40),
        (14, 60),
        (15, 60),
        (29, 50),
        (29, 50),
        (29, 100),
        (29, -60),
    ];
    for (day, s) in entries {
        let intercept = station.lines[0].intercept as i32;
        let numbers = wheat_sheet(s, intercept);
        let judged = station.sheet(&rules, day, 0, &numbers).unwrap();
        assert_eq!(book.sheet(&rules, day, 0, &numbers), Ok(judged.outcome));
        assert_eq!(book.intercept(0), station.lines[0].intercept);
        assert_eq!(book.phase(0), station.lines[0].phase());
        let (newest, nonzero) = (book.past(0), book.nonzero(0));
        let held = &station.lines[0];
        assert_eq!(newest[..newest.len().min(2)], *held.newest.sets());
        assert_eq!(nonzero[..nonzero.len().min(4)], *held.nonzero.sets());
    }
    assert_eq!(station.lines[0].phase(), LinePhase::Open);
}
