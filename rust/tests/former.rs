//! Stations stored in layouts 1 to 3: what is carried over, what is asked for besides, what is not taken up.

use grain::{
    Asked, Basis, LAYOUT, LinePhase, Outcome, PastSet, Phase, Refusal, RestoreError, Scan, Station,
};
use grain_model::{Book, Rules};

/// The places of a station in these layouts, of the day, and of a line's first.
const STATION: usize = 47;
const DAY: usize = 1;
const LINES: [usize; 3] = [2, 17, 32];

type Places = [i32; STATION];

/// The places as they were stored in this layout.
fn stored(layout: u32, places: &[i32]) -> Vec<u8> {
    let numbers = [&[layout as i32], places].concat();
    numbers
        .iter()
        .flat_map(|number| number.to_le_bytes())
        .collect()
}

/// A station of this row and day whose lines are new.
fn fresh(row: i32, day: i32) -> Places {
    let mut places = [0; STATION];
    places[..2].copy_from_slice(&[row, day]);
    places
}

fn set(day: i32, sum: i32) -> PastSet {
    PastSet { day, sum, count: 8 }
}

/// Writes a line that is open with these sets, newest first.
fn open(places: &mut Places, line: usize, intercept: i32, past: &[PastSet]) {
    write(places, line, [intercept, 1], past);
}

fn write(places: &mut Places, line: usize, head: [i32; 2], past: &[PastSet]) {
    let places = &mut places[LINES[line]..][..15];
    places[..3].copy_from_slice(&[head[0], head[1], past.len() as i32]);
    for (place, set) in places[3..].chunks_exact_mut(3).zip(past) {
        place.copy_from_slice(&[set.day, set.sum, set.count]);
    }
}

const NONE: [&[PastSet]; 3] = [&[]; 3];

/// By each call that reads the layout; all answer the same where nothing is left open.
fn read(layout: u32, places: &Places) -> Result<Station, RestoreError> {
    let bytes = stored(layout, places);
    if layout == 1 {
        return Station::from_layout_1(&bytes, [false; 3], NONE);
    }
    let answer = Station::from_bytes(&bytes);
    assert_eq!(Station::from_layout_3(&bytes, NONE), answer);
    answer
}

/// The newest two sets are the newest, and those that aren't zero the non-zero ones.
#[test]
fn what_is_carried_over() {
    let mut places = fresh(1, 40);
    open(&mut places, 0, -7, &[set(40, 5), set(39, 0), set(8, -5)]);
    open(&mut places, 1, 1000, &[set(0, 0)]);
    let past = [set(40, 1), set(30, 2), set(20, 3), set(10, 4)];
    open(&mut places, 2, 0, &past);
    for layout in [1, 2, 3] {
        let station = read(layout, &places).unwrap();
        assert_eq!((station.row(), station.day()), (1, 40));
        let [protein, oil, starch] = [0, 1, 2].map(|line| station.line(line).unwrap());
        assert_eq!((protein.intercept, protein.phase), (-7, LinePhase::Open));
        assert_eq!(protein.newest, [set(40, 5), set(39, 0)]);
        assert_eq!(protein.nonzero, [set(40, 5), set(8, -5)]);
        assert_eq!((oil.intercept, oil.newest), (1000, vec![set(0, 0)]));
        assert_eq!(oil.nonzero, []);
        assert_eq!(
            (starch.newest, starch.nonzero),
            (past[..2].to_vec(), past.to_vec())
        );
        // Stored now it is of this layout.
        let again = Station::from_bytes(&station.to_bytes());
        assert_eq!(again, Ok(station));
    }
}

/// What isn't in use is 0, whatever stood there; so is a line that the row lacks.
#[test]
fn spare_places_are_blank() {
    let mut places = fresh(0, 40);
    places[2..].fill(i32::MIN);
    write(&mut places, 0, [3, 1], &[set(40, 0)]);
    let mut expected = [0; 68];
    expected[1..8].copy_from_slice(&[40, 3, 1, 1, 40, 0, 8]);
    for layout in [1, 2, 3] {
        let station = read(layout, &places).unwrap();
        assert_eq!(station.places(), expected);
    }
}

/// Phases stay; of layout 1 a 2 is an adjusted line or a shut one, by what is said of each.
#[test]
fn phases_are_carried_over() {
    for phases in [[0, 2, 2], [2, 0, 2], [2, 2, 0], [2, 2, 2], [3, 2, 0]] {
        let mut places = fresh(1, 9);
        for (line, phase) in phases.into_iter().enumerate() {
            write(&mut places, line, [line as i32, phase], &[]);
        }
        let held = |station: &Station| {
            LINES.map(|first| first / 15).map(|line| {
                let line = station.line(line).unwrap();
                (line.intercept, line.phase)
            })
        };
        let name = |phase: i32, shut: bool| match phase {
            0 => LinePhase::New,
            2 if !shut => LinePhase::Adjusted,
            _ => LinePhase::Shut,
        };
        let expected =
            |shut: [bool; 3]| [0, 1, 2].map(|line| (line as i32, name(phases[line], shut[line])));
        for layout in [2, 3] {
            let station = read(layout, &places).unwrap();
            assert_eq!(held(&station), expected([false; 3]));
        }
        for shut in 0..8 {
            let shut = [shut & 1, shut & 2, shut & 4].map(|bit| bit != 0);
            let station = Station::from_layout_1(&stored(1, &places), shut, NONE);
            // Layout 1 has no phase 3.
            match phases.contains(&3) {
                true => assert_eq!(station, Err(RestoreError::Unsound { found: 1 })),
                false => assert_eq!(held(&station.unwrap()), expected(shut)),
            }
        }
    }
}

/// A station of layout 1 goes on, and its lines tell what they are told to have been.
#[test]
fn a_station_of_layout_1_goes_on() {
    let mut places = fresh(1, 5);
    write(&mut places, 0, [0, 2], &[]);
    write(&mut places, 1, [0, 2], &[]);
    let bytes = stored(1, &places);
    let mut station = Station::from_layout_1(&bytes, [false, true, true], NONE).unwrap();
    let scan = Scan::Corn {
        protein: 8.5,
        oil: 4.1,
        starch: 71.2,
    };
    let mut refused = |line| {
        let answer = station.market(5, line, scan, Asked::LineFigure, Basis::Standard);
        answer.unwrap_err()
    };
    assert_eq!(refused(0), Refusal::AdjustedLine);
    assert_eq!(refused(1), Refusal::ShutLine);
    assert_eq!(refused(2), Refusal::NewLine);
}

/// A corn station whose lines are open, line 1 with sets of these days and sums.
fn corn(day: i32, past: &[(i32, i32)]) -> Places {
    let mut places = fresh(1, day);
    let past: Vec<PastSet> = past.iter().map(|&(day, sum)| set(day, sum)).collect();
    open(&mut places, 0, 0, &[set(0, 9)]);
    open(&mut places, 1, 0, &past);
    open(&mut places, 2, 0, &[set(0, 0)]);
    places
}

/// Four held, one of them zero, the oldest at most 14 days old: sets before them may still count.
#[test]
fn which_lines_leave_sets_open() {
    let open = Err(RestoreError::OlderSets { line: 1 });
    let says_all = |day, past: &[_]| {
        let bytes = stored(3, &corn(day, past));
        let answer = Station::from_bytes(&bytes);
        assert!(answer.is_ok() || answer == open, "{answer:?}");
        // Stored in layout 2 it says as much.
        assert_eq!(Station::from_bytes(&stored(2, &corn(day, past))), answer);
        // The other call takes it up whatever it leaves open.
        assert!(Station::from_layout_3(&bytes, NONE).is_ok());
        answer.is_ok()
    };
    let zero_at = |place: usize| {
        let mut past = [(20, 5), (20, 5), (19, 5), (15, 5)];
        past[place].1 = 0;
        past
    };
    for place in 0..4 {
        let past = zero_at(place);
        assert!(!says_all(20, &past) && !says_all(29, &past));
        assert!(says_all(30, &past) && says_all(99_999, &past));
        assert!(says_all(20, &past[..3]));
    }
    assert!(says_all(20, &[(20, 5), (20, -5), (19, 5), (15, 5)]));
    assert!(!says_all(20, &[(20, 0), (20, 0), (19, 0), (15, 0)]));
    assert!(!says_all(14, &[(14, 0), (14, 0), (14, 0), (0, 0)]));
    // The first line that leaves sets open is named; one that the row lacks never is.
    let mut places = fresh(1, 20);
    let past = [set(20, 0); 4];
    for line in [2, 1, 0] {
        open_with(&mut places, line, &past);
        let answer = Station::from_bytes(&stored(3, &places));
        assert_eq!(answer, Err(RestoreError::OlderSets { line }));
    }
    let mut wheat = fresh(0, 20);
    open_with(&mut wheat, 1, &past);
    open_with(&mut wheat, 2, &past);
    assert!(Station::from_bytes(&stored(3, &wheat)).is_ok());
}

fn open_with(places: &mut Places, line: usize, past: &[PastSet]) {
    open(places, line, 0, past);
}

/// What isn't looked at may be anything.
const ODD: PastSet = PastSet {
    day: -1,
    sum: i32::MIN,
    count: 0,
};

/// Of the older sets those that aren't zero are taken, as far as there is room.
#[test]
fn older_sets_are_taken() {
    let places = corn(20, &[(20, 5), (19, 0), (18, -6), (17, 0)]);
    let nonzero = |older: &[PastSet]| {
        let older = [&[][..], older, &[]];
        let third = Station::from_layout_3(&stored(3, &places), older);
        let second = Station::from_layout_3(&stored(2, &places), older);
        let first = Station::from_layout_1(&stored(1, &places), [true; 3], older);
        assert_eq!((&first, &second), (&third, &third));
        let line = third.unwrap().line(1).unwrap();
        assert_eq!(line.newest, [set(20, 5), set(19, 0)]);
        assert_eq!(line.nonzero[..2], [set(20, 5), set(18, -6)]);
        line.nonzero[2..].to_vec()
    };
    assert_eq!(nonzero(&[]), []);
    assert_eq!(nonzero(&[set(17, 7)]), [set(17, 7)]);
    assert_eq!(nonzero(&[set(17, 0)]), []);
    let older = [set(17, 0), set(16, 7), set(16, 0), set(3, 8), set(2, 9)];
    assert_eq!(nonzero(&older), [set(16, 7), set(3, 8)]);
    // Sets too old to count are taken like any other, as a line holds them.
    assert_eq!(nonzero(&[set(0, 7)]), [set(0, 7)]);
    // Those beyond the room and zero ones are not looked at.
    let zero = PastSet { sum: 0, ..ODD };
    let older = [zero, set(17, 7), set(17, 8), ODD];
    assert_eq!(nonzero(&older), [set(17, 7), set(17, 8)]);
}

/// What is given for a line that leaves nothing open is not looked at.
#[test]
fn older_sets_that_are_not_asked_for() {
    let bytes = stored(3, &corn(20, &[(20, 5), (19, 0), (18, -6)]));
    let given = Station::from_layout_3(&bytes, [&[ODD]; 3]);
    assert_eq!(given, Station::from_bytes(&bytes));
    assert!(given.is_ok());
}

/// Older sets that can't stand before the four.
#[test]
fn wrong_older_sets() {
    let places = corn(20, &[(20, 5), (19, 0), (18, -6), (17, 0)]);
    let wrong = |older: &[PastSet]| {
        let answer = Station::from_layout_3(&stored(3, &places), [&[], older, &[]]);
        let first = Station::from_layout_1(&stored(1, &places), [false; 3], [&[], older, &[]]);
        assert_eq!(first, answer);
        match answer {
            Ok(mut station) => {
                assert_eq!(station.repair(20), Ok(()));
                false
            }
            Err(error) => {
                assert_eq!(error, RestoreError::WrongOlderSets { line: 1 });
                true
            }
        }
    };
    // Corn: four samples.
    let with = |sum, count| PastSet {
        day: 17,
        sum,
        count,
    };
    assert!(!wrong(&[with(88_000, 8)]) && !wrong(&[with(-22_000, 2)]));
    assert!(wrong(&[with(88_001, 8)]) && wrong(&[with(i32::MIN, 2)]));
    for count in [i32::MIN, -2, 0, 1, 7, 10, i32::MAX] {
        assert!(wrong(&[with(5, count)]), "{count}");
    }
    assert!(!wrong(&[set(17, 1), set(17, 1)]) && !wrong(&[set(0, 1)]));
    assert!(wrong(&[set(18, 1)]) && wrong(&[set(16, 1), set(17, 1)]));
    assert!(wrong(&[set(-1, 1)]) && wrong(&[set(i32::MIN, 1)]));
}

/// Places of a corn station whose line 1 is open with four sets, numbers that may stand there, and numbers
/// that may not.
const EDGES: &[(usize, &[i32], &[i32])] = &[
    (0, &[1], &[-1, 2, i32::MIN, i32::MAX]),
    (DAY, &[20, 99_999], &[19, -1, 100_000, i32::MIN, i32::MAX]),
    (17, &[-1000, 1000], &[-1001, 1001, i32::MIN, i32::MAX]),
    (18, &[1], &[-1, 0, 2, 3, 4, i32::MIN, i32::MAX]),
    (19, &[1, 2, 3, 4], &[-1, 0, 5, i32::MIN, i32::MAX]),
    // The newest set's day, S and N.
    (20, &[19, 20], &[18, 21, i32::MIN, i32::MAX]),
    (
        21,
        &[-88_000, 88_000],
        &[-88_001, i32::MIN, 88_001, i32::MAX],
    ),
    (22, &[2, 4, 6, 8], &[-2, 0, 1, 7, 9, 10, i32::MIN, i32::MAX]),
    // The oldest set's.
    (29, &[0, 18], &[-1, 19, i32::MIN, i32::MAX]),
    (
        30,
        &[-88_000, 88_000],
        &[-88_001, i32::MIN, 88_001, i32::MAX],
    ),
    (31, &[2, 4, 6, 8], &[-2, 0, 1, 7, 9, 10, i32::MIN, i32::MAX]),
];

/// What number 0 refused then is not taken up, in any layout and by any call.
#[test]
fn unsound_stations_are_not_carried_over() {
    for layout in [1, 2, 3] {
        for (place, good, bad) in EDGES {
            let with = |number| {
                let mut places = corn(20, &[(20, 5), (19, 4), (18, 3), (17, 2)]);
                places[*place] = number;
                read(layout, &places)
            };
            for &number in *good {
                let mut station = with(number).unwrap();
                assert_eq!(station.repair(99_999), Ok(()), "{place}: {number}");
            }
            for &number in *bad {
                let unsound = RestoreError::Unsound { found: layout };
                assert_eq!(with(number), Err(unsound), "{place}: {number}");
            }
        }
    }
}

/// N is at most twice the samples of the row's sheets: six of wheat, four of corn.
#[test]
fn samples_of_each_row() {
    for (row, most) in [(0, 12), (1, 8)] {
        for count in [most, most + 2] {
            let mut places = fresh(row, 20);
            open(
                &mut places,
                0,
                0,
                &[PastSet {
                    count,
                    ..set(20, 5)
                }],
            );
            assert_eq!(read(3, &places).is_ok(), count == most, "{row} {count}");
        }
    }
}

/// A line that isn't open holds no set.
#[test]
fn sets_of_other_phases_are_unsound() {
    for layout in [1, 2, 3] {
        for phase in [0, 2, 3] {
            let mut places = fresh(0, 20);
            write(&mut places, 0, [0, phase], &[]);
            assert_eq!(read(layout, &places).is_ok(), layout > 1 || phase < 3);
            write(&mut places, 0, [0, phase], &[set(20, 0)]);
            let unsound = RestoreError::Unsound { found: layout };
            assert_eq!(read(layout, &places), Err(unsound));
        }
    }
    // Damage is told before a line that leaves sets open, and whatever older sets are given.
    let mut places = corn(20, &[(20, 0), (20, 0), (20, 0), (20, 0)]);
    places[LINES[2]] = 1001;
    let unsound = Err(RestoreError::Unsound { found: 3 });
    assert_eq!(read(3, &places), unsound);
    let older = [set(21, 1)];
    let given = Station::from_layout_3(&stored(3, &places), [&older; 3]);
    assert_eq!(given, unsound);
}

/// A set with S 0 is left out where it is the third or fourth; damaged, it is told all the same.
#[test]
fn damage_of_a_set_that_is_left_out() {
    let mut places = corn(40, &[(20, 5), (19, 4), (18, 0), (17, 0)]);
    assert!(read(3, &places).is_ok());
    places[LINES[1] + 14] = 7;
    let unsound = RestoreError::Unsound { found: 3 };
    assert_eq!(read(3, &places), Err(unsound));
}

#[test]
fn other_bytes_are_not_carried_over() {
    let places = fresh(0, 0);
    let first = |bytes: &[u8]| Station::from_layout_1(bytes, [false; 3], NONE);
    let third = |bytes: &[u8]| Station::from_layout_3(bytes, NONE);
    for few in [0, 3, 4, 191, 193, 276] {
        let length = RestoreError::Length {
            found: few,
            needed: 192,
        };
        let cut = |layout| {
            let mut bytes = stored(layout, &places);
            bytes.resize(few, 0);
            bytes
        };
        assert_eq!(first(&cut(1)), Err(length));
        assert_eq!(third(&cut(2)), Err(length));
        assert_eq!(third(&cut(3)), Err(length));
        if few > 3 {
            assert_eq!(Station::from_bytes(&cut(2)), Err(length));
            assert_eq!(Station::from_bytes(&cut(3)), Err(length));
        }
    }
    for found in [0, 1, 2, 3, LAYOUT, LAYOUT + 1, u32::MAX] {
        let bytes = stored(found, &places);
        let layout = Err(RestoreError::Layout { found });
        if found != 1 {
            assert_eq!(first(&bytes), layout);
        }
        if found != 2 && found != 3 {
            assert_eq!(third(&bytes), layout);
        }
    }
}

/// Each message is true of the call that gives it, and says what to do.
#[test]
fn messages() {
    let says = |error: RestoreError, parts: &[&str]| {
        let text = error.to_string();
        for part in parts {
            assert!(text.contains(part), "{part}: {text}");
        }
    };
    let layout = |found| RestoreError::Layout { found };
    says(layout(1), &["layout 1", "`Station::from_layout_1`"]);
    for found in [2, 3] {
        let name = format!("layout {found}");
        let calls = ["`Station::from_bytes`", "`Station::from_layout_3`"];
        says(layout(found), &[&name, calls[0], calls[1]]);
    }
    let nothing = "nothing is to be carried over";
    says(
        layout(LAYOUT),
        &["layout 4", "`Station::from_bytes`", nothing],
    );
    let older = RestoreError::OlderSets { line: 2 };
    let missing = "earlier sheets, which it doesn't hold, may still count for the test of five";
    says(older, &["line 2", missing, "`Station::from_layout_3`"]);
    let wrong = RestoreError::WrongOlderSets { line: 1 };
    says(wrong, &["line 1", "older sets", "days never rise"]);
    let unsound = RestoreError::Unsound { found: 2 };
    says(unsound, &["layout 2", "damaged", "restore it from a copy"]);
}

/// The next of a row of random numbers (a linear congruence), below `end`.
fn draw(random: &mut u64, end: usize) -> usize {
    *random = random
        .wrapping_mul(6_364_136_223_846_793_005)
        .wrapping_add(1_442_695_040_888_963_407);
    (*random >> 33) as usize % end
}

/// A station and its book, which keeps all past sets.
struct Kept {
    rules: Rules,
    row: i32,
    station: Station,
    book: Book,
}

impl Kept {
    /// Enters a sheet whose S is `sum` with the intercept of now.
    fn sheet(&mut self, day: u32, line: usize, sum: i32) -> Outcome {
        let numbers = self.numbers(line, sum);
        let outcome = self.station.sheet(day, line as u64, &numbers).unwrap();
        let told = self.book.sheet(&self.rules, day, line as u64, &numbers);
        assert_eq!(told.unwrap().s, i64::from(outcome.sum));
        outcome
    }

    fn numbers(&self, line: usize, sum: i32) -> Vec<i32> {
        let samples = if self.row == 0 { 6 } else { 4 };
        let intercept = self.station.line(line).unwrap().intercept;
        let sample = |place| {
            let more = i32::from(place < sum.rem_euclid(samples));
            let results = 4000 + sum.div_euclid(samples) + more - 2 * intercept;
            let first = results.div_euclid(2);
            [2000, first, results - first, -1, -1, -1]
        };
        (0..samples).flat_map(sample).collect()
    }

    /// All past sets of a line, newest first.
    fn past(&self, line: usize) -> Vec<PastSet> {
        let set = |set: &grain_model::PastSet| PastSet {
            day: set.day as i32,
            sum: set.s as i32,
            count: set.n as i32,
        };
        self.book.past(line).iter().map(set).collect()
    }

    /// The station as layout 3 would have it.
    fn former(&self) -> Places {
        let mut places = fresh(self.row, self.station.day());
        for line in 0..3 {
            let held = self.station.line(line).unwrap();
            let past = self.past(line);
            let head = [held.intercept, held.phase as i32];
            write(&mut places, line, head, &past[..past.len().min(4)]);
        }
        places
    }

    /// With the older sets the station is carried over as it is, but for sets that no longer count; without
    /// them where the former one says all. Whether it does, and whether such sets are missing.
    fn compare(&self) -> [bool; 2] {
        let former = self.former();
        let past = [0, 1, 2].map(|line| self.past(line));
        let older = [0, 1, 2].map(|line| past[line].get(4..).unwrap_or_default());
        let carried = Station::from_layout_3(&stored(3, &former), older).unwrap();
        assert!(same_but_for_old(&self.station, &carried));
        let (mut first, mut shut) = (former, [false; 3]);
        for line in 0..3 {
            let phase = &mut first[LINES[line] + 1];
            shut[line] = *phase == 3;
            *phase = (*phase).min(2);
        }
        let carried_first = Station::from_layout_1(&stored(1, &first), shut, older);
        assert_eq!(carried_first.as_ref(), Ok(&carried));
        match Station::from_bytes(&stored(3, &former)) {
            Ok(told) => {
                assert_eq!(told, carried);
                [true, told != self.station]
            }
            Err(error) => {
                let open = |past: &Vec<PastSet>| {
                    let four = past.get(..4).unwrap_or_default();
                    let zero = four.iter().any(|set| set.sum == 0);
                    zero && self.station.day() - four[3].day <= 14
                };
                let line = past.iter().position(open).unwrap();
                assert_eq!(error, RestoreError::OlderSets { line });
                assert_eq!(carried.line(line), self.station.line(line));
                [false, carried != self.station]
            }
        }
    }
}

/// The same station but for sets more than 14 days old that aren't the newest.
fn same_but_for_old(station: &Station, carried: &Station) -> bool {
    let counting = |station: &Station| {
        [0, 1, 2].map(|line| {
            let mut line = station.line(line).unwrap();
            line.nonzero.retain(|set| station.day() - set.day <= 14);
            line
        })
    };
    let head = |station: &Station| (station.row(), station.day());
    head(station) == head(carried) && counting(station) == counting(carried)
}

/// Calls of many days on a station of this row, with many zero sets.
fn any_calls(random: &mut u64, row: i32, calls: usize) -> Kept {
    let station = Station::open(row as u64).unwrap();
    let (rules, book) = (Rules::in_force(), Book::new(row.into()));
    let mut kept = Kept {
        rules,
        row,
        station,
        book,
    };
    let mut day = 0;
    for _ in 0..calls {
        day += [0, 0, 0, 0, 1, 1, 2, 6][draw(random, 8)];
        let line = draw(random, if row == 0 { 1 } else { 3 });
        match draw(random, 30) {
            0 => {
                kept.station.repair(day).unwrap();
                kept.book.repair(&kept.rules, day).unwrap();
            }
            1 => {
                kept.sheet(day, line, 4000);
            }
            _ => {
                let sum = [0, 0, 0, 24, 30, 36, 37, 40, -1][draw(random, 9)];
                kept.sheet(day, line, sum);
            }
        }
    }
    kept
}

/// However a station came to be, the sets that layout 3 left out are asked for where they may count, and
/// with them it is the same.
#[test]
fn any_station_is_carried_over() {
    let mut random = 11;
    let mut met = [[0; 2]; 2];
    for round in 0..3000 {
        let kept = any_calls(&mut random, round % 2, round as usize % 41);
        let [says_all, differs] = kept.compare();
        met[usize::from(says_all)][usize::from(differs)] += 1;
    }
    // Left open or not, and then the same station or the same but for sets too old to count.
    let [[open, old_beside], [same, old]] = met;
    assert!(open > 300 && same > 300, "{met:?}");
    assert!(old_beside > 10 && old > 10, "{met:?}");
}

/// Without the older sets a test of five may be left out, but none is made that isn't due.
#[test]
fn without_the_older_sets() {
    let mut random = 5;
    let (mut left_out, mut alike) = (0, 0);
    for round in 0..3000 {
        let mut kept = any_calls(&mut random, round % 2, 6 + round as usize % 11);
        let mut carried = Station::from_layout_3(&stored(3, &kept.former()), NONE).unwrap();
        let day = kept.station.day() as u32;
        for _ in 0..6 {
            let sum = [0, 24, 30, 36, 37, 40][draw(&mut random, 6)];
            let told = carried.sheet(day, 0, &kept.numbers(0, sum)).unwrap();
            let right = kept.sheet(day, 0, sum);
            if told != right {
                assert_eq!((told.phase, right.phase), (Phase::Open, Phase::CheckDue));
                left_out += 1;
                break;
            }
            alike += 1;
        }
    }
    assert!(left_out > 50 && alike > 1000, "{left_out} {alike}");
}
