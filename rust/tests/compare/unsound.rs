//! Stations and charts handed in that no call has handed back: one thing wrong, or any numbers.

use grain_model::station::BLANK;
use grain_model::{Chart, ChartSet, Held, Line, LinePhase, PastSet, Station, chart};

use crate::charts;
use crate::encode::{self, ChartPlaces, StationPlaces};
use crate::lent::Difference;
use crate::lists;
use crate::met::Met;
use crate::rng::Rng;
use crate::stations::{Subject, Trial};

/// Numbers that stand beside some edge.
pub const EDGES: [i32; 37] = [
    i32::MIN,
    i32::MIN + 1,
    -132_001,
    -10_001,
    -10_000,
    -1001,
    -1000,
    -2,
    -1,
    0,
    1,
    2,
    3,
    4,
    5,
    6,
    8,
    9,
    10,
    11,
    12,
    13,
    14,
    999,
    1000,
    1001,
    9999,
    10_000,
    10_001,
    20_000,
    20_001,
    50_000,
    50_001,
    99_999,
    100_000,
    132_001,
    i32::MAX,
];

/// The phases that hold no set.
const NOT_OPEN: [LinePhase; 3] = [LinePhase::New, LinePhase::Adjusted, LinePhase::Shut];

/// How the sets of a sound line came to be.
#[derive(Clone, Copy)]
enum Sets {
    /// As sheets leave them.
    OfSheets,
    /// Of each kind by itself, so that the kinds mostly disagree.
    Apart,
    /// Four that aren't zero, valid and on one side of zero, and at most one newest set that is valid.
    FourAlone,
}

/// A sound station whose row's lines are mostly open, with sets of both kinds.
pub fn sound_station(rng: &mut Rng) -> Station {
    let sets = rng.pick(&[Sets::OfSheets, Sets::OfSheets, Sets::Apart, Sets::FourAlone]);
    station_with(rng, sets)
}

fn station_with(rng: &mut Rng, sets: Sets) -> Station {
    let row = rng.range(0, 1);
    let samples = if row == 0 { 6 } else { 4 };
    let mut station = Station::fresh(row);
    station.day = rng.pick(&[0, 1, 7, 14, 40, 40, 40, 99_990, 99_999]);
    let lines = if row == 0 { 1 } else { 3 };
    for line in &mut station.lines[..lines] {
        line.intercept = match rng.below(4) {
            // The bounds, and where the gluten intercept is rounded at a half.
            0 => rng.pick(&[-1000, -500, 500, 1000]),
            _ => rng.range(-1000, 1000),
        };
        if rng.chance(25) {
            line.phase = rng.pick(&NOT_OPEN).code();
            continue;
        }
        line.phase = LinePhase::Open.code();
        match sets {
            Sets::OfSheets => sets_of_sheets(rng, line, station.day, samples),
            Sets::Apart => sets_apart(rng, line, station.day, samples),
            Sets::FourAlone => four_alone(rng, line, station.day, samples),
        }
    }
    station
}

/// A sound set of this day. Mostly its average is small, or 0 where that may be.
fn a_set(rng: &mut Rng, day: i64, samples: i64, zero: bool) -> PastSet {
    let n = 2 * rng.range(1, samples);
    let s = match rng.below(20) {
        0 => rng.either_sign(11_000 * n),
        1..6 if zero => 0,
        _ => rng.range(1, 8 * n),
    };
    PastSet { day, s, n }
}

/// Two to seven sheets that met, mostly on one side of zero.
fn sets_of_sheets(rng: &mut Rng, line: &mut Line, last: i64, samples: i64) {
    let mut day = (last - 60).max(0);
    let side = rng.either_sign(1);
    for _ in 0..rng.range(2, 7) {
        day = match rng.chance(50) {
            true => last - rng.pick(&[0, 0, 1, 7, 8, 14, 15]),
            false => day,
        }
        .clamp(day, last);
        let mut set = a_set(rng, day, samples, true);
        set.s *= if rng.chance(80) { side } else { -side };
        line.join(set);
    }
}

/// Sets of the days of these ages, newest first; what `set` makes of each.
fn sets<const MOST: usize>(
    last: i64,
    mut ages: Vec<i64>,
    mut set: impl FnMut(i64) -> PastSet,
) -> Held<MOST> {
    let mut held = Held::NONE;
    ages.sort_unstable();
    for age in ages.iter().rev() {
        held.join(set((last - age).max(0)));
    }
    held
}

fn ages(rng: &mut Rng, count: i64, of: &[i64]) -> Vec<i64> {
    (0..count).map(|_| rng.pick(of)).collect()
}

/// One or two newest sets, none to four that aren't zero, and nothing that they have in common.
fn sets_apart(rng: &mut Rng, line: &mut Line, last: i64, samples: i64) {
    let of = [0, 0, 1, 7, 8, 14, 15, 40];
    let (newest, nonzero) = (rng.range(1, 2), rng.range(0, 4));
    let (newest, nonzero) = (ages(rng, newest, &of), ages(rng, nonzero, &of));
    let sign = |rng: &mut Rng| if rng.chance(50) { -1 } else { 1 };
    let mut any = |day, zero| {
        let mut set = a_set(rng, day, samples, zero);
        set.s *= sign(rng);
        set
    };
    line.newest = sets(last, newest, |day| any(day, true));
    line.nonzero = sets(last, nonzero, |day| any(day, false));
}

/// No newest set that is valid, or one, beside four valid ones that aren't zero.
fn four_alone(rng: &mut Rng, line: &mut Line, last: i64, samples: i64) {
    let newest = match rng.below(4) {
        0 => ages(rng, 1, &[0, 1, 14]),
        1 => ages(rng, 1, &[15, 40]),
        2 => ages(rng, 2, &[15, 40]),
        _ => [ages(rng, 1, &[0, 7, 14]), ages(rng, 1, &[15, 40])].concat(),
    };
    let nonzero = ages(rng, 4, &[0, 0, 1, 7, 8, 14]);
    let side = rng.either_sign(1);
    line.newest = sets(last, newest, |day| a_set(rng, day, samples, true));
    line.nonzero = sets(last, nonzero, |day| {
        let n = 2 * rng.range(1, samples);
        let s = side * rng.range(n, 6 * n);
        PastSet { day, s, n }
    });
}

/// What may be wrong with a state, and with which name it is counted.
type Wrong<T> = (&'static str, fn(&mut Rng, &mut T));

const WRONG_LINES: &[Wrong<Line>] = &[
    ("station: intercept out of bounds", |rng, line| {
        line.intercept = rng.pick(&[-1001, 1001, i32::MIN.into(), i32::MAX.into()]);
    }),
    ("station: phase 4, nothing held", |_, line| {
        line.phase = 4;
        line.empty();
    }),
    ("station: phase doesn't exist, nothing held", |rng, line| {
        line.phase = no_phase(rng);
        line.empty();
    }),
    ("station: phase doesn't exist, sets held", |rng, line| {
        *line = open_line(rng, 1, 1);
        line.phase = no_phase(rng);
    }),
    ("station: newest held negative", |rng, line| {
        *line = open_line(rng, 2, 4);
        line.newest.count = negative(rng);
    }),
    ("station: non-zero held negative", |rng, line| {
        *line = open_line(rng, 2, 4);
        line.nonzero.count = negative(rng);
    }),
    ("station: open without a set", |rng, line| {
        *line = open_line(rng, 0, 0);
    }),
    (
        "station: open without a newest set, non-zero ones held",
        |rng, line| {
            let nonzero = rng.range(1, 4);
            *line = open_line(rng, 0, nonzero);
        },
    ),
    ("station: newest set on a new line", |rng, line| {
        *line = newest_on(rng, LinePhase::New);
    }),
    ("station: newest set on an adjusted line", |rng, line| {
        *line = newest_on(rng, LinePhase::Adjusted);
    }),
    ("station: newest set on a shut line", |rng, line| {
        *line = newest_on(rng, LinePhase::Shut);
    }),
    ("station: non-zero set on a new line", |rng, line| {
        *line = nonzero_on(rng, LinePhase::New);
    }),
    ("station: non-zero set on an adjusted line", |rng, line| {
        *line = nonzero_on(rng, LinePhase::Adjusted);
    }),
    ("station: non-zero set on a shut line", |rng, line| {
        *line = nonzero_on(rng, LinePhase::Shut);
    }),
    ("station: three newest held", |rng, line| {
        *line = open_line(rng, 2, 4);
        line.newest.count = 3;
    }),
    ("station: more than three newest held", |rng, line| {
        *line = open_line(rng, 2, 4);
        line.newest.count = rng.pick(&[4, 1 << 16, 65_538, i32::MAX.into()]);
    }),
    ("station: five non-zero held", |rng, line| {
        *line = open_line(rng, 2, 4);
        line.nonzero.count = 5;
    }),
    ("station: more than five non-zero held", |rng, line| {
        *line = open_line(rng, 2, 4);
        line.nonzero.count = rng.pick(&[6, 1 << 16, 65_540, i32::MAX.into()]);
    }),
    ("station: a non-zero set with S 0", |rng, line| {
        let held = rng.range(1, 4);
        *line = open_line(rng, 2, held);
        line.nonzero.places[rng.below(held as usize)].s = 0;
    }),
];

/// What may be wrong with the sets of one kind, on a station of this day and row: by the name with which it
/// is counted of the newest ones, and of those that aren't zero. Two or more are held.
type WrongSets = (
    [&'static str; 2],
    fn(&mut Rng, sets: &mut [PastSet], day: i64, samples: i64),
);

const WRONG_SETS: &[WrongSets] = &[
    (
        [
            "station: newest set's day negative",
            "station: non-zero set's day negative",
        ],
        |rng, sets, _, _| sets[sets.len() - 1].day = rng.pick(&[-1, i32::MIN.into()]),
    ),
    (
        ["station: newest days rise", "station: non-zero days rise"],
        |rng, sets, _, _| sets[1 + rng.below(sets.len() - 1)].day = 1,
    ),
    (
        [
            "station: newest set after the station's day",
            "station: non-zero set after the station's day",
        ],
        |rng, sets, day, _| sets[0].day = rng.pick(&[day + 1, i32::MAX.into()]),
    ),
    (
        [
            "station: newest set's N negative",
            "station: non-zero set's N negative",
        ],
        |rng, sets, _, _| one_of(rng, sets).n = rng.pick(&[-1, -2, -12, i32::MIN.into()]),
    ),
    (
        [
            "station: newest set's N odd",
            "station: non-zero set's N odd",
        ],
        |rng, sets, _, samples| one_of(rng, sets).n = 2 * rng.range(1, samples) - 1,
    ),
    (
        [
            "station: newest set's N out of bounds",
            "station: non-zero set's N out of bounds",
        ],
        |rng, sets, _, samples| {
            let beyond = [0, 2 * samples + 2, 1 << 30, i64::from(i32::MAX) - 1];
            one_of(rng, sets).n = rng.pick(&beyond);
        },
    ),
    (
        [
            "station: newest set's S out of bounds",
            "station: non-zero set's S out of bounds",
        ],
        |rng, sets, _, _| {
            let set = one_of(rng, sets);
            let beyond = rng.pick(&[11_000 * set.n + 1, i32::MAX.into()]);
            set.s = rng.either_sign(beyond);
        },
    ),
];

fn one_of<'a>(rng: &mut Rng, sets: &'a mut [PastSet]) -> &'a mut PastSet {
    &mut sets[rng.below(sets.len())]
}

fn negative(rng: &mut Rng) -> i64 {
    rng.pick(&[-1, -4, i32::MIN.into(), i64::from(i32::MIN) + 1])
}

/// A number that stands for no phase.
fn no_phase(rng: &mut Rng) -> i64 {
    let near = [-1, -2, 4, 5, 255, 256];
    let far = [257, 258, 259, 65_537, i32::MIN.into(), i32::MAX.into()];
    let codes = rng.pick(&[near, far]);
    rng.pick(&codes)
}

/// A line of another phase that holds newest sets, or sets that aren't zero.
fn newest_on(rng: &mut Rng, phase: LinePhase) -> Line {
    let newest = rng.range(1, 2);
    Line {
        phase: phase.code(),
        ..open_line(rng, newest, 0)
    }
}

fn nonzero_on(rng: &mut Rng, phase: LinePhase) -> Line {
    let nonzero = rng.range(1, 4);
    Line {
        phase: phase.code(),
        ..open_line(rng, 0, nonzero)
    }
}

/// An open line with so many sound sets of day 0.
fn open_line(rng: &mut Rng, newest: i64, nonzero: i64) -> Line {
    let mut line = Line {
        intercept: rng.range(-1000, 1000),
        phase: LinePhase::Open.code(),
        ..Line::FRESH
    };
    let (newest, nonzero) = (vec![0; newest as usize], vec![0; nonzero as usize]);
    line.newest = sets(0, newest, |day| PastSet {
        day,
        s: 0,
        n: 2 * rng.range(1, 4),
    });
    line.nonzero = sets(0, nonzero, |day| PastSet {
        day,
        s: rng.pick(&[-5, -1, 1, 5]),
        n: 2 * rng.range(1, 4),
    });
    line
}

/// One thing wrong with a station; every call on it must answer 0.
pub fn unsound_station(trial: &mut Trial) -> Result<(), Difference> {
    let rng = &mut trial.rng;
    let mut station = sound_station(rng);
    let name = match rng.below(10) {
        0..5 => wrong_sets(rng, &mut station),
        5..9 => wrong_line(rng, &mut station),
        _ => wrong_station(rng, &mut station),
    };
    let places = encode::station_places(&station);
    let before = trial.met.refused(0);
    on_station(trial, places)?;
    trial.met.branch_if(trial.met.refused(0) > before, name);
    Ok(())
}

/// A line of the station's row, to be damaged, and the samples of its sheets.
fn row_line<'a>(rng: &mut Rng, station: &'a mut Station) -> (&'a mut Line, i64) {
    let (lines, samples) = if station.row == 0 { (1, 6) } else { (3, 4) };
    (&mut station.lines[rng.below(lines)], samples)
}

fn wrong_line(rng: &mut Rng, station: &mut Station) -> &'static str {
    let (name, damage) = rng.pick(WRONG_LINES);
    let (line, _) = row_line(rng, station);
    damage(rng, line);
    name
}

fn wrong_sets(rng: &mut Rng, station: &mut Station) -> &'static str {
    let (names, damage) = rng.pick(WRONG_SETS);
    station.day = station.day.max(1);
    let day = station.day;
    let (line, samples) = row_line(rng, station);
    match rng.chance(50) {
        true => {
            let others = rng.range(0, 4);
            *line = open_line(rng, 2, others);
            damage(rng, &mut line.newest.places, day, samples);
            names[0]
        }
        false => {
            let (others, held) = (rng.range(1, 2), rng.range(2, 4));
            *line = open_line(rng, others, held);
            damage(rng, &mut line.nonzero.places[..held as usize], day, samples);
            names[1]
        }
    }
}

fn wrong_station(rng: &mut Rng, station: &mut Station) -> &'static str {
    let negative = rng.pick(&[-1, i32::MIN.into()]);
    let (row, day, name) = rng.pick(&[
        (2, station.day, "station: row doesn't exist"),
        (i32::MAX.into(), station.day, "station: row doesn't exist"),
        (negative, station.day, "station: row negative"),
        (station.row, 100_000, "station: day above 99999"),
        (station.row, i32::MAX.into(), "station: day above 99999"),
        (station.row, negative, "station: day negative"),
    ]);
    (station.row, station.day) = (row, day);
    // No set may be the reason.
    if day < 0 {
        station.lines = [Line::FRESH; 3];
    }
    name
}

/// The check of a station that isn't kept as a book, and a call on it.
fn on_station(trial: &mut Trial, places: StationPlaces) -> Result<(), Difference> {
    trial.station_check(&places)?;
    lists::single(trial, &mut Subject::handed_in(places))
}

/// Whether a list of calls can leave this line: of the newest sets those that aren't zero are the first of
/// the others, and what follows is no newer than both.
fn kinds_agree(line: &Line) -> bool {
    let newest = line.newest.sets();
    let shared: Vec<PastSet> = newest
        .iter()
        .filter(|set| !set.is_zero())
        .copied()
        .collect();
    let Some(older) = line.nonzero.sets().strip_prefix(&shared[..]) else {
        return false;
    };
    let oldest = newest.last().map_or(0, |set| set.day);
    older
        .iter()
        .all(|set| newest.len() == 2 && set.day <= oldest)
}

/// A sound station whose kinds of sets mostly disagree, and a few calls on it.
pub fn kinds_apart(trial: &mut Trial) -> Result<(), Difference> {
    let sets = trial.rng.pick(&[Sets::Apart, Sets::FourAlone]);
    let station = station_with(&mut trial.rng, sets);
    let mut subject = Subject::handed_in(encode::station_places(&station));
    for _ in 0..6 {
        let (before, counts) = (encode::station(&subject.places), accepted(trial));
        lists::single(trial, &mut subject)?;
        let rose = accepted(trial);
        let lines = if before.row == 0 { 1 } else { 3 };
        if before.lines[..lines].iter().all(kinds_agree) {
            continue;
        }
        let [sheet, repair, market] = [0, 1, 2].map(|call| rose[call] > counts[call]);
        let met = &mut trial.met;
        met.branch_if(sheet, "station: kinds that disagree, sheet accepted");
        met.branch_if(repair, "station: kinds that disagree, repair accepted");
        met.branch_if(market, "station: kinds that disagree, market test accepted");
    }
    Ok(())
}

/// How many sheets, repairs and market tests were accepted.
fn accepted(trial: &Trial) -> [u64; 3] {
    ["sheet", "repair", "market"].map(|call| trial.met.accepted(call))
}

/// A sound station whose spare places hold anything, and a few calls on it.
pub fn spare_places(trial: &mut Trial) -> Result<(), Difference> {
    let rng = &mut trial.rng;
    let mut station = sound_station(rng);
    let lines = if station.row == 0 { 1 } else { 3 };
    for (place, line) in station.lines.iter_mut().enumerate() {
        if place >= lines {
            line.intercept = rng.pick(&EDGES).into();
            line.phase = rng.pick(&EDGES).into();
            line.newest.count = rng.pick(&EDGES).into();
            line.nonzero.count = rng.pick(&EDGES).into();
        }
        let held = |count: i64| if place < lines { count as usize } else { 0 };
        let (newest, nonzero) = (held(line.newest.count), held(line.nonzero.count));
        hostile(rng, &mut line.newest.places[newest..]);
        hostile(rng, &mut line.nonzero.places[nonzero..]);
    }
    let places = encode::station_places(&station);
    let mut subject = Subject::handed_in(places);
    for _ in 0..6 {
        beside_spare_places(trial, &mut subject, lines)?;
    }
    Ok(())
}

/// Spare places that hold anything.
fn hostile(rng: &mut Rng, sets: &mut [PastSet]) {
    for set in sets {
        set.day = rng.pick(&EDGES).into();
        set.s = rng.pick(&EDGES).into();
        set.n = rng.pick(&EDGES).into();
    }
}

/// A call on a station whose spare places hold anything, and what came of them.
fn beside_spare_places(
    trial: &mut Trial,
    subject: &mut Subject,
    lines: usize,
) -> Result<(), Difference> {
    let (before, counts) = (encode::station(&subject.places), accepted(trial));
    lists::single(trial, subject)?;
    let after = encode::station(&subject.places);
    let rose = accepted(trial);
    let [sheet, repair, market] = [0, 1, 2].map(|call| rose[call] > counts[call]);
    let met = &mut trial.met;
    met.branch_if(sheet, "station: hostile spare places, sheet accepted");
    met.branch_if(repair, "station: hostile spare places, repair accepted");
    met.branch_if(
        market,
        "station: hostile spare places, market test accepted",
    );
    for (place, (line, then)) in before.lines.iter().zip(&after.lines).enumerate() {
        if place < lines && sheet {
            count_spare_sets(met, line, then);
        } else if place >= lines && repair {
            count_spare_line(met, line, then);
        }
    }
    Ok(())
}

/// The first spare place of a kind, where it isn't blank.
fn spare<const MOST: usize>(held: &Held<MOST>) -> Option<PastSet> {
    let first = held.places.get(held.count as usize)?;
    (*first != BLANK).then_some(*first)
}

/// One more is held, and what stood in the first spare place stands in it still.
fn moves_on<const MOST: usize>(held: &Held<MOST>, then: &Held<MOST>) -> bool {
    let first = spare(held);
    first.is_some() && then.count == held.count + 1 && first == spare(then)
}

/// A line whose spare places hold anything, before and after a sheet.
fn count_spare_sets(met: &mut Met, line: &Line, then: &Line) {
    met.branch_if(
        moves_on(&line.newest, &then.newest),
        "station: a hostile spare newest set moves on",
    );
    met.branch_if(
        moves_on(&line.nonzero, &then.nonzero),
        "station: a hostile spare non-zero set moves on",
    );
    let zero =
        then.newest != line.newest && then.newest.sets().first().is_some_and(PastSet::is_zero);
    let spare = spare(&line.nonzero).is_some();
    met.branch_if(
        zero && spare && then.nonzero == line.nonzero,
        "station: a zero set leaves hostile spare non-zero sets",
    );
    met.branch_if(
        zero && spare && then.nonzero == Held::NONE,
        "station: hostile spare non-zero sets are blank after a check",
    );
}

/// A line that the row lacks, before and after a repair.
fn count_spare_line(met: &mut Met, line: &Line, then: &Line) {
    met.branch_if(
        !(0..=3).contains(&line.phase) && then.phase == line.phase,
        "station: a line that the row lacks keeps its phase in a repair",
    );
    met.branch_if(
        (2..=3).contains(&line.phase) && then.phase == line.phase,
        "station: a line that the row lacks stays adjusted or shut in a repair",
    );
    met.branch_if(
        line.phase == 1 && then.phase == 0,
        "station: a line that the row lacks is new after a repair",
    );
}

/// One place of a sound station overwritten with a number beside some edge.
pub fn one_place(trial: &mut Trial, place: usize) -> Result<(), Difference> {
    for edge in EDGES {
        let station = sound_station(&mut trial.rng);
        let mut places = encode::station_places(&station);
        places[place] = edge;
        let before = (trial.met.refused(0), accepted(trial));
        on_station(trial, places)?;
        let refused = trial.met.refused(0) > before.0;
        let accepted = accepted(trial) != before.1;
        let met = &mut trial.met;
        met.branch_if(refused, "station: one place overwritten, refused by 0");
        met.branch_if(accepted, "station: one place overwritten, accepted");
        let spare = station.row == 0 && place >= encode::LINES[1];
        met.branch_if(
            accepted && spare,
            "station: one spare place overwritten, accepted",
        );
    }
    Ok(())
}

/// Small numbers, numbers beside some edge, or any.
pub fn any_numbers(rng: &mut Rng, places: &mut [i32]) {
    let kind = rng.below(3);
    for place in places {
        *place = match kind {
            0 => rng.pick(&[0, 0, 1, 1, 2, 3, 4, -1]),
            1 => rng.pick(&EDGES),
            _ => rng.bits() as i32,
        };
    }
}

/// Any numbers.
pub fn any_station(trial: &mut Trial) -> Result<(), Difference> {
    let mut places: StationPlaces = [0; encode::STATION];
    any_numbers(&mut trial.rng, &mut places);
    trial.met.branch("station: any numbers");
    on_station(trial, places)
}

// Charts.

/// A sound chart with two to four sets.
pub fn sound_chart(rng: &mut Rng) -> Chart {
    let mut chart = Chart::fresh(rng.range(0, 3));
    chart.last_week = rng.pick(&[0, 1, 26, 26, 9998, 9999]);
    chart.held = rng.range(0, 4);
    for set in &mut chart.sets[..chart.held as usize] {
        let count = rng.range(1, 5);
        *set = ChartSet {
            count,
            plot: match rng.below(10) {
                0 => rng.either_sign(10_000),
                _ => rng.range(-30, 30),
            },
            range: rng.pick(&[0, 39, 40, 59, 60, 20_000]),
        };
    }
    chart
}

/// The check of a chart that wasn't opened here, and a set on it.
fn on_chart(trial: &mut Trial, places: ChartPlaces) -> Result<(), Difference> {
    trial.chart_check(&places)?;
    charts::single(trial, &mut charts::Subject::handed_in(places))
}

/// A set of the chart that is held.
fn held_set<'a>(rng: &mut Rng, chart: &'a mut Chart) -> &'a mut ChartSet {
    if chart.held == 0 {
        chart.held = 1;
        chart.sets[0].count = 1;
    }
    &mut chart.sets[rng.below(chart.held as usize)]
}

const WRONG_CHARTS: &[Wrong<Chart>] = &[
    ("chart: row doesn't exist", |rng, chart| {
        chart.row = rng.pick(&[4, 5, i32::MAX.into()]);
    }),
    ("chart: row negative", |rng, chart| {
        chart.row = rng.pick(&[-1, i32::MIN.into()]);
    }),
    ("chart: last week above 9999", |rng, chart| {
        chart.last_week = rng.pick(&[10_000, i32::MAX.into()]);
    }),
    ("chart: last week negative", |rng, chart| {
        chart.last_week = rng.pick(&[-1, i32::MIN.into()]);
    }),
    ("chart: more than four held", |rng, chart| {
        chart.held = rng.pick(&[5, 6, 1 << 20, i32::MAX.into()]);
    }),
    ("chart: held negative", |rng, chart| {
        chart.held = rng.pick(&[-1, -4, i32::MIN.into()]);
    }),
    ("chart: count out of bounds", |rng, chart| {
        held_set(rng, chart).count = rng.pick(&[-1, 0, 6, i32::MIN.into(), i32::MAX.into()]);
    }),
    ("chart: plot 10001", |rng, chart| {
        held_set(rng, chart).plot = 10_001;
    }),
    ("chart: plot -10001", |rng, chart| {
        held_set(rng, chart).plot = -10_001;
    }),
    (
        "chart: plot out of bounds, within them times the count",
        |rng, chart| {
            let count = rng.range(2, 5);
            let plot = rng.pick(&[10_001, 10_000 * count]);
            let plot = rng.either_sign(plot);
            let set = held_set(rng, chart);
            (set.count, set.plot) = (count, plot);
        },
    ),
    ("chart: plot far out of bounds", |rng, chart| {
        let far = rng.pick(&[i64::from(i32::MAX), 65_536, 1 << 30]);
        held_set(rng, chart).plot = rng.pick(&[far, -far, i32::MIN.into()]);
    }),
    ("chart: range out of bounds", |rng, chart| {
        held_set(rng, chart).range = rng.pick(&[-1, 20_001, i32::MIN.into(), i32::MAX.into()]);
    }),
];

/// One thing wrong with a chart; the call must answer 0.
pub fn unsound_chart(trial: &mut Trial) -> Result<(), Difference> {
    let rng = &mut trial.rng;
    let mut chart = sound_chart(rng);
    let (name, damage) = rng.pick(WRONG_CHARTS);
    damage(rng, &mut chart);
    let before = trial.met.refused(0);
    on_chart(trial, encode::chart_places(&chart))?;
    trial.met.branch_if(trial.met.refused(0) > before, name);
    Ok(())
}

/// A sound chart whose spare places hold anything, and a few sets on it.
pub fn spare_chart_places(trial: &mut Trial) -> Result<(), Difference> {
    let rng = &mut trial.rng;
    let mut chart = sound_chart(rng);
    for set in &mut chart.sets[chart.held as usize..] {
        set.count = rng.pick(&EDGES).into();
        set.plot = rng.pick(&EDGES).into();
        set.range = rng.pick(&EDGES).into();
    }
    let mut subject = charts::Subject::handed_in(encode::chart_places(&chart));
    for _ in 0..3 {
        let before = encode::chart(&subject.places);
        let count = trial.met.accepted("chart set");
        charts::single(trial, &mut subject)?;
        if trial.met.accepted("chart set") == count {
            continue;
        }
        trial.met.branch("chart: hostile spare places, accepted");
        let held = before.held as usize;
        let after = encode::chart(&subject.places);
        let moves_on = held < 3
            && before.sets[held] != chart::BLANK
            && after.sets[held + 1] == before.sets[held];
        trial
            .met
            .branch_if(moves_on, "chart: a hostile spare set moves on");
    }
    Ok(())
}

/// One place of a sound chart overwritten with a number beside some edge.
pub fn one_chart_place(trial: &mut Trial, place: usize) -> Result<(), Difference> {
    for edge in EDGES {
        let chart = sound_chart(&mut trial.rng);
        let mut places = encode::chart_places(&chart);
        places[place] = edge;
        let before = (trial.met.refused(0), trial.met.accepted("chart set"));
        on_chart(trial, places)?;
        let refused = trial.met.refused(0) > before.0;
        let accepted = trial.met.accepted("chart set") > before.1;
        let met = &mut trial.met;
        met.branch_if(refused, "chart: one place overwritten, refused by 0");
        met.branch_if(accepted, "chart: one place overwritten, accepted");
        let spare = place >= 3 + 3 * chart.held as usize;
        met.branch_if(
            accepted && spare,
            "chart: one spare place overwritten, accepted",
        );
    }
    Ok(())
}

/// Any numbers.
pub fn any_chart(trial: &mut Trial) -> Result<(), Difference> {
    let mut places: ChartPlaces = [0; encode::CHART];
    any_numbers(&mut trial.rng, &mut places);
    trial.met.branch("chart: any numbers");
    on_chart(trial, places)
}
