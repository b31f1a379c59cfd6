//! The places of the C interface as the model's states, and back. Any number may stand in any place.

use grain_model::{Chart, ChartSet, Held, Line, PastSet, Station};

pub const STATION: usize = 68;
/// Where each line's places begin.
pub const LINES: [usize; 3] = [2, 24, 46];
pub const CHART: usize = 15;

pub type StationPlaces = [i32; STATION];
pub type ChartPlaces = [i32; CHART];

fn past_set(places: &[i32]) -> PastSet {
    let [day, s, n] = [0, 1, 2].map(|place| i64::from(places[place]));
    PastSet { day, s, n }
}

fn chart_set(places: &[i32]) -> ChartSet {
    let [count, plot, range] = [0, 1, 2].map(|place| i64::from(places[place]));
    ChartSet { count, plot, range }
}

/// How many sets are held, and the sets.
fn held<const MOST: usize>(places: &[i32]) -> Held<MOST> {
    Held {
        count: places[0].into(),
        places: std::array::from_fn(|set| past_set(&places[1 + 3 * set..])),
    }
}

fn line(places: &[i32]) -> Line {
    Line {
        intercept: places[0].into(),
        phase: places[1].into(),
        newest: held(&places[2..]),
        nonzero: held(&places[9..]),
    }
}

pub fn station(places: &StationPlaces) -> Station {
    Station {
        row: places[0].into(),
        day: places[1].into(),
        lines: LINES.map(|start| line(&places[start..])),
    }
}

pub fn chart(places: &ChartPlaces) -> Chart {
    Chart {
        row: places[0].into(),
        last_week: places[1].into(),
        held: places[2].into(),
        sets: [3, 6, 9, 12].map(|start| chart_set(&places[start..])),
    }
}

fn places<const LEN: usize>(numbers: impl Iterator<Item = i64>) -> [i32; LEN] {
    let numbers: Vec<i32> = numbers
        .map(|number| i32::try_from(number).unwrap())
        .collect();
    numbers.try_into().unwrap()
}

fn held_places<const MOST: usize>(held: Held<MOST>) -> impl Iterator<Item = i64> {
    let set = |set: PastSet| [set.day, set.s, set.n];
    [held.count]
        .into_iter()
        .chain(held.places.into_iter().flat_map(set))
}

pub fn station_places(station: &Station) -> StationPlaces {
    let line = |line: &Line| {
        [line.intercept, line.phase]
            .into_iter()
            .chain(held_places(line.newest))
            .chain(held_places(line.nonzero))
    };
    let head = [station.row, station.day].into_iter();
    places(head.chain(station.lines.iter().flat_map(line)))
}

pub fn chart_places(chart: &Chart) -> ChartPlaces {
    let set = |set: &ChartSet| [set.count, set.plot, set.range];
    let head = [chart.row, chart.last_week, chart.held].into_iter();
    places(head.chain(chart.sets.iter().flat_map(set)))
}
