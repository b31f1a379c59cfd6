//! Stations stored in layouts 1 to 3, and how they are carried over. For users docs/MIGRATION.md says it, of charts
//! too.
//!
//! They have 47 places: row, day, then for each line intercept, phase, how many past sets are held, and
//! four past sets of day, S and N, newest first, whose S may be 0.

use crate::ffi;
use crate::station::PastSet;
use crate::store::{self, FIRST, RestoreError, SECOND, THIRD};

/// The layouts whose lines tell adjusted from shut.
pub(crate) const TELLING: &[u32] = &[SECOND, THIRD];

/// Places of a station, and of a line.
const STATION: usize = 47;
const LINE: usize = 15;

/// The past sets that a line held at most.
const HELD: usize = 4;

/// The days that a past set counts.
const PAST_DAYS: i32 = 14;

/// How many lines a product row has, and the samples of its sheets; none if there is no such row.
fn product(row: i32) -> Option<(usize, i32)> {
    match row {
        0 => Some((1, 6)),
        1 => Some((3, 4)),
        _ => None,
    }
}

/// A line as it was held.
struct Line {
    intercept: i32,
    phase: i32,
    past: Vec<PastSet>,
}

impl Line {
    /// None where there can't be as many sets as it says.
    fn of(places: &[i32]) -> Option<Line> {
        let held = usize::try_from(places[2]).ok()?;
        if held > HELD {
            return None;
        }
        let past = places[3..3 + 3 * held].chunks_exact(3);
        Some(Line {
            intercept: places[0],
            phase: places[1],
            past: past.map(PastSet::of).collect(),
        })
    }

    /// What number 0 asked of a line. Layout 1 has no phase 3.
    fn is_sound(&self, layout: u32, samples: i32, day: i32) -> bool {
        let last_phase = match layout {
            FIRST => ffi::ADJUSTED,
            _ => ffi::SHUT,
        };
        (ffi::NEW..=last_phase).contains(&self.phase)
            && (self.phase == ffi::OPEN) != self.past.is_empty()
            && (-1000..=1000).contains(&self.intercept)
            && sound_sets(&self.past, samples, day)
    }

    /// Whether sets before the four that it holds may still count for the test of five.
    fn leaves_open(&self, day: i32) -> bool {
        let young = |oldest: &PastSet| oldest.day + PAST_DAYS >= day;
        self.past.len() == HELD
            && self.past.iter().any(PastSet::is_zero)
            && self.past.last().is_some_and(young)
    }

    /// Of the sets given for the line those that it has room for: the newest that aren't zero.
    fn older_sets(&self, given: &[PastSet]) -> Vec<PastSet> {
        let zeros = self.past.iter().filter(|set| set.is_zero()).count();
        let given = given.iter().filter(|set| !set.is_zero());
        given.take(zeros).copied().collect()
    }

    /// The line of this layout. `older` are sets before those that it holds.
    fn carried_over(&self, shut: bool, older: &[PastSet]) -> ffi::Line {
        let past = self.past.iter().chain(older).copied();
        let (newest_held, newest) = held(past.clone());
        let (nonzero_held, nonzero) = held(past.filter(|set| !set.is_zero()));
        ffi::Line {
            intercept: self.intercept,
            phase: match shut && self.phase == ffi::ADJUSTED {
                true => ffi::SHUT,
                false => self.phase,
            },
            newest_held,
            newest,
            nonzero_held,
            nonzero,
        }
    }
}

/// How many sets are held, and these in their places; what is not in use is 0.
fn held<const MOST: usize>(sets: impl Iterator<Item = PastSet>) -> (i32, [PastSet; MOST]) {
    let mut places = [PastSet::default(); MOST];
    let mut held = 0;
    for (place, set) in places.iter_mut().zip(sets) {
        *place = set;
        held += 1;
    }
    (held, places)
}

/// Days never rise from newest to oldest nor pass the station's, N is even from 2 to twice the row's
/// samples, and the magnitude of S is at most 11000 times N.
fn sound_sets(sets: &[PastSet], samples: i32, day: i32) -> bool {
    let mut newer = day;
    sets.iter().all(|set| {
        let days = 0..=newer;
        newer = set.day;
        days.contains(&set.day)
            && set.count % 2 == 0
            && (2..=2 * samples).contains(&set.count)
            && set.sum.unsigned_abs() <= 11_000 * set.count.unsigned_abs()
    })
}

/// A sound station as it was held. Of the lines only those of its row: nothing looks at the others.
struct Station {
    row: i32,
    day: i32,
    samples: i32,
    lines: Vec<Line>,
}

impl Station {
    /// None where the places hold no sound station.
    fn of(layout: u32, places: &[i32; STATION]) -> Option<Station> {
        let [row, day] = [places[0], places[1]];
        let (count, samples) = product(row)?;
        if !(0..=99_999).contains(&day) {
            return None;
        }
        let sound = |places| Line::of(places).filter(|line| line.is_sound(layout, samples, day));
        let lines = places[2..].chunks_exact(LINE).take(count);
        Some(Station {
            row,
            day,
            samples,
            lines: lines.map(sound).collect::<Option<_>>()?,
        })
    }

    /// The older sets of a line that leaves them open, of those given for each line.
    fn older_sets(
        &self,
        line: usize,
        given: Option<[&[PastSet]; 3]>,
    ) -> Result<Vec<PastSet>, RestoreError> {
        let held = &self.lines[line];
        let given = given.ok_or(RestoreError::OlderSets { line })?;
        let older = held.older_sets(given[line]);
        let all = [&held.past[..], &older].concat();
        match sound_sets(&all, self.samples, self.day) {
            true => Ok(older),
            false => Err(RestoreError::WrongOlderSets { line }),
        }
    }
}

/// The station of this layout for one stored in one of these. Of each line is told whether it was shut,
/// which layout 1 doesn't say, and which sets are older than those that it holds; without them a line
/// that leaves them open is an error. A line that the row lacks is blank.
pub(crate) fn restored(
    bytes: &[u8],
    layouts: &[u32],
    shut: [bool; 3],
    older: Option<[&[PastSet]; 3]>,
) -> Result<ffi::Station, RestoreError> {
    let (found, places) = store::restored(bytes, layouts)?;
    let former = Station::of(found, &places).ok_or(RestoreError::Unsound { found })?;
    let mut station = ffi::Station {
        row: former.row,
        day: former.day,
        ..ffi::Station::default()
    };
    for (line, held) in former.lines.iter().enumerate() {
        let older = match held.leaves_open(former.day) {
            true => former.older_sets(line, older)?,
            false => vec![],
        };
        station.lines[line] = held.carried_over(shut[line], &older);
    }
    Ok(station)
}
