//! The station, its lines and past sets, soundness, opening and repair (sections "A line between
//! sheets" and "Refused calls").

use crate::line::Past;
use crate::{Refusal, Rules};

/// A phase (new, open, check due), as a sheet's outcome says it.
#[derive(Clone, Copy, Debug, PartialEq, Eq)]
pub enum Phase {
    New,
    Open,
    CheckDue,
}

impl Phase {
    /// The number that an outcome carries for the phase.
    pub const fn code(self) -> i64 {
        match self {
            Phase::New => 0,
            Phase::Open => 1,
            Phase::CheckDue => 2,
        }
    }
}

/// A line's phase. Of a line whose check is due it is also told what its newest sheet did: it
/// adjusted the line, or it shut it.
#[derive(Clone, Copy, Debug, PartialEq, Eq)]
pub enum LinePhase {
    New,
    Open,
    Adjusted,
    Shut,
}

impl LinePhase {
    /// The number that a line holds for its phase.
    pub const fn code(self) -> i64 {
        match self {
            LinePhase::New => 0,
            LinePhase::Open => 1,
            LinePhase::Adjusted => 2,
            LinePhase::Shut => 3,
        }
    }

    /// None: a number that stands for no phase.
    pub const fn of(code: i64) -> Option<LinePhase> {
        match code {
            0 => Some(LinePhase::New),
            1 => Some(LinePhase::Open),
            2 => Some(LinePhase::Adjusted),
            3 => Some(LinePhase::Shut),
            _ => None,
        }
    }

    /// A sheet's outcome still says check due for both.
    pub const fn phase(self) -> Phase {
        match self {
            LinePhase::New => Phase::New,
            LinePhase::Open => Phase::Open,
            LinePhase::Adjusted | LinePhase::Shut => Phase::CheckDue,
        }
    }
}

/// A past set: each with day, S and N.
#[derive(Clone, Copy, Debug, PartialEq, Eq)]
pub struct PastSet {
    pub day: i64,
    pub s: i64,
    pub n: i64,
}

impl PastSet {
    /// A zero set is one whose S is 0, whatever its deviations.
    pub fn is_zero(&self) -> bool {
        self.s == 0
    }
}

/// An emptied place holds a blank set.
pub const BLANK: PastSet = PastSet { day: 0, s: 0, n: 0 };

/// Past sets of one kind, at most `MOST`, newest first. Of the places the first `count` are held,
/// the others are spare. Every field may hold any number: what may be held is told by `sound`.
#[derive(Clone, Copy, Debug, PartialEq, Eq)]
pub struct Held<const MOST: usize> {
    pub count: i64,
    pub places: [PastSet; MOST],
}

impl<const MOST: usize> Held<MOST> {
    pub const NONE: Held<MOST> = Held {
        count: 0,
        places: [BLANK; MOST],
    };

    /// The held sets, newest first. Only a sound line is asked.
    pub fn sets(&self) -> &[PastSet] {
        &self.places[..self.count as usize]
    }

    /// The set joins, only the newest `MOST` being held. Every place moves on by one, the spare ones
    /// too.
    pub fn join(&mut self, set: PastSet) {
        self.places.rotate_right(1);
        self.places[0] = set;
        self.count = (self.count + 1).min(MOST as i64);
    }

    /// Their days never rise from newest to oldest nor pass the station's day, N is even from 2 to
    /// twice the row's samples, and |S| is at most 11000 times N. A day below 0 is no day. Each kind
    /// is judged by itself.
    fn sound(&self, rules: &Rules, samples: i64, day: i64) -> bool {
        let sets = self.sets();
        sets.iter().all(|set| (0..=day).contains(&set.day))
            && sets.windows(2).all(|two| two[0].day >= two[1].day)
            && sets.iter().all(|set| {
                set.n % 2 == 0
                    && (2..=2 * samples).contains(&set.n)
                    && set.s.abs() <= rules.set_average * set.n
            })
    }
}

/// A line has an intercept (fresh: 0), a phase and past sets. It holds its newest two, zero sets
/// among them, and its newest four that aren't zero. Every field may hold any number, the phase's
/// code too: what a line may hold is told by `sound`.
#[derive(Clone, Copy, Debug, PartialEq, Eq)]
pub struct Line {
    pub intercept: i64,
    pub phase: i64,
    pub newest: Held<2>,
    pub nonzero: Held<4>,
}

/// A station holds its row, its lines and the day of its last accepted call (fresh: 0). A grain
/// with fewer than three lines leaves the others spare.
#[derive(Clone, Copy, Debug, PartialEq, Eq)]
pub struct Station {
    pub row: i64,
    pub day: i64,
    pub lines: [Line; 3],
}

impl Line {
    pub const FRESH: Line = Line {
        intercept: 0,
        phase: LinePhase::New.code(),
        newest: Held::NONE,
        nonzero: Held::NONE,
    };

    /// The phase. Only a sound line is asked.
    pub fn phase(&self) -> LinePhase {
        LinePhase::of(self.phase).expect("a sound line")
    }

    /// The past sets that the tests look at. Only a sound line is asked.
    pub fn past(&self) -> Past<'_> {
        Past {
            newest: self.newest.sets(),
            nonzero: self.nonzero.sets(),
        }
    }

    /// Past sets go, of both kinds: every place holds a blank.
    pub fn empty(&mut self) {
        self.newest = Held::NONE;
        self.nonzero = Held::NONE;
    }

    /// The set joins the newest and, if it isn't zero, the non-zero ones. A zero set leaves these as
    /// they are, spare places too.
    pub fn join(&mut self, set: PastSet) {
        self.newest.join(set);
        if !set.is_zero() {
            self.nonzero.join(set);
        }
    }

    /// Intercepts lie in −1000..1000, an open line has one or two newest sets and at most four
    /// non-zero ones, any other none of either, the sets of either kind are sound, and of the
    /// non-zero ones S is not 0. A code that stands for no phase is no phase.
    fn sound(&self, rules: &Rules, samples: i64, day: i64) -> bool {
        let (newest, nonzero) = (self.newest.count, self.nonzero.count);
        let held_fits = match LinePhase::of(self.phase) {
            Some(LinePhase::Open) => (1..=2).contains(&newest) && (0..=4).contains(&nonzero),
            Some(LinePhase::New | LinePhase::Adjusted | LinePhase::Shut) => {
                newest == 0 && nonzero == 0
            }
            None => false,
        };
        held_fits
            && self.intercept.abs() <= rules.intercept
            && self.newest.sound(rules, samples, day)
            && self.nonzero.sound(rules, samples, day)
            && !self.nonzero.sets().iter().any(PastSet::is_zero)
    }
}

impl Station {
    /// A fresh station of a row that exists.
    pub const fn fresh(row: i64) -> Station {
        Station {
            row,
            day: 0,
            lines: [Line::FRESH; 3],
        }
    }

    /// Number 1: Opening: the product or chart row doesn't exist. A refused opening hands back a
    /// fresh state of row 0.
    pub fn open(rules: &Rules, row: u64) -> (Station, Result<(), Refusal>) {
        match i64::try_from(row) {
            Ok(row) if rules.product(row).is_some() => (Station::fresh(row), Ok(())),
            _ => (Station::fresh(0), Err(1)),
        }
    }

    /// A station is sound if its row exists, its day is 0..99999 and its row's lines are sound.
    /// Spare lines and places are not looked at.
    pub fn sound(&self, rules: &Rules) -> bool {
        let Some(product) = rules.product(self.row) else {
            return false;
        };
        let lines = &self.lines[..product.lines.len()];
        (0..=rules.last_day).contains(&self.day)
            && lines
                .iter()
                .all(|line| line.sound(rules, product.samples, self.day))
    }

    /// Number 0: The station or chart handed in isn't sound. Then number 2.
    pub(crate) fn called_on(&self, rules: &Rules, day: u32) -> Result<i64, Refusal> {
        if !self.sound(rules) {
            return Err(0);
        }
        rules.day(self.day, day)
    }

    /// A repair (or new slope), which names its day and touches all lines, empties every line's
    /// past. New and open lines become new; check due stays, and a repair doesn't alter which of the
    /// two it is. Intercepts stay.
    pub fn repair(&mut self, rules: &Rules, day: u32) -> Result<(), Refusal> {
        let day = self.called_on(rules, day)?;
        // Every line's past is emptied, also that of lines that the grain lacks. Their phase may be
        // any number: only the code of open becomes that of new.
        for line in &mut self.lines {
            line.empty();
            if line.phase == LinePhase::Open.code() {
                line.phase = LinePhase::New.code();
            }
        }
        self.day = day;
        Ok(())
    }
}
