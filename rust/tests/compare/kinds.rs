//! Wrong models of a line's two kinds of past sets: of zero sets, of the tests that look at either kind, of
//! what is held, and of number 0.

use grain_model::station::BLANK;
use grain_model::{
    Certificate, Held, Judged, Line, LinePhase, Outcome, Past, PastSet, Rules, Station, Test,
    Verdict, line,
};

use crate::damaged::Wrong;
use crate::stations::Request;

/// The newest sets, or those that aren't zero.
#[derive(Clone, Copy, Debug, PartialEq, Eq)]
pub enum Kind {
    Newest,
    Nonzero,
}

/// A number of a set.
#[derive(Clone, Copy, Debug, PartialEq, Eq)]
pub enum Of {
    Day,
    S,
    N,
}

/// An open or new line: a set that meets joins its past.
fn is_joined(line: &Line) -> bool {
    matches!(line.phase(), LinePhase::New | LinePhase::Open)
}

/// The sets as many days later.
fn later(sets: &[PastSet], days: i64) -> Vec<PastSet> {
    let moved = |set: &PastSet| PastSet {
        day: set.day + days,
        ..*set
    };
    sets.iter().map(moved).collect()
}

impl Wrong {
    /// What an accepted sheet did, in place of the right answer and station. `past` are all past sets of
    /// the line, where they are known.
    pub fn sheet(
        self,
        rules: &Rules,
        before: &Station,
        past: Option<&[PastSet]>,
        after: &mut Station,
        place: usize,
        judged: &mut Judged,
    ) {
        let held = &before.lines[place];
        let set = PastSet {
            day: after.day,
            s: judged.outcome.s,
            n: judged.outcome.n,
        };
        let right = judged.verdict;
        judged.verdict = self.verdict(rules, before, past, place, set, right);
        if judged.verdict != right {
            let then = &mut after.lines[place];
            *then = *held;
            line::follow(then, judged.verdict, set);
        }
        let then = &mut after.lines[place];
        self.hold(held, judged.verdict, set, then);
        if let Some(phase) = self.phase(held.phase(), judged.verdict) {
            then.phase = phase.code();
        }
        judged.outcome = Outcome {
            phase: then.phase().phase(),
            change: judged.verdict.change(),
            ..judged.outcome
        };
    }

    /// The verdict on a set in place of the right one.
    fn verdict(
        self,
        rules: &Rules,
        station: &Station,
        past: Option<&[PastSet]>,
        place: usize,
        set: PastSet,
        right: Verdict,
    ) -> Verdict {
        let held = &station.lines[place];
        if right == Verdict::NothingKept || !is_joined(held) {
            return right;
        }
        let limits = &rules.products[station.row as usize].lines[place];
        if let Some([newest, nonzero]) = self.tested(rules, held.past(), past, set) {
            let (newest, nonzero) = (&newest, &nonzero);
            let past = Past { newest, nonzero };
            return line::verdict(rules, limits, held.intercept, held.phase(), past, set);
        }
        let young = |past: &&PastSet| set.day - past.day <= rules.past_days;
        let nonzero = held.nonzero.sets();
        let valid = nonzero.iter().take_while(young).count();
        match self.five(&nonzero[..valid], set, limits.five) {
            Some(change) if right == Verdict::Met => Verdict::Adjusted(Test::Five, change),
            _ => right,
        }
    }

    /// The past sets of both kinds that a set is tested with, where they are not those held.
    fn tested(
        self,
        rules: &Rules,
        held: Past,
        all: Option<&[PastSet]>,
        set: PastSet,
    ) -> Option<[Vec<PastSet>; 2]> {
        let [newest, nonzero] = [held.newest, held.nonzero].map(<[PastSet]>::to_vec);
        let young = |past: &PastSet| set.day - past.day <= rules.past_days;
        let valid = newest.iter().filter(|past| young(past)).count();
        let zero_among_four = || all.unwrap_or(&newest).iter().take(4).any(PastSet::is_zero);
        Some(match self {
            Wrong::PassedOverByAll => [nonzero.clone(), nonzero],
            Wrong::ZeroNotAveraged if set.is_zero() => [vec![], nonzero],
            Wrong::ZeroBreaks if zero_among_four() => [newest, vec![]],
            Wrong::FiveNeedsTwo if valid < 2 => [newest, vec![]],
            Wrong::FiveNeedsOne | Wrong::FiveByNewestAge if valid < 1 => [newest, vec![]],
            Wrong::FiveIgnoresAge | Wrong::FiveByNewestAge => {
                let today = |past: PastSet| PastSet {
                    day: set.day,
                    ..past
                };
                [newest, nonzero.into_iter().map(today).collect()]
            }
            Wrong::FifteenDays(Kind::Newest) => [later(&newest, 1), nonzero],
            Wrong::FifteenDays(Kind::Nonzero) => [newest, later(&nonzero, 1)],
            Wrong::ThirteenDays(Kind::Newest) => [later(&newest, -1), nonzero],
            Wrong::ThirteenDays(Kind::Nonzero) => [newest, later(&nonzero, -1)],
            _ => return None,
        })
    }

    /// The change by a five that the right model doesn't test.
    fn five(self, nonzero: &[PastSet], set: PastSet, limit: i64) -> Option<i64> {
        let past = match self {
            Wrong::FourForFive => nonzero.get(..3).filter(|_| nonzero.len() == 3)?,
            _ => nonzero.get(..4)?,
        };
        let side = past[0].s.signum();
        let one_side = past.iter().all(|past| past.s.signum() == side);
        let tested = match self {
            Wrong::ZeroTested => one_side && set.is_zero(),
            Wrong::FourForFive => one_side && set.s.signum() == side,
            Wrong::SignsIgnored => !set.is_zero(),
            _ => false,
        };
        let s = set.s + past.iter().map(|past| past.s).sum::<i64>();
        let n = set.n + past.iter().map(|past| past.n).sum::<i64>();
        let average = (2 * s.abs() + n) / (2 * n);
        (tested && s.abs() > limit * n).then_some(-s.signum() * average)
    }

    /// The sets that are held after a sheet, in place of the right ones.
    fn hold(self, before: &Line, verdict: Verdict, set: PastSet, then: &mut Line) {
        let met = verdict == Verdict::Met;
        let joined = met && is_joined(before);
        let zero = met && set.is_zero();
        match (self, verdict) {
            (Wrong::ZeroJoins, _) if zero && joined => then.nonzero.join(set),
            (Wrong::ZeroOpens, _) if zero && !joined => then.nonzero.join(set),
            (Wrong::ZeroMovesOn, _) if zero && joined => {
                then.nonzero.places.rotate_right(1);
                then.nonzero.places[0] = BLANK;
            }
            (Wrong::ZeroBlanks, _) if zero && joined => {
                let held = before.nonzero.sets().len();
                then.nonzero.places[held..].fill(BLANK);
            }
            (Wrong::ZeroIsNotNewest, _) if zero && joined && before.newest.count > 0 => {
                then.newest = before.newest;
            }
            (Wrong::ThreeNewest, _) if joined && before.newest.count == 2 => then.newest.count = 3,
            (Wrong::ThreeNonzero, _) if met => {
                then.nonzero.count = then.nonzero.count.min(3);
            }
            (Wrong::SurviveAdjustment, Verdict::Adjusted(..)) => then.nonzero = before.nonzero,
            (Wrong::SurviveShutting, Verdict::NothingKept | Verdict::Bounded(_)) => {
                then.nonzero = before.nonzero;
            }
            _ => {}
        }
    }

    /// The certificate in place of the right one.
    pub fn certificate(
        self,
        line: &Line,
        request: Request,
        right: Certificate,
    ) -> Result<Certificate, u8> {
        let nonzero = line.nonzero.sets().first().map(|set| set.day);
        match (self, nonzero) {
            (Wrong::DayOfNonzero, Some(set_day)) => Ok(Certificate { set_day, ..right }),
            (Wrong::AgeOfNonzero, Some(day)) if i64::from(request.day) - day > 7 => Err(13),
            _ => Ok(right),
        }
    }

    /// The station as the wrong model judges it, where number 0 is wrong: one that there isn't where it
    /// wants too much, a sound one where it wants too little.
    pub fn seen(self, rules: &Rules, station: Station) -> Station {
        let Some(product) = rules.product(station.row) else {
            return station;
        };
        let mut seen = station;
        let lines = &mut seen.lines[..product.lines.len()];
        if !station.sound(rules) {
            for line in lines {
                self.allow(station.day, line);
            }
        } else if lines.iter().any(|line| self.rejects(line)) {
            seen.row = -1;
        }
        seen
    }

    /// Whether the wrong model finds a sound line damaged.
    fn rejects(self, line: &Line) -> bool {
        if line.phase() != LinePhase::Open {
            return false;
        }
        let Past { newest, nonzero } = line.past();
        match self {
            Wrong::KindsCompared => nonzero.first().is_some_and(|set| set.day > newest[0].day),
            Wrong::KindsShared => {
                let shared = |set: &PastSet| set.is_zero() || nonzero.contains(set);
                !newest.iter().all(shared)
            }
            Wrong::TwoBesideFour => newest.len() < 2 && nonzero.len() == 4,
            Wrong::NonzeroNeeded => nonzero.is_empty(),
            _ => false,
        }
    }

    /// Makes what the wrong model allows sound.
    fn allow(self, day: i64, line: &mut Line) {
        let open = line.phase == LinePhase::Open.code();
        match self {
            Wrong::ZeroAllowed => {
                for set in held(&mut line.nonzero) {
                    if set.is_zero() {
                        set.s = 1;
                    }
                }
            }
            Wrong::HeldAnywhere(Kind::Newest) if !open => line.newest.count = 0,
            Wrong::HeldAnywhere(Kind::Nonzero) if !open => line.nonzero.count = 0,
            Wrong::NonzeroAlone if open && line.newest.count == 0 && line.nonzero.count > 0 => {
                line.newest.join(line.nonzero.places[0]);
            }
            Wrong::Unseen(Kind::Newest, of) => unseen(held(&mut line.newest), of, day),
            Wrong::Unseen(Kind::Nonzero, of) => unseen(held(&mut line.nonzero), of, day),
            _ => {}
        }
    }
}

/// The held sets of one kind; none where more or fewer are held than there may be.
fn held<const MOST: usize>(held: &mut Held<MOST>) -> &mut [PastSet] {
    let count = usize::try_from(held.count).unwrap_or(0);
    held.places.get_mut(..count).unwrap_or_default()
}

/// Sound numbers in place of those that aren't looked at.
fn unseen(sets: &mut [PastSet], of: Of, day: i64) {
    for set in sets {
        match of {
            Of::Day => set.day = day,
            Of::S => set.s = set.s.signum(),
            Of::N => set.n = 2,
        }
    }
}
