//! The branches of an accepted sheet: which averages were tested, of which sets, and what became of the
//! line.

use grain_model::rules::Limits;
use grain_model::{Judged, Line, LinePhase, PastSet, Phase, Test, Verdict};

use crate::met::Met;

/// An accepted sheet.
pub struct Accepted<'a> {
    /// The line before it.
    line: &'a Line,
    limits: &'a Limits,
    judged: &'a Judged,
    /// What the sheet came to.
    set: PastSet,
    /// All past sets of the line, newest first, where they are known.
    past: Option<&'a [PastSet]>,
}

impl<'a> Accepted<'a> {
    pub fn new(
        line: &'a Line,
        limits: &'a Limits,
        day: i64,
        judged: &'a Judged,
        past: Option<&'a [PastSet]>,
    ) -> Accepted<'a> {
        let (s, n) = (judged.outcome.s, judged.outcome.n);
        Accepted {
            line,
            limits,
            judged,
            set: PastSet { day, s, n },
            past,
        }
    }

    pub fn count(&self, met: &mut Met) {
        let (s, n) = (self.set.s, self.set.n);
        let (again, dropped) = (self.judged.again, self.judged.dropped);
        met.branch_if(again > 0, "sheet: again round");
        met.branch_if(again > dropped, "sheet: again pair kept");
        met.branch_if(dropped > 0 && n > 0, "sheet: some samples dropped");
        met.branch_if(self.set.day == 99_999, "sheet: on the last day");
        met.branch(self.verdict_name());
        if let Verdict::Adjusted(test, change) = self.judged.verdict {
            let bound = (self.line.intercept + change).abs() == 1000;
            met.branch_if(bound, "sheet: adjusted to the bound itself");
            let single = matches!(test, Test::One | Test::Check);
            let half = single && (2 * s) % n == 0 && s % n != 0;
            met.branch_if(half, "sheet: average rounded at a half");
        }
        self.count_held(met);
        if self.met() && self.set.is_zero() {
            self.count_zero(met);
        }
        match self.line.phase().phase() {
            Phase::CheckDue => {
                let at_limit = self.met() && self.at(&[], self.limits.check);
                met.branch_if(at_limit, self.at_check_limit());
            }
            Phase::New | Phase::Open => {
                self.count_limits(met);
                self.count_ages(met);
                self.count_zeros_tested(met);
                self.count_five(met);
            }
        }
    }

    fn met(&self) -> bool {
        self.judged.verdict == Verdict::Met
    }

    /// The test that was exceeded.
    fn exceeded(&self) -> Option<Test> {
        match self.judged.verdict {
            Verdict::Adjusted(test, _) | Verdict::Bounded(test) => Some(test),
            Verdict::Met | Verdict::NothingKept => None,
        }
    }

    fn age(&self, set: &PastSet) -> i64 {
        self.set.day - set.day
    }

    fn valid(&self, sets: &'a [PastSet]) -> &'a [PastSet] {
        let young = |set: &&PastSet| self.age(set) <= 14;
        &sets[..sets.iter().take_while(young).count()]
    }

    /// The valid ones of the newest sets.
    fn newest(&self) -> &'a [PastSet] {
        self.valid(self.line.newest.sets())
    }

    /// The valid ones of those that aren't zero.
    fn nonzero(&self) -> &'a [PastSet] {
        self.valid(self.line.nonzero.sets())
    }

    /// S and N of the set together with these.
    fn with(&self, past: &[PastSet]) -> (i64, i64) {
        let s = self.set.s + past.iter().map(|past| past.s).sum::<i64>();
        let n = self.set.n + past.iter().map(|past| past.n).sum::<i64>();
        (s, n)
    }

    fn at(&self, past: &[PastSet], limit: i64) -> bool {
        let (s, n) = self.with(past);
        s.abs() == limit * n
    }

    fn above(&self, past: &[PastSet], limit: i64) -> bool {
        let (s, n) = self.with(past);
        s.abs() > limit * n
    }

    /// The set and these lie on one side of zero.
    fn one_side(&self, past: &[PastSet]) -> bool {
        let side = self.set.s.signum();
        side != 0 && past.iter().all(|past| past.s.signum() == side)
    }

    /// The branch of the verdict on this line.
    fn verdict_name(&self) -> &'static str {
        match self.judged.verdict {
            Verdict::NothingKept => match self.line.phase() {
                LinePhase::New => "sheet: shut, nothing kept, new line",
                LinePhase::Open => "sheet: shut, nothing kept, open line",
                LinePhase::Adjusted => "sheet: shut, nothing kept, adjusted line",
                LinePhase::Shut => "sheet: shut, nothing kept, shut line",
            },
            Verdict::Met => match self.line.phase() {
                LinePhase::New => "sheet: opens a new line",
                LinePhase::Open => "sheet: joins an open line",
                LinePhase::Adjusted => "sheet: opens an adjusted line",
                LinePhase::Shut => "sheet: opens a shut line",
            },
            Verdict::Adjusted(Test::One, _) => "sheet: one exceeded",
            Verdict::Adjusted(Test::Two, _) => "sheet: two exceeded",
            Verdict::Adjusted(Test::Three, _) => "sheet: three exceeded",
            Verdict::Adjusted(Test::Five, _) => "sheet: five exceeded",
            Verdict::Adjusted(Test::Check, _) => match self.line.phase() {
                LinePhase::Shut => "sheet: check exceeded, shut line",
                _ => "sheet: check exceeded, adjusted line",
            },
            Verdict::Bounded(Test::One) => "sheet: shut at the bound, one",
            Verdict::Bounded(Test::Two) => "sheet: shut at the bound, two",
            Verdict::Bounded(Test::Three) => "sheet: shut at the bound, three",
            Verdict::Bounded(Test::Five) => "sheet: shut at the bound, five",
            Verdict::Bounded(Test::Check) => match self.line.phase() {
                LinePhase::Shut => "sheet: shut at the bound, check of a shut line",
                _ => "sheet: shut at the bound, check of an adjusted line",
            },
        }
    }

    fn at_check_limit(&self) -> &'static str {
        match self.line.phase() {
            LinePhase::Shut => "sheet: at the check limit, shut line",
            _ => "sheet: at the check limit, adjusted line",
        }
    }

    /// Sets of either kind that leave.
    fn count_held(&self, met: &mut Met) {
        let (newest, nonzero) = (self.line.newest.sets(), self.line.nonzero.sets());
        if self.met() {
            met.branch_if(
                newest.len() == 2,
                "sheet: the older of two newest sets leaves",
            );
            let full = nonzero.len() == 4 && !self.set.is_zero();
            met.branch_if(full, "sheet: the oldest of four non-zero sets leaves");
        } else if !nonzero.is_empty() {
            met.branch(match self.judged.verdict {
                Verdict::Adjusted(..) => "sheet: adjusted, non-zero sets go",
                _ => "sheet: shut, non-zero sets go",
            });
        }
    }

    /// A zero set met.
    fn count_zero(&self, met: &mut Met) {
        met.branch(match self.line.phase() {
            LinePhase::New => "sheet: a zero set opens a new line",
            LinePhase::Open => "sheet: a zero set joins an open line",
            LinePhase::Adjusted => "sheet: a zero set opens an adjusted line",
            LinePhase::Shut => "sheet: a zero set opens a shut line",
        });
        let full = self.line.nonzero.sets().len() == 4;
        met.branch_if(full, "sheet: a zero set joins, four non-zero sets stay");
        if let Some(four) = self.nonzero().get(..4) {
            let side = four[0].s.signum();
            let one_side = four.iter().all(|past| past.s.signum() == side);
            let above = one_side && self.above(four, self.limits.five);
            met.branch_if(above, "sheet: a zero set isn't tested for five");
        }
    }

    /// Tests that were just not exceeded.
    fn count_limits(&self, met: &mut Met) {
        if !self.met() {
            return;
        }
        let (limits, newest) = (self.limits, self.newest());
        let at = |count: usize, limit| {
            let past = newest.get(..count);
            past.is_some_and(|past| self.at(past, limit))
        };
        met.branch_if(at(0, limits.one), "sheet: at the one limit");
        met.branch_if(at(1, limits.two), "sheet: at the two limit");
        met.branch_if(at(2, limits.three), "sheet: at the three limit");
    }

    /// Newest sets at the age of 14 and 15 days where the two or the three together are above their limit.
    fn count_ages(&self, met: &mut Met) {
        let held = self.line.newest.sets();
        let oldest_of = |count: usize, limit| {
            let past = held.get(..count)?;
            self.above(past, limit).then(|| self.age(&past[count - 1]))
        };
        let two = oldest_of(1, self.limits.two);
        let three = oldest_of(2, self.limits.three);
        met.branch_if(
            two == Some(14) && self.exceeded() == Some(Test::Two),
            "sheet: a newest set 14 days old counts for the two",
        );
        met.branch_if(
            two == Some(15) && self.met(),
            "sheet: a newest set 15 days old is ignored by the two",
        );
        met.branch_if(
            three == Some(14) && self.exceeded() == Some(Test::Three),
            "sheet: a newest set 14 days old counts for the three",
        );
        met.branch_if(
            three == Some(15) && self.met(),
            "sheet: a newest set 15 days old is ignored by the three",
        );
    }

    /// The averages of two and three with zero sets in them.
    fn count_zeros_tested(&self, met: &mut Met) {
        let (limits, newest, nonzero) = (self.limits, self.newest(), self.nonzero());
        let with_zero = |count: usize| {
            let past = newest.get(..count);
            past.is_some_and(|past| past.iter().any(PastSet::is_zero))
        };
        let (two, three) = (with_zero(1), with_zero(2));
        // Above the limit if zero sets were passed over.
        let passed_over = |count: usize, limit| {
            let past = nonzero.get(..count);
            self.met() && past.is_some_and(|past| self.above(past, limit))
        };
        met.branch_if(
            two && passed_over(1, limits.two),
            "sheet: a zero set isn't passed over by the two",
        );
        met.branch_if(
            three && passed_over(2, limits.three),
            "sheet: a zero set isn't passed over by the three",
        );
        met.branch_if(
            two && self.exceeded() == Some(Test::Two),
            "sheet: two exceeded with a zero set",
        );
        met.branch_if(
            three && self.exceeded() == Some(Test::Three),
            "sheet: three exceeded with a zero set",
        );
    }

    /// The five: exceeded, just not, broken, or not tested.
    fn count_five(&self, met: &mut Met) {
        if self.exceeded() == Some(Test::Five) {
            self.count_five_exceeded(met);
        } else if self.met() && !self.set.is_zero() {
            match self.nonzero().get(..4) {
                Some(four) => self.count_five_within(met, four),
                None => self.count_no_five(met),
            }
        }
    }

    /// Four valid ones, and the five not exceeded.
    fn count_five_within(&self, met: &mut Met, four: &[PastSet]) {
        let (limit, newest) = (self.limits.five, self.newest());
        let one_side = self.one_side(four);
        let at_limit = one_side && self.at(four, limit);
        met.branch_if(at_limit, "sheet: at the five limit");
        met.branch_if(
            at_limit && newest.len() < 2,
            "sheet: at the five limit, fewer than two newest sets valid",
        );
        let broken = !one_side && self.above(four, limit);
        met.branch_if(broken, "sheet: signs break the five");
        met.branch_if(
            broken && newest.iter().any(PastSet::is_zero),
            "sheet: signs break the five past a zero set",
        );
    }

    /// Fewer than four valid ones, which would be above the limit of five with all that are held.
    fn count_no_five(&self, met: &mut Met) {
        let held = self.line.nonzero.sets();
        if !self.one_side(held) || !self.above(held, self.limits.five) {
            return;
        }
        let (newest, valid) = (self.newest().len(), self.nonzero().len());
        met.branch_if(
            held.len() == 3 && valid == 3,
            "sheet: three non-zero sets are no five",
        );
        let just_old = held.len() == 4 && self.age(&held[3]) == 15;
        met.branch_if(
            just_old && newest == 2,
            "sheet: a non-zero set 15 days old is ignored, the newest sets valid",
        );
        met.branch_if(
            held.len() == 4 && valid == 0 && newest > 0,
            "sheet: four non-zero sets too old, a newest set valid",
        );
    }

    fn count_five_exceeded(&self, met: &mut Met) {
        met.branch(match self.set.s > 0 {
            true => "sheet: five exceeded above zero",
            false => "sheet: five exceeded below zero",
        });
        let newest = self.newest();
        let zeros = newest.iter().filter(|set| set.is_zero()).count();
        match (newest.len(), zeros) {
            (0, _) => met.branch("sheet: five exceeded, no newest set valid"),
            (1, _) => met.branch("sheet: five exceeded, one newest set valid"),
            (_, 1) => met.branch("sheet: five exceeded, one newest set is zero"),
            (_, 2) => met.branch("sheet: five exceeded, both newest sets are zero"),
            _ => {}
        }
        let oldest = self.age(&self.nonzero()[3]);
        let newer = newest.iter().all(|set| self.age(set) < 14);
        met.branch_if(
            oldest == 14 && newer,
            "sheet: a non-zero set 14 days old counts, the newest sets newer",
        );
        match self.passed_over() {
            Some(1) => met.branch("sheet: five exceeded past one zero set"),
            Some(2..) => met.branch("sheet: five exceeded past several zero sets"),
            _ => {}
        }
    }

    /// How many zero sets are newer than the fourth that isn't zero.
    fn passed_over(&self) -> Option<usize> {
        let past = self.past?;
        let mut nonzero = 0;
        let newer = past.iter().take_while(|set| {
            nonzero += usize::from(!set.is_zero());
            nonzero < 4
        });
        Some(newer.filter(|set| set.is_zero()).count())
    }
}
