//! Section "A line between sheets": the tests of a new set and what follows from them.

use crate::rules::{Limits, Rules};
use crate::station::{Line, LinePhase, PastSet};

/// The tests of averages, in the order in which they are made, and the check.
#[derive(Clone, Copy, Debug, PartialEq, Eq)]
pub enum Test {
    One,
    Two,
    Three,
    Five,
    Check,
}

/// What a sheet did to its line.
#[derive(Clone, Copy, Debug, PartialEq, Eq)]
pub enum Verdict {
    /// N = 0: the line is shut.
    NothingKept,
    /// No test made of it, or the check, was exceeded.
    Met,
    /// The first test exceeded, and the change of the intercept.
    Adjusted(Test, i64),
    /// If the intercept would leave −1000..1000 the line is shut instead.
    Bounded(Test),
}

impl Verdict {
    /// A sheet met every average due if N is above 0 and no test made of it, or the check, was
    /// exceeded.
    pub fn met(self) -> bool {
        self == Verdict::Met
    }

    /// The intercept change (0 if none).
    pub fn change(self) -> i64 {
        match self {
            Verdict::Adjusted(_, change) => change,
            _ => 0,
        }
    }
}

/// The past sets that a new set is tested with, newest first: all, zero sets among them, for the
/// averages of two and three; those that aren't zero for the five. There may be more than a test
/// takes.
#[derive(Clone, Copy, Debug)]
pub struct Past<'a> {
    pub newest: &'a [PastSet],
    pub nonzero: &'a [PastSet],
}

impl Past<'_> {
    /// Past sets more than 14 days old are ignored, of each kind by itself.
    fn valid(self, rules: &Rules, day: i64) -> Self {
        Past {
            newest: valid(rules, day, self.newest),
            nonzero: valid(rules, day, self.nonzero),
        }
    }
}

/// The sets that are at most 14 days old. Days never rise from newest to oldest.
fn valid<'a>(rules: &Rules, day: i64, sets: &'a [PastSet]) -> &'a [PastSet] {
    let young = |set: &&PastSet| day - set.day <= rules.past_days;
    &sets[..sets.iter().take_while(young).count()]
}

/// S and N of one set, or of several together.
#[derive(Clone, Copy)]
struct Sum {
    s: i64,
    n: i64,
}

impl Sum {
    /// By their summed S and N: this set with the newest `count` past sets.
    fn with(self, past: &[PastSet], count: usize) -> Sum {
        let newest = &past[..count];
        Sum {
            s: self.s + newest.iter().map(|set| set.s).sum::<i64>(),
            n: self.n + newest.iter().map(|set| set.n).sum::<i64>(),
        }
    }

    /// The average is strictly above the limit: |S| above the limit times N.
    fn exceeds(self, limit: i64) -> bool {
        self.s.abs() > limit * self.n
    }

    /// The average, rounded to a whole hundredth with halves away from zero.
    fn average(self) -> i64 {
        let magnitude = (2 * self.s.abs() + self.n) / (2 * self.n);
        magnitude * self.s.signum()
    }
}

/// Phase new or open: The first test exceeded adjusts by that test's average.
fn first_exceeded(limits: &Limits, valid: Past, set: Sum) -> Option<(Test, Sum)> {
    let Past { newest, nonzero } = valid;
    // Test |S| against the one-set limit times N.
    if set.exceeds(limits.one) {
        return Some((Test::One, set));
    }
    // If within, and one past set is valid, test the two sets together
    if !newest.is_empty() && set.with(newest, 1).exceeds(limits.two) {
        return Some((Test::Two, set.with(newest, 1)));
    }
    // with two valid, the three together.
    if newest.len() >= 2 && set.with(newest, 2).exceeds(limits.three) {
        return Some((Test::Three, set.with(newest, 2)));
    }
    // With four valid that aren't zero and all five S above zero or all below, test the five. A
    // present set with S = 0 is neither.
    if nonzero.len() >= 4 {
        let past = &nonzero[..4];
        let above = set.s > 0 && past.iter().all(|set| set.s > 0);
        let below = set.s < 0 && past.iter().all(|set| set.s < 0);
        if (above || below) && set.with(nonzero, 4).exceeds(limits.five) {
            return Some((Test::Five, set.with(nonzero, 4)));
        }
    }
    None
}

/// What a set with S and N does to a line of this intercept, phase and past.
pub fn verdict(
    rules: &Rules,
    limits: &Limits,
    intercept: i64,
    phase: LinePhase,
    past: Past,
    set: PastSet,
) -> Verdict {
    if set.n == 0 {
        return Verdict::NothingKept;
    }
    let sum = Sum { s: set.s, n: set.n };
    let exceeded = match phase {
        // Check due: |S| at most the check limit times N opens the line
        LinePhase::Adjusted | LinePhase::Shut => {
            sum.exceeds(limits.check).then_some((Test::Check, sum))
        }
        LinePhase::New | LinePhase::Open => first_exceeded(limits, past.valid(rules, set.day), sum),
    };
    match exceeded {
        None => Verdict::Met,
        // To adjust: subtract the average .. from the intercept.
        Some((test, sum)) => {
            let change = -sum.average();
            if (intercept + change).abs() > rules.intercept {
                Verdict::Bounded(test)
            } else {
                Verdict::Adjusted(test, change)
            }
        }
    }
}

/// The line after the verdict on this set.
pub fn follow(line: &mut Line, verdict: Verdict, set: PastSet) {
    match verdict {
        // Opens the line with this set as its only past; new and open: the line is open and the
        // set joins the past. A zero set joins the newest only.
        Verdict::Met => {
            if matches!(line.phase(), LinePhase::Adjusted | LinePhase::Shut) {
                line.empty();
            }
            line.phase = LinePhase::Open.code();
            line.join(set);
        }
        // Past sets go and the phase is check due, after an adjustment or after shutting.
        Verdict::Adjusted(_, change) => {
            line.intercept += change;
            line.phase = LinePhase::Adjusted.code();
            line.empty();
        }
        Verdict::NothingKept | Verdict::Bounded(_) => {
            line.phase = LinePhase::Shut.code();
            line.empty();
        }
    }
}
