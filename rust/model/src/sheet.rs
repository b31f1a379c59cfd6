//! Section "The reference sheet".

use crate::Refusal;
use crate::line::{self, Verdict};
use crate::rules::{Limits, Rules};
use crate::station::{PastSet, Phase, Station};

/// Six numbers a sample.
pub const NUMBERS: usize = 6;
/// Room for the samples of any row.
const MOST_SAMPLES: usize = 8;

/// An outcome carries S, N, the phase after it and the intercept change (0 if none).
#[derive(Clone, Copy, Debug, PartialEq, Eq)]
pub struct Outcome {
    pub s: i64,
    pub n: i64,
    pub phase: Phase,
    pub change: i64,
}

/// S and N of a sheet, and how many again pairs were due and how many samples dropped.
#[derive(Clone, Copy, Debug, Default, PartialEq, Eq)]
pub struct Sums {
    pub s: i64,
    pub n: i64,
    pub again: usize,
    pub dropped: usize,
}

impl Sums {
    /// Its deviation is worked out anew from that pair, without a pair test. A sample still
    /// deviating is dropped. S is the sum of the kept deviations and N is twice the number kept.
    fn add(&mut self, limits: &Limits, deviation: i64, anew: Option<i64>) {
        self.again += usize::from(anew.is_some());
        if anew.is_some_and(|anew| deviates(limits, anew)) {
            self.dropped += 1;
        } else {
            self.s += anew.unwrap_or(deviation);
            self.n += 2;
        }
    }
}

/// An accepted sheet: its outcome, and what led to it.
#[derive(Clone, Copy, Debug, PartialEq, Eq)]
pub struct Judged {
    pub outcome: Outcome,
    pub verdict: Verdict,
    pub again: usize,
    pub dropped: usize,
}

/// Baseline, first, second, third, again-first, again-second. −1 stands for 'not measured', in the
/// last three only.
#[derive(Clone, Copy, Debug, Default, PartialEq, Eq)]
pub struct Sample {
    pub baseline: i64,
    pub first: i64,
    pub second: i64,
    pub third: Option<i64>,
    pub again: Option<[i64; 2]>,
}

impl Sample {
    /// Number 5: A sheet number lies outside 0..10000 (−1 where allowed), or half an again pair is
    /// −1.
    pub fn read(rules: &Rules, numbers: &[i32]) -> Result<Sample, Refusal> {
        let number = |place: usize| {
            let number = i64::from(numbers[place]);
            let fits = (0..=rules.sheet_number).contains(&number);
            if fits { Ok(number) } else { Err(5) }
        };
        let measured = |place: usize| match numbers[place] {
            -1 => Ok(None),
            _ => number(place).map(Some),
        };
        Ok(Sample {
            baseline: number(0)?,
            first: number(1)?,
            second: number(2)?,
            third: measured(3)?,
            again: match (measured(4)?, measured(5)?) {
                (Some(first), Some(second)) => Some([first, second]),
                (None, None) => None,
                _ => return Err(5),
            },
        })
    }

    /// If first and second differ by more than the pair limit, a third is due.
    pub fn third_due(&self, limits: &Limits) -> bool {
        (self.first - self.second).abs() > limits.pair
    }

    /// The pair used is the closest of first-second, first-third, second-third; among equals the
    /// earlier named. Without a third it is first-second.
    pub fn pair(&self) -> [i64; 2] {
        let mut used = [self.first, self.second];
        if let Some(third) = self.third {
            for pair in [[self.first, third], [self.second, third]] {
                if spread(pair) < spread(used) {
                    used = pair;
                }
            }
        }
        used
    }

    /// A sample's deviation is the used pair's sum plus twice the intercept minus twice the
    /// baseline.
    pub fn deviation(&self, pair: [i64; 2], intercept: i64) -> i64 {
        pair[0] + pair[1] + 2 * intercept - 2 * self.baseline
    }
}

fn spread([one, other]: [i64; 2]) -> i64 {
    (one - other).abs()
}

/// It deviates if the magnitude is above twice the sample limit.
fn deviates(limits: &Limits, deviation: i64) -> bool {
    deviation.abs() > 2 * limits.sample
}

/// Rules 1 to 4 with the numbers 4 to 7, each judged over the whole sheet, the lowest first.
pub fn sums(
    rules: &Rules,
    samples: i64,
    limits: &Limits,
    intercept: i64,
    numbers: &[i32],
) -> Result<Sums, Refusal> {
    // 4: The sheet isn't six numbers for each sample of its row.
    if numbers.len() as i64 != NUMBERS as i64 * samples {
        return Err(4);
    }
    let mut read = [Sample::default(); MOST_SAMPLES];
    let samples = &mut read[..samples as usize];
    for (sample, numbers) in samples.iter_mut().zip(numbers.chunks_exact(NUMBERS)) {
        *sample = Sample::read(rules, numbers)?;
    }
    // 6: A third is missing where due or present where not.
    let wrong_third = |sample: &Sample| sample.third.is_some() != sample.third_due(limits);
    if samples.iter().any(wrong_third) {
        return Err(6);
    }
    again_pairs(limits, intercept, samples)
}

/// Rules 2 to 4 and number 7.
fn again_pairs(limits: &Limits, intercept: i64, samples: &[Sample]) -> Result<Sums, Refusal> {
    let mut worked_out = [0; MOST_SAMPLES];
    let deviations = &mut worked_out[..samples.len()];
    for (deviation, sample) in deviations.iter_mut().zip(samples) {
        *deviation = sample.deviation(sample.pair(), intercept);
    }
    let again_due = again_due(limits, deviations);
    let mut sums = Sums::default();
    for (sample, &deviation) in samples.iter().zip(&*deviations) {
        // 7: An again pair is missing where due or present where not.
        let due = again_due && deviates(limits, deviation);
        if sample.again.is_some() != due {
            return Err(7);
        }
        let anew = |pair| sample.deviation(pair, intercept);
        sums.add(limits, deviation, sample.again.map(anew));
    }
    Ok(sums)
}

/// If some sample deviates and the largest minus the smallest deviation is above twice the range
/// limit, an again pair is due for each deviating sample.
fn again_due(limits: &Limits, deviations: &[i64]) -> bool {
    let some_deviates = deviations.iter().any(|&one| deviates(limits, one));
    let largest = deviations.iter().max().unwrap_or(&0);
    let smallest = deviations.iter().min().unwrap_or(&0);
    some_deviates && largest - smallest > 2 * limits.range
}

impl Station {
    /// A sheet call: numbers 0 and 2 to 7, then the sheet's S and N, then the line.
    pub fn sheet(
        &mut self,
        rules: &Rules,
        day: u32,
        line: u64,
        numbers: &[i32],
    ) -> Result<Judged, Refusal> {
        let day = self.called_on(rules, day)?;
        let (product, place) = rules.asked(self.row, line)?;
        let limits = &product.lines[place];
        let line = &mut self.lines[place];
        let sums = sums(rules, product.samples, limits, line.intercept, numbers)?;
        let set = PastSet {
            day,
            s: sums.s,
            n: sums.n,
        };
        let verdict = line::verdict(
            rules,
            limits,
            line.intercept,
            line.phase(),
            line.past(),
            set,
        );
        line::follow(line, verdict, set);
        self.day = day;
        Ok(Judged {
            outcome: Outcome {
                s: sums.s,
                n: sums.n,
                phase: line.phase().phase(),
                change: verdict.change(),
            },
            verdict,
            again: sums.again,
            dropped: sums.dropped,
        })
    }
}
