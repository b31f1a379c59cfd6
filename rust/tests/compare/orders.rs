//! Sheets in another order: the same samples get the same answer and leave the same places.

use grain_model::rules::Limits;
use grain_model::sheet::{NUMBERS, Sample};
use grain_model::{Judged, Rules};

use crate::encode;
use crate::lent::Difference;
use crate::rng::Rng;
use crate::stations::{Subject, Trial};

impl Trial {
    /// A sheet; then, where orders are compared, the same sheet with its samples in another order, on
    /// the station as it was before.
    pub fn sheet_in_orders(
        &mut self,
        subject: &mut Subject,
        day: u32,
        line: u64,
        numbers: &[i32],
    ) -> Result<Result<Judged, u8>, Difference> {
        if !self.orders {
            return self.sheet(subject, day, line, numbers);
        }
        let before = subject.clone();
        let answer = self.sheet(subject, day, line, numbers)?;
        let Some(moved) = moved(&mut self.rng, numbers) else {
            return Ok(answer);
        };
        let mut other = before.clone();
        let other_answer = self.sheet(&mut other, day, line, &moved)?;
        let (given, then) = ((answer, subject.places), (other_answer, other.places));
        if given != then {
            let places = before.places;
            return Err(Difference(format!(
                "sheet on day {day}, line {line} of {places:?}\n  {numbers:?}: {given:?}\n  {moved:?}: {then:?}"
            )));
        }
        count_order(self, numbers, &answer);
        if let Err(number @ (5 | 6)) = answer {
            count_faults(self, &before, line, [numbers, &moved], number);
        }
        Ok(answer)
    }
}

/// The numbers with their samples in another order; those behind the last whole sample stay at the
/// end. None where that changes nothing.
fn moved(rng: &mut Rng, numbers: &[i32]) -> Option<Vec<i32>> {
    let whole = numbers.chunks_exact(NUMBERS);
    let left_over = whole.remainder();
    let mut samples: Vec<&[i32]> = whole.collect();
    for last in (1..samples.len()).rev() {
        samples.swap(last, rng.below(last + 1));
    }
    samples.push(left_over);
    let moved = samples.concat();
    (moved != numbers).then_some(moved)
}

/// The branches of a sheet that was answered alike in another order.
fn count_order(trial: &mut Trial, numbers: &[i32], answer: &Result<Judged, u8>) {
    let met = &mut trial.met;
    met.branch("order: compared");
    match answer {
        Ok(judged) => {
            let n = judged.outcome.n;
            met.branch("order: accepted");
            met.branch_if(judged.again > 0, "order: again round");
            met.branch_if(judged.dropped > 0 && n > 0, "order: some samples dropped");
            met.branch_if(n == 0, "order: nothing kept");
        }
        Err(number) => {
            met.branch(refused_by(*number));
            let left_over = *number == 4 && numbers.len() % NUMBERS != 0;
            met.branch_if(left_over, "order: numbers left over, refused by 4");
            let extreme = numbers.contains(&i32::MIN) || numbers.contains(&i32::MAX);
            let extreme = *number == 5 && extreme;
            met.branch_if(extreme, "order: an extreme number, refused by 5");
        }
    }
}

fn refused_by(number: u8) -> &'static str {
    match number {
        0 => "order: refused by 0",
        2 => "order: refused by 2",
        3 => "order: refused by 3",
        4 => "order: refused by 4",
        5 => "order: refused by 5",
        6 => "order: refused by 6",
        7 => "order: refused by 7",
        _ => unreachable!("no number of a sheet: {number}"),
    }
}

/// Faults in several samples: which stood first as given, and which in the other order.
fn count_faults(trial: &mut Trial, before: &Subject, line: u64, orders: [&[i32]; 2], number: u8) {
    let station = encode::station(&before.places);
    // A sheet refused by 5 or 6 is one for a line that there is, of a sound station.
    let (row, line) = (station.row as usize, line as usize);
    let limits = &trial.rules.products[row].lines[line];
    let intercept = station.lines[line].intercept;
    let fault = |sample: &[i32]| fault(&trial.rules, limits, intercept, sample);
    let first = |numbers: &[i32]| numbers.chunks_exact(NUMBERS).find_map(fault);
    let name = match (orders.map(first), number) {
        ([Some(6), Some(5)], 5) => "order: first fault a 6, then a 5, refused by 5",
        ([Some(5), Some(6)], 5) => "order: first fault a 5, then a 6, refused by 5",
        ([Some(7), Some(6)], 6) => "order: first fault a 7, then a 6, refused by 6",
        ([Some(6), Some(7)], 6) => "order: first fault a 6, then a 7, refused by 6",
        _ => return,
    };
    trial.met.branch(name);
}

/// The number that is a sample's own, whatever the other samples are. A missing again pair isn't.
fn fault(rules: &Rules, limits: &Limits, intercept: i64, sample: &[i32]) -> Option<u8> {
    let Ok(sample) = Sample::read(rules, sample) else {
        return Some(5);
    };
    if sample.third.is_some() != sample.third_due(limits) {
        return Some(6);
    }
    let deviation = sample.deviation(sample.pair(), intercept);
    let never_due = deviation.abs() <= 2 * limits.sample;
    (never_due && sample.again.is_some()).then_some(7)
}
